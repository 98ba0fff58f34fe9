"""A reference model of irig, from its documentation alone, to compare the program with."""
