"""Facts: what definitions of crates/*/specs answer by implementations that do not know them."""
