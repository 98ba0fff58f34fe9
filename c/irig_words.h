/* The words of irig_texts.c, by their numbers. tools/repo/faults makes this file: of
 * crates/text_faults/src/meaning.rt, and of crates/text_words/src/explained.rt. */
typedef struct words {
    const char *name;
    const char *text;
} words;

static const words faults[] = {
    {"", ""},
    {"Short", "fewer than 100 symbols, n of them"},
    {"Long", "more than 100 symbols"},
    {"Pulse", "the lowest wrong element is i, a bad pulse"},
    {"Marker",
     "the lowest wrong element is i, a marker where data belongs or data where a marker does"},
    {"Digit",
     "the first wrong field, of second, minute, hour, day, year, has a decimal digit above 9"},
    {"Range", "that field has digits, and is out of its range"},
    {"NoSuchDay", "day 366 of a year that has 365"},
    {"OutOfYears", "the UTC day is before 2000-01-02 or after 2099-12-30"},
    {"Second60", "second 60 elsewhere than in 23:59 UTC of a month's last day"},
    {"DeletedSecond",
     "23:59:59 UTC of a month's last day, and the frame says that this second is deleted"},
    {"BadStart", "start is no second of this timeline"},
    {"LeapNotMonthEnd", "a leap on a day that is not a month's last"},
    {"LeapTwice", "a day is listed twice in leaps"},
    {"OutOfYears", "a leap outside 2000-01-02 to 2099-12-30"},
    {"Offset", "a zone more than 31 half hours from UTC"},
    {"Changes", "a change inside a minute, or not later than the one before"},
    {"Parity", "the ones at elements 1 to 75 have the wrong parity"},
    {"Sbs", "the straight binary seconds are not those of the coded time"},
    {"NoSuchReader", "no reader or device has this name"},
    {"NoSuchGenerator", "there is no generator g"},
    {"FutureReplay", "a replay of an edge that generator g has not reached"},
    {"EndOfYears", "a second after 2099-12-30"},
    {"TooLong", "more than 65,536 bytes in a line"},
    {"Json", "no JSON, no UTF-8, or nested deeper than 127"},
    {"Shape",
     "a key is missing or unknown, or a value has another type; a do or kind that is not there"},
    {"Value",
     "a value out of its range or none of those that it may have, a null pointer, no such "
     "port, or a reader or timekeeper whose numbers something else has changed"},
    {"Version", "a version that this program does not know"},
    {"Names", "no reader or device, or more than 16, a name of another form, or a name twice"},
    {"NoPlant", "the input ended before a plant line"},
    {"TooManyLines", "more than 1,000,000 lines"},
    {"TableEnd", "a table goes beyond 2099-12-30"},
    {"TableLong", "a table with more than 64 leaps"},
    {"TableDay", "a table's leap on a day that is not a month's last, or after until"},
    {"TableTwice", "a day is listed twice in a table"},
    {"Drift",
     "a holdover longer than a timekeeper's counter can count: (holdover + 2) * drift_us is "
     "above 490,000, and wander_ppb is 0"},
    {"Early", "a second before the first day that the reader takes, not_before"},
    {"BeforeStart", "a stamp of an instant before edge 0"},
};
static const words locks[] = {
    {"unlocked", "the reader knows nothing of the time, and announces nothing"},
    {"acquiring",
     "there were N votes in a row, fewer than lock_after, since the reader began afresh; it "
     "announces nothing yet"},
    {"locked", "the announced second stands on a vote for the one before it"},
    {"holdover",
     "there was no vote for N edges, and the announced second is counted from the last one"},
};
static const words causes[] = {
    {"voted",
     "there was a vote: two of three ports, or three of five, told the second that has just "
     "ended, and the same of a leap second"},
    {"held", "there was no vote, and the reader counts on from its last one"},
    {"acquiring",
     "there were N votes in a row, fewer than lock_after, since the reader began afresh; it "
     "announces nothing yet"},
    {"no-vote", "there was no vote, and the reader has nothing to count from, as after a restart"},
    {"expired", "there was no vote for more than holdover edges, and the reader no longer counts"},
    {"leap-guard",
     "counting alone the reader came to 23:59:58 of a month's last day, and no frame or table "
     "told if a leap second comes; or, of a timekeeper, frames and its leap table contradict "
     "one another"},
    {"jump",
     "the vote is for another second than the one that follows, and the reader begins afresh"},
    {"range-end", "the next second would be after 2099-12-30"},
};
