/* The calls of irig.h: each tests its pointers, and then calls the proved function of its name in
 * crates/c_reader, which asks for pointers that lead somewhere and for nothing else. */
#include "irig.h"

/* ---- the proved functions */

uint8_t irig_c_classify(uint32_t width_us);
uint32_t irig_c_width_us(uint8_t symbol);
void irig_c_widths_us(const uint8_t symbols[100], uint32_t widths_us[100]);
uint32_t irig_c_frame_of(const irig_utc *second, int8_t local_half_hours,
                         const irig_control *control, uint8_t parity, uint8_t symbols[100]);
uint32_t irig_c_encode(const irig_coded *coded, uint8_t symbols[100]);
uint32_t irig_c_decode(const uint8_t *symbols, irig_count count, irig_coded *coded);
bool irig_c_has_parity(const uint8_t symbols[100], uint8_t parity);
uint32_t irig_c_set_parity(uint8_t symbols[100], uint8_t parity);
uint32_t irig_c_control_pack(const irig_control *control, uint32_t *word);
uint32_t irig_c_control_unpack(uint32_t word, irig_control *control);
uint32_t irig_c_second_next(const irig_utc *second, uint8_t mark, irig_utc *following);
uint32_t irig_c_second_write(const irig_utc *second, char text[20]);
uint32_t irig_c_second_read(const char *text, irig_count count, irig_utc *second);
uint32_t irig_c_coded_of(const irig_utc *second, int8_t local_half_hours, irig_coded *coded);
uint32_t irig_c_claim_of(const irig_coded *coded, const irig_control *control, uint8_t sense,
                         irig_claim *claim);
uint32_t irig_c_reader_init(irig_reader *reader, const irig_setup *setup, const irig_table *table);
uint32_t irig_c_reader_pulse(irig_reader *reader, uint8_t port, uint32_t width_us);
uint32_t irig_c_reader_pulses(irig_reader *reader, uint8_t port, const uint32_t *widths_us,
                              irig_count count);
uint8_t irig_c_reader_hear(irig_reader *reader, irig_sync *sync, uint8_t port, uint32_t rise_us,
                           uint32_t width_us);
uint32_t irig_c_reader_tick(irig_reader *reader, irig_report *report);
void irig_c_reader_restart(irig_reader *reader);
uint32_t irig_c_reader_port(const irig_reader *reader, uint8_t port, irig_told *told);
uint32_t irig_c_timekeeper_init(irig_timekeeper *timekeeper, const irig_setup *setup,
                                const irig_table *table, const irig_wires *wires);
uint8_t irig_c_timekeeper_hear(irig_timekeeper *timekeeper, uint8_t line, uint32_t rise_us,
                               uint32_t width_us);
uint32_t irig_c_timekeeper_tick(irig_timekeeper *timekeeper, uint32_t now_us, irig_second *second);
uint32_t irig_c_timekeeper_wait(const irig_timekeeper *timekeeper, uint32_t now_us);
uint32_t irig_c_timekeeper_stamp(const irig_timekeeper *timekeeper, uint32_t time_us,
                                 irig_stamp *stamp);
uint32_t irig_c_timekeeper_rate(const irig_timekeeper *timekeeper, irig_rate *rate);
uint32_t irig_c_timekeeper_line(const irig_timekeeper *timekeeper, uint8_t line,
                                irig_line_said *said);
void irig_c_timekeeper_restart(irig_timekeeper *timekeeper);
uint8_t irig_c_quality_of(uint32_t bound_us);
void irig_c_sync_init(irig_sync *sync);
uint8_t irig_c_sync_pulse(irig_sync *sync, uint32_t rise_us, uint32_t width_us);
void irig_c_sync_idle(irig_sync *sync, uint32_t now_us);

/* What is answered of a null pointer. */
static const uint32_t REFUSED = IRIG_FAULT_VALUE;
static const uint8_t NO_PORT = IRIG_NO_PORT;

const char *irig_version(void) { return IRIG_VERSION; }

/* ---- symbols and frames */

uint8_t irig_classify(uint32_t width_us) { return irig_c_classify(width_us); }

uint32_t irig_width_us(uint8_t symbol) { return irig_c_width_us(symbol); }

void irig_widths_us(const uint8_t symbols[100], uint32_t widths_us[100]) {
    if ((symbols != NULL) && (widths_us != NULL)) {
        irig_c_widths_us(symbols, widths_us);
    }
}

uint32_t irig_frame_of(const irig_utc *second, int8_t local_half_hours, const irig_control *control,
                       uint8_t parity, uint8_t symbols[100]) {
    bool is_there = (second != NULL) && (control != NULL) && (symbols != NULL);
    return is_there ? irig_c_frame_of(second, local_half_hours, control, parity, symbols)
                    : REFUSED;
}

uint32_t irig_encode(const irig_coded *coded, uint8_t symbols[100]) {
    bool is_there = (coded != NULL) && (symbols != NULL);
    return is_there ? irig_c_encode(coded, symbols) : REFUSED;
}

uint32_t irig_decode(const uint8_t *symbols, irig_count count, irig_coded *coded) {
    bool is_there = (symbols != NULL) && (coded != NULL);
    return is_there ? irig_c_decode(symbols, count, coded) : REFUSED;
}

bool irig_has_parity(const uint8_t symbols[100], uint8_t parity) {
    return (symbols != NULL) ? irig_c_has_parity(symbols, parity) : false;
}

uint32_t irig_set_parity(uint8_t symbols[100], uint8_t parity) {
    return (symbols != NULL) ? irig_c_set_parity(symbols, parity) : REFUSED;
}

uint32_t irig_control_pack(const irig_control *control, uint32_t *word) {
    bool is_there = (control != NULL) && (word != NULL);
    return is_there ? irig_c_control_pack(control, word) : REFUSED;
}

uint32_t irig_control_unpack(uint32_t word, irig_control *control) {
    return (control != NULL) ? irig_c_control_unpack(word, control) : REFUSED;
}

/* ---- seconds */

uint32_t irig_second_next(const irig_utc *second, uint8_t mark, irig_utc *following) {
    bool is_there = (second != NULL) && (following != NULL);
    return is_there ? irig_c_second_next(second, mark, following) : REFUSED;
}

uint32_t irig_second_write(const irig_utc *second, char text[20]) {
    bool is_there = (second != NULL) && (text != NULL);
    return is_there ? irig_c_second_write(second, text) : REFUSED;
}

uint32_t irig_second_read(const char *text, irig_count count, irig_utc *second) {
    bool is_there = (text != NULL) && (second != NULL);
    return is_there ? irig_c_second_read(text, count, second) : REFUSED;
}

uint32_t irig_coded_of(const irig_utc *second, int8_t local_half_hours, irig_coded *coded) {
    bool is_there = (second != NULL) && (coded != NULL);
    return is_there ? irig_c_coded_of(second, local_half_hours, coded) : REFUSED;
}

uint32_t irig_claim_of(const irig_coded *coded, const irig_control *control, uint8_t sense,
                       irig_claim *claim) {
    bool is_there = (coded != NULL) && (control != NULL) && (claim != NULL);
    return is_there ? irig_c_claim_of(coded, control, sense, claim) : REFUSED;
}

/* ---- readers */

uint32_t irig_reader_init(irig_reader *reader, const irig_setup *setup, const irig_table *table) {
    bool is_there = (reader != NULL) && (setup != NULL) && (table != NULL);
    return is_there ? irig_c_reader_init(reader, setup, table) : REFUSED;
}

uint32_t irig_reader_pulse(irig_reader *reader, uint8_t port, uint32_t width_us) {
    return (reader != NULL) ? irig_c_reader_pulse(reader, port, width_us) : REFUSED;
}

uint32_t irig_reader_pulses(irig_reader *reader, uint8_t port, const uint32_t *widths_us,
                            irig_count count) {
    bool is_there = (reader != NULL) && (widths_us != NULL);
    return is_there ? irig_c_reader_pulses(reader, port, widths_us, count) : REFUSED;
}

uint8_t irig_reader_hear(irig_reader *reader, irig_sync *sync, uint8_t port, uint32_t rise_us,
                         uint32_t width_us) {
    bool is_there = (reader != NULL) && (sync != NULL);
    return is_there ? irig_c_reader_hear(reader, sync, port, rise_us, width_us) : NO_PORT;
}

/* What is told where a tick is refused, so that nobody takes an older report for this edge's. */
static const irig_report silence = {.cause = IRIG_CAUSE_NO_VOTE, .quality = 15U};

uint32_t irig_reader_tick(irig_reader *reader, irig_report *report) {
    uint32_t answer = REFUSED;
    if ((reader != NULL) && (report != NULL)) {
        answer = irig_c_reader_tick(reader, report);
    }
    if ((answer != IRIG_DONE) && (report != NULL)) {
        *report = silence;
    }
    return answer;
}

void irig_reader_restart(irig_reader *reader) {
    if (reader != NULL) {
        irig_c_reader_restart(reader);
    }
}

uint32_t irig_reader_port(const irig_reader *reader, uint8_t port, irig_told *told) {
    bool is_there = (reader != NULL) && (told != NULL);
    return is_there ? irig_c_reader_port(reader, port, told) : REFUSED;
}

/* ---- timekeepers */

uint32_t irig_timekeeper_init(irig_timekeeper *timekeeper, const irig_setup *setup,
                              const irig_table *table, const irig_wires *wires) {
    bool is_there =
        (timekeeper != NULL) && (setup != NULL) && (table != NULL) && (wires != NULL);
    return is_there ? irig_c_timekeeper_init(timekeeper, setup, table, wires) : REFUSED;
}

uint8_t irig_timekeeper_hear(irig_timekeeper *timekeeper, uint8_t line, uint32_t rise_us,
                             uint32_t width_us) {
    return (timekeeper != NULL) ? irig_c_timekeeper_hear(timekeeper, line, rise_us, width_us)
                                : NO_PORT;
}

uint32_t irig_timekeeper_tick(irig_timekeeper *timekeeper, uint32_t now_us, irig_second *second) {
    uint32_t answer = REFUSED;
    if ((timekeeper != NULL) && (second != NULL)) {
        answer = irig_c_timekeeper_tick(timekeeper, now_us, second);
    }
    if ((answer != IRIG_DONE) && (second != NULL)) {
        *second = (irig_second){.report = silence};
    }
    return answer;
}

uint32_t irig_timekeeper_wait(const irig_timekeeper *timekeeper, uint32_t now_us) {
    return (timekeeper != NULL) ? irig_c_timekeeper_wait(timekeeper, now_us) : 0U;
}

uint32_t irig_timekeeper_stamp(const irig_timekeeper *timekeeper, uint32_t time_us,
                               irig_stamp *stamp) {
    bool is_there = (timekeeper != NULL) && (stamp != NULL);
    return is_there ? irig_c_timekeeper_stamp(timekeeper, time_us, stamp) : REFUSED;
}

uint32_t irig_timekeeper_rate(const irig_timekeeper *timekeeper, irig_rate *rate) {
    bool is_there = (timekeeper != NULL) && (rate != NULL);
    return is_there ? irig_c_timekeeper_rate(timekeeper, rate) : REFUSED;
}

uint32_t irig_timekeeper_line(const irig_timekeeper *timekeeper, uint8_t line,
                              irig_line_said *said) {
    bool is_there = (timekeeper != NULL) && (said != NULL);
    return is_there ? irig_c_timekeeper_line(timekeeper, line, said) : REFUSED;
}

void irig_timekeeper_restart(irig_timekeeper *timekeeper) {
    if (timekeeper != NULL) {
        irig_c_timekeeper_restart(timekeeper);
    }
}

uint8_t irig_quality_of(uint32_t bound_us) { return irig_c_quality_of(bound_us); }

/* ---- lines */

void irig_sync_init(irig_sync *sync) {
    if (sync != NULL) {
        irig_c_sync_init(sync);
    }
}

uint8_t irig_sync_pulse(irig_sync *sync, uint32_t rise_us, uint32_t width_us) {
    static const uint8_t out_of_step = 0U;
    return (sync != NULL) ? irig_c_sync_pulse(sync, rise_us, width_us) : out_of_step;
}

void irig_sync_idle(irig_sync *sync, uint32_t now_us) {
    if (sync != NULL) {
        irig_c_sync_idle(sync, now_us);
    }
}
