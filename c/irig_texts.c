/* The texts of irig.h. */
#include "irig.h"
#include "irig_words.h"

static const size_t fault_count = sizeof(faults) / sizeof(faults[0]);
static const size_t lock_count = sizeof(locks) / sizeof(locks[0]);
static const size_t cause_count = sizeof(causes) / sizeof(causes[0]);

static words words_of(const words *table, size_t count, uint32_t number) {
    static const words none = {"", ""};
    return (number < count) ? table[number] : none;
}

const char *irig_fault_name(uint32_t answer) {
    return words_of(faults, fault_count, IRIG_FAULT(answer)).name;
}

const char *irig_fault_text(uint32_t answer) {
    return words_of(faults, fault_count, IRIG_FAULT(answer)).text;
}

const char *irig_lock_name(uint8_t lock) { return words_of(locks, lock_count, lock).name; }

const char *irig_lock_text(uint8_t lock) { return words_of(locks, lock_count, lock).text; }

const char *irig_cause_name(uint8_t cause) { return words_of(causes, cause_count, cause).name; }

const char *irig_cause_text(uint8_t cause) { return words_of(causes, cause_count, cause).text; }
