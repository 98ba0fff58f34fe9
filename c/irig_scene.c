/* The calls of irig_scene.h: each tests its pointers, and then calls the proved function in
 * crates/c_scenario, which asks for pointers that lead somewhere and for nothing else. */
#include "irig_scene.h"

uint8_t irig_scene_c_run(const uint8_t *text, size_t count, bool all, uint8_t *log, size_t room,
                         size_t *whole);

uint8_t irig_scene_c_run_shown(const uint8_t *text, size_t count, bool all, bool ports,
                               uint8_t *log, size_t room, size_t *whole, uint8_t *reason,
                               size_t reason_room, irig_refusal *refusal);

uint8_t irig_scene_c_run_entries(const uint8_t *text, size_t count, irig_entry *entries,
                                 size_t room, size_t *whole, irig_verdict *verdict,
                                 uint8_t *reason, size_t reason_room, irig_refusal *refusal);

uint8_t irig_scene_c_run_stretches(const uint8_t *text, size_t count, irig_stretch *stretches,
                                   size_t room, size_t *whole, irig_verdict *verdict,
                                   uint8_t *reason, size_t reason_room, irig_refusal *refusal);

uint8_t irig_scene_c_run_lanes(const uint8_t *text, size_t count, irig_lane *lanes, size_t room,
                               size_t *whole, irig_verdict *verdict, uint8_t *reason,
                               size_t reason_room, irig_refusal *refusal);

uint8_t irig_scene_c_run_told(const uint8_t *text, size_t count, irig_device_entry *entries,
                              size_t room, size_t *whole, irig_verdict *verdict, uint8_t *reason,
                              size_t reason_room, irig_refusal *refusal);

uint8_t irig_scene_c_frame_text(const char *time, size_t count, const irig_frame_options *options,
                                char text[110]);

uint8_t irig_scene_c_frame_lines(const char *text, size_t count, uint8_t parity, uint8_t sense,
                                 uint8_t sbs, char *lines, size_t room, size_t *whole);

/* Whether a pointer leads to so many bytes, as it seems. */
static bool leads(const void *bytes, size_t count) {
    return (bytes != NULL) || (count == 0U);
}

uint8_t irig_run(const uint8_t *text, size_t count, bool all, uint8_t *log, size_t room,
                 size_t *whole) {
    static const uint8_t refused = IRIG_RUN_NULL;
    const uint8_t no_text = 0U;
    uint8_t no_log = 0U;
    bool is_there = (whole != NULL) && leads(text, count) && leads(log, room);
    return is_there ? irig_scene_c_run((text != NULL) ? text : &no_text, count, all,
                                       (log != NULL) ? log : &no_log, room, whole)
                    : refused;
}

uint8_t irig_run_shown(const uint8_t *text, size_t count, bool all, bool ports, uint8_t *log,
                       size_t room, size_t *whole, uint8_t *reason, size_t reason_room,
                       irig_refusal *refusal) {
    static const uint8_t refused = IRIG_RUN_NULL;
    const uint8_t no_text = 0U;
    uint8_t no_log = 0U;
    uint8_t no_reason = 0U;
    bool is_there = (whole != NULL) && (refusal != NULL) && leads(text, count) &&
                    leads(log, room) && leads(reason, reason_room);
    return is_there ? irig_scene_c_run_shown((text != NULL) ? text : &no_text, count, all, ports,
                                             (log != NULL) ? log : &no_log, room, whole,
                                             (reason != NULL) ? reason : &no_reason, reason_room,
                                             refusal)
                    : refused;
}

uint8_t irig_run_entries(const uint8_t *text, size_t count, irig_entry *entries, size_t room,
                         size_t *whole, irig_verdict *verdict, uint8_t *reason, size_t reason_room,
                         irig_refusal *refusal) {
    static const uint8_t refused = IRIG_RUN_NULL;
    const uint8_t no_text = 0U;
    irig_entry no_entry = {0};
    uint8_t no_reason = 0U;
    bool is_there = (whole != NULL) && (verdict != NULL) && (refusal != NULL) &&
                    leads(text, count) && leads(entries, room) && leads(reason, reason_room);
    return is_there ? irig_scene_c_run_entries((text != NULL) ? text : &no_text, count,
                                               (entries != NULL) ? entries : &no_entry, room,
                                               whole, verdict,
                                               (reason != NULL) ? reason : &no_reason,
                                               reason_room, refusal)
                    : refused;
}

uint8_t irig_run_stretches(const uint8_t *text, size_t count, irig_stretch *stretches, size_t room,
                           size_t *whole, irig_verdict *verdict, uint8_t *reason,
                           size_t reason_room, irig_refusal *refusal) {
    static const uint8_t refused = IRIG_RUN_NULL;
    const uint8_t no_text = 0U;
    irig_stretch no_stretch = {0};
    uint8_t no_reason = 0U;
    bool is_there = (whole != NULL) && (verdict != NULL) && (refusal != NULL) &&
                    leads(text, count) && leads(stretches, room) && leads(reason, reason_room);
    return is_there ? irig_scene_c_run_stretches((text != NULL) ? text : &no_text, count,
                                                 (stretches != NULL) ? stretches : &no_stretch,
                                                 room, whole, verdict,
                                                 (reason != NULL) ? reason : &no_reason,
                                                 reason_room, refusal)
                    : refused;
}

uint8_t irig_run_lanes(const uint8_t *text, size_t count, irig_lane *lanes, size_t room,
                       size_t *whole, irig_verdict *verdict, uint8_t *reason, size_t reason_room,
                       irig_refusal *refusal) {
    static const uint8_t refused = IRIG_RUN_NULL;
    const uint8_t no_text = 0U;
    irig_lane no_lane = {0};
    uint8_t no_reason = 0U;
    bool is_there = (whole != NULL) && (verdict != NULL) && (refusal != NULL) &&
                    leads(text, count) && leads(lanes, room) && leads(reason, reason_room);
    return is_there ? irig_scene_c_run_lanes((text != NULL) ? text : &no_text, count,
                                             (lanes != NULL) ? lanes : &no_lane, room, whole,
                                             verdict, (reason != NULL) ? reason : &no_reason,
                                             reason_room, refusal)
                    : refused;
}

uint8_t irig_run_told(const uint8_t *text, size_t count, irig_device_entry *entries, size_t room,
                      size_t *whole, irig_verdict *verdict, uint8_t *reason, size_t reason_room,
                      irig_refusal *refusal) {
    static const uint8_t refused = IRIG_RUN_NULL;
    const uint8_t no_text = 0U;
    irig_device_entry no_entry = {0};
    uint8_t no_reason = 0U;
    bool is_there = (whole != NULL) && (verdict != NULL) && (refusal != NULL) &&
                    leads(text, count) && leads(entries, room) && leads(reason, reason_room);
    return is_there ? irig_scene_c_run_told((text != NULL) ? text : &no_text, count,
                                            (entries != NULL) ? entries : &no_entry, room, whole,
                                            verdict, (reason != NULL) ? reason : &no_reason,
                                            reason_room, refusal)
                    : refused;
}

uint8_t irig_frame_text(const char *time, size_t count, const irig_frame_options *options,
                        char text[110]) {
    static const uint8_t refused = IRIG_TEXT_NULL;
    const char no_time = '\0';
    bool is_there = leads(time, count) && (options != NULL) && (text != NULL);
    return is_there ? irig_scene_c_frame_text((time != NULL) ? time : &no_time, count, options, text)
                    : refused;
}

uint8_t irig_frame_lines(const char *text, size_t count, uint8_t parity, uint8_t sense, uint8_t sbs,
                         char *lines, size_t room, size_t *whole) {
    static const uint8_t refused = IRIG_TEXT_NULL;
    const char no_text = '\0';
    char no_lines = '\0';
    bool is_there = leads(text, count) && leads(lines, room) && (whole != NULL);
    return is_there ? irig_scene_c_frame_lines((text != NULL) ? text : &no_text, count, parity, sense,
                                               sbs, (lines != NULL) ? lines : &no_lines, room, whole)
                    : refused;
}
