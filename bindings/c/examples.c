/* The two examples in the opening comment of include/locker_log.h, line by line, and what they name. `tests/bindings`
 * holds each line of the header's examples to the lines here, builds this and compares what it writes. */
#include <inttypes.h>
#include <stdio.h>
#include <string.h>

#include "locker_log.h"

static int refuse_card(void) {
    printf("card refused\n");
    return 1;
}

static void use(uint64_t ns, const uint8_t *key, uint64_t klen, const uint8_t *value, uint64_t vlen) {
    printf("namespace %" PRIu64 " %.*s: %.*s\n", ns, (int)klen, (const char *)key, (int)vlen, (const char *)value);
}

static void note_effort(uint64_t lines, uint64_t bytes) {
    printf("lines tried %" PRIu64 ", bytes checksummed %" PRIu64 "\n", lines, bytes);
}

static void continue_writing_at(uint64_t end) { printf("writing goes on at %" PRIu64 "\n", end); }

static int boot(const uint8_t *file, size_t file_length) {
    uint64_t version, ordinal, bound, end, place, found, at = 0;
    struct locker_entry entry;
    struct locker_effort effort;
    if (locker_read_header(file, file_length, &version, &ordinal) != 0)
        return refuse_card();
    const uint8_t *region = file + LOCKER_HEADER_LENGTH;
    size_t length = file_length - LOCKER_HEADER_LENGTH;
    if (locker_used_bound(region, length, &bound) != 0)
        return refuse_card();
    while (locker_walk(region, length, version, ordinal, bound, at, &entry, &found, &place) == 0 && found) {
        use(entry.ns, region + entry.kplace, entry.klen, region + entry.vplace, entry.vlen);
        at = entry.end;
    }
    if (locker_durable_end(region, length, version, ordinal, bound, &end, &place, &effort) != 0)
        return refuse_card();
    note_effort(effort.lines, effort.bytes);
    continue_writing_at(end);
    return 0;
}

static int turn_to_the_next_file(void) {
    printf("no space in this file\n");
    return 1;
}

static int refuse_tracker(void) {
    printf("tracker refused\n");
    return 1;
}

static void keep(uint64_t ordinal, uint64_t offset, int64_t sum) {
    printf("finished up to file %" PRIu64 ", offset %" PRIu64 ", %" PRId64 " more\n", ordinal, offset, sum);
}

static int reservation(uint8_t *region, size_t length, uint64_t version, uint64_t ordinal, uint64_t used,
                       const uint8_t *key, const uint8_t *value) {
    struct locker_tracker tracker;
    struct locker_reserved reserved;
    struct locker_progress progress;
    uint64_t next, done;
    int64_t sum;
    locker_tracker_fresh(&tracker);
    if (locker_tracker_reserve(&tracker, 3, ordinal, used, length, false, LOCKER_LINE, &reserved) != 0)
        return turn_to_the_next_file();
    used = reserved.used;
    if (locker_append_data(region, length, version, ordinal, reserved.place, LOCKER_INSERT, 1, key, 2, value, 1,
                           &next) != 0)
        locker_tracker_abandon(&tracker, 3, reserved.number, &done);
    else
        locker_tracker_complete(&tracker, 3, reserved.number, 1, &done);
    if (locker_tracker_checkpoint(&tracker, ordinal, used, &progress) != 0)
        return refuse_tracker();
    if (locker_tracker_drain(&tracker, progress.limit, &sum) != 0)
        return refuse_tracker();
    keep(progress.ordinal, progress.offset, sum);
    return 0;
}

int main(void) {
    static uint8_t file[LOCKER_HEADER_LENGTH + 32];
    uint8_t *region = file + LOCKER_HEADER_LENGTH;
    const uint64_t version = LOCKER_VERSION_2, ordinal = 7;
    boot(file, sizeof file);
    if (locker_write_header(file, sizeof file, version, ordinal) != LOCKER_ACCEPTED) return 1;
    if (reservation(region, 32, version, ordinal, 0, (const uint8_t *)"A7", (const uint8_t *)"8") != 0) return 1;
    if (reservation(region, 32, version, ordinal, 16, (const uint8_t *)"A7", (const uint8_t *)"9") != 0) return 1;
    if (reservation(region, 32, version, ordinal, 32, (const uint8_t *)"A7", (const uint8_t *)"9") == 0) return 1;
    return boot(file, sizeof file);
}
