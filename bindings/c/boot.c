/* Boots a card image: reads the header, lists what stands, and says what the durable end took and where writing goes
 * on. With include/locker_log.h alone as its guide; `tests/bindings` builds it and boots damaged cards with it. */
#include <inttypes.h>
#include <stdio.h>
#include <stdlib.h>

#include "locker_log.h"

static const char *const kinds[] = {"insert", "update", "tombstone"};

static int refused(uint32_t number, const char *what) {
    printf("refused %" PRIu32 " (%s)\n", number, what);
    return 1;
}

static int boot(const uint8_t *file, size_t file_length) {
    uint64_t version = 0, ordinal = 0, bound = 0, end = 0, place = 0, found = 0;
    struct locker_entry entry;
    struct locker_effort effort;
    uint32_t number = locker_read_header(file, file_length, &version, &ordinal);
    if (number != LOCKER_ACCEPTED) return refused(number, "header");
    const uint8_t *region = file + LOCKER_HEADER_LENGTH;
    size_t length = file_length - LOCKER_HEADER_LENGTH, at = 0;
    number = locker_used_bound(region, length, &bound);
    if (number != LOCKER_ACCEPTED) return refused(number, "used bound");
    printf("file %" PRIu64 ", %" PRIu64 " bytes in use\n", ordinal, bound);
    while (locker_walk(region, length, version, ordinal, bound, at, &entry, &found, &place) == 0 && found) {
        printf("%" PRIu64 " %s %" PRIu64 " %.*s %.*s\n", entry.offset, kinds[entry.kind], entry.ns, (int)entry.klen,
               (const char *)region + entry.kplace, (int)entry.vlen, (const char *)region + entry.vplace);
        at = entry.end;
    }
    number = locker_durable_end(region, length, version, ordinal, bound, &end, &place, &effort);
    if (number != LOCKER_ACCEPTED && number != LOCKER_UNKNOWN_TYPE) return refused(number, "durable end");
    printf("lines tried %" PRIu64 ", bytes checksummed %" PRIu64 "\n", effort.lines, effort.bytes);
    if (number == LOCKER_UNKNOWN_TYPE) {
        printf("refused 10 at %" PRIu64 "\n", place);
        return 1;
    }
    printf("writing goes on at %" PRIu64 "\n", end);
    return 0;
}

int main(int count, char **words) {
    if (count != 2) {
        fprintf(stderr, "usage: boot FILE\n");
        return 2;
    }
    FILE *stream = fopen(words[1], "rb");
    if (stream == NULL) {
        perror(words[1]);
        return 2;
    }
    size_t room = (size_t)LOCKER_HEADER_LENGTH + LOCKER_LARGEST_REGION + 1, length = 0, got;
    uint8_t *file = malloc(room);
    if (file == NULL) {
        fclose(stream);
        fprintf(stderr, "boot: no memory\n");
        return 2;
    }
    while ((got = fread(file + length, 1, room - length, stream)) > 0) length += got;
    fclose(stream);
    int status = boot(file, length);
    free(file);
    return status;
}
