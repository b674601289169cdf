/* Calls every function of the library at its limits and with each of its refusals, with include/locker_log.h alone as
 * its guide, and looks at everything that a call may and may not change. What is expected was written down from
 * documents 01 and 02: the checksum, the entries and the trackers here are made by plain code of this file.
 *
 * Writes a line for each function with the number of checks that held, and a total. The first failures are told with
 * their lines; the exit status is 1 where a check failed. */
#define _DEFAULT_SOURCE
#include <inttypes.h>
#include <stdio.h>
#include <stdlib.h>
#include <string.h>
#include <sys/mman.h>

#include "locker_log.h"

/* ---- checks, counted for each function */

enum { MOST_TOLD = 10 };

static const char *function;
static unsigned long checks, all_checks, functions;
static unsigned long failures;

static void end_function(void) {
    if (function != NULL) printf("%-28s %6lu checks\n", function, checks);
    all_checks += checks;
    checks = 0;
}

static void begin(const char *name) {
    end_function();
    function = name;
    functions++;
}

static void check(bool held, const char *claim, int line) {
    checks++;
    if (held) return;
    failures++;
    if (failures <= MOST_TOLD) fprintf(stderr, "limits.c:%d: %s: does not hold: %s\n", line, function, claim);
}

#define CHECK(claim) check((claim), #claim, __LINE__)

/* What an out parameter holds before a call. A refusal leaves it. */
#define UNTOUCHED UINT64_C(0x5555aaaa1234fedc)

#define largest ((size_t)LOCKER_LARGEST_REGION)

/* A region of one byte more than the largest, all zeros before and after each test. */
static uint8_t *big;

static bool all_are(const uint8_t *bytes, size_t length, uint8_t byte) {
    return length == 0 || (bytes[0] == byte && memcmp(bytes, bytes + 1, length - 1) == 0);
}

/* A copy of the bytes, for its caller to free. */
static uint8_t *copied(const uint8_t *bytes, size_t length) {
    uint8_t *copy = malloc(length + 1);
    if (copy == NULL) {
        fprintf(stderr, "limits: no memory\n");
        exit(2);
    }
    memcpy(copy, bytes, length);
    return copy;
}

/* ---- the rules of document 01 in plain code */

static uint16_t plain_sum(uint16_t state, const uint8_t *bytes, size_t length) {
    unsigned sum = state;
    for (size_t i = 0; i < length; i++) {
        sum ^= (unsigned)bytes[i] << 8;
        for (int bit = 0; bit < 8; bit++) sum = (sum & 0x8000u ? sum << 1 ^ 0x1021u : sum << 1) & 0xffffu;
    }
    return (uint16_t)sum;
}

static void put_number(uint8_t *at, uint64_t number, int bytes) {
    for (int i = 0; i < bytes; i++) at[i] = (uint8_t)(number >> 8 * i);
}

/* What decides a file's marks. */
struct rule {
    uint64_t version, ordinal;
};

/* The rule that put_entry marks by, and that the calls below are told. */
static struct rule rule = {LOCKER_VERSION_1, 0};

static uint64_t mark(size_t p) {
    uint64_t added = rule.version == LOCKER_VERSION_2 ? rule.ordinal & 0xffffff : 0;
    return (p / 16 + 0x5A17C0 + added) & 0xffffff;
}

/* The one line of the largest region that has this mark. */
static size_t line_of(uint64_t wanted) { return (size_t)((wanted - mark(0)) & 0xffffff) * 16; }

/* An entry at p without its filling; what it answers is its length. Layout 2 is a tombstone's, any other a data
 * entry's. */
static size_t put_entry(uint8_t *region, size_t p, unsigned layout, unsigned kind, unsigned ns, const uint8_t *key,
                        size_t klen, const uint8_t *value, size_t vlen) {
    uint8_t *at = region + p;
    size_t head = layout == 2 ? 6 : 8;
    put_number(at, mark(p) | (uint64_t)ns << 24 | (uint64_t)kind << 30, 4);
    put_number(at + 4, klen, 2);
    if (layout != 2) put_number(at + 6, vlen, 2);
    memcpy(at + head, value, vlen);
    memcpy(at + head + vlen, key, klen);
    put_number(at + head + vlen + klen, plain_sum(0xffff, at, head + vlen + klen), 2);
    return head + vlen + klen + 2;
}

static size_t up(size_t length) { return (length + 15) / 16 * 16; }

/* The sample of document 01: insert `9`, update `10` and a tombstone of A7 in namespace 1, 48 bytes. */
static void put_sample(uint8_t *region) {
    memset(region, 0xff, 48);
    put_entry(region, 0, 0, 0, 1, (const uint8_t *)"A7", 2, (const uint8_t *)"9", 1);
    put_entry(region, 16, 1, 1, 1, (const uint8_t *)"A7", 2, (const uint8_t *)"10", 2);
    put_entry(region, 32, 2, 2, 1, (const uint8_t *)"A7", 2, (const uint8_t *)"", 0);
}

static const struct locker_entry no_entry = {UNTOUCHED, UNTOUCHED, UNTOUCHED, UNTOUCHED,
                                             UNTOUCHED, UNTOUCHED, UNTOUCHED, UNTOUCHED};

static bool same_entry(struct locker_entry a, struct locker_entry b) { return memcmp(&a, &b, sizeof a) == 0; }

/* The entry that put_entry has put at p. */
static struct locker_entry entry_at(size_t p, unsigned layout, unsigned kind, unsigned ns, size_t klen, size_t vlen) {
    size_t head = layout == 2 ? 6 : 8;
    return (struct locker_entry){p, kind, ns, klen, vlen, p + head, p + head + vlen, p + head + vlen + klen + 2};
}

/* ---- under which rules the calls are tried */

/* Both versions. Under version 1 the ordinal changes nothing. */
static const struct rule rules[] = {
    {LOCKER_VERSION_1, 0}, {LOCKER_VERSION_1, UINT64_MAX}, {LOCKER_VERSION_2, 7}, {LOCKER_VERSION_2, UINT64_MAX}};

static void under_each_rule(void (*trial)(void)) {
    for (size_t i = 0; i < sizeof rules / sizeof *rules; i++) {
        rule = rules[i];
        trial();
    }
}

/* Neither version, though some are if they are cut to one, two or four bytes. */
static const uint64_t neither[] = {0, 3, 0x101, 0x102, 0x10001, 0x10002, UINT64_C(0x100000000), UINT64_C(0x100000001),
                                   UINT64_C(0x100000002), UINT64_C(0x8000000000000001), UINT64_MAX};
enum { NEITHER = sizeof neither / sizeof *neither };

/* A call gets 2, both where it would be accepted and where all its other refusals are due. What must stay, it looks at
 * itself. */
static void under_neither_version(uint32_t (*call)(bool due)) {
    for (size_t i = 0; i < NEITHER; i++) {
        rule = (struct rule){neither[i], 7};
        CHECK(call(false) == LOCKER_WRONG_HEADER);
        CHECK(call(true) == LOCKER_WRONG_HEADER);
    }
}

/* A card is used again: the sample of a version 2 file of ordinal 7 still stands, and the calls are told another file.
 * Those that have its marks see it. */
static const struct {
    struct rule rule;
    bool seen;
} later[] = {{{LOCKER_VERSION_2, 7}, true},
             {{LOCKER_VERSION_2, 0x1000007}, true},
             {{LOCKER_VERSION_2, UINT64_MAX - 0xFFFFF8}, true},
             {{LOCKER_VERSION_2, 6}, false},
             {{LOCKER_VERSION_2, 8}, false},
             {{LOCKER_VERSION_2, 0x1000008}, false},
             {{LOCKER_VERSION_2, 0}, false},
             {{LOCKER_VERSION_2, UINT64_MAX}, false},
             {{LOCKER_VERSION_1, 7}, false},
             {{LOCKER_VERSION_1, 0x1000007}, false}};
enum { LATER = sizeof later / sizeof *later };

static bool recycle(uint8_t *region, size_t which) {
    rule = later[0].rule;
    put_sample(region);
    rule = later[which].rule;
    return later[which].seen;
}

/* A version 1 file's sample, and a version 2 file that has the same marks. */
static void share_marks(uint8_t *region) {
    rule = (struct rule){LOCKER_VERSION_1, 5};
    put_sample(region);
    rule = (struct rule){LOCKER_VERSION_2, 0x1000000};
}

/* ---- checksum */

static void try_hash(void) {
    begin("locker_hash");
    uint8_t bytes[600];
    for (size_t i = 0; i < sizeof bytes; i++) bytes[i] = (uint8_t)(i * 37 + i / 256);
    CHECK(locker_hash((const uint8_t *)"123456789", 9) == 0x29b1);
    CHECK(locker_hash(bytes, 0) == 0xffff);
    uint8_t *kept = copied(bytes, sizeof bytes);
    for (size_t length = 0; length <= sizeof bytes; length++)
        CHECK(locker_hash(bytes, length) == plain_sum(0xffff, bytes, length));
    for (size_t from = 0; from < 32; from++)
        CHECK(locker_hash(bytes + from, 256) == plain_sum(0xffff, bytes + from, 256));
    for (unsigned byte = 0; byte < 256; byte++) {
        uint8_t one = (uint8_t)byte;
        CHECK(locker_hash(&one, 1) == plain_sum(0xffff, &one, 1));
    }
    /* every entry of both tables, each byte beside every other */
    for (unsigned pair = 0; pair < 65536; pair++) {
        uint8_t two[2] = {(uint8_t)(pair >> 8), (uint8_t)pair};
        CHECK(locker_hash(two, 2) == plain_sum(0xffff, two, 2));
    }
    /* the largest region, one byte less and one more, with all bytes in it */
    for (size_t i = 0; i <= largest; i++) big[i] = (uint8_t)(i * 37 + i / 256);
    uint16_t sum = plain_sum(0xffff, big, largest - 1);
    for (size_t length = largest - 1; length <= largest + 1; length++) {
        CHECK(locker_hash(big, length) == sum);
        sum = plain_sum(sum, big + length, length <= largest);
    }
    memset(big, 0, largest + 1);
    CHECK(memcmp(kept, bytes, sizeof bytes) == 0);
    free(kept);
}

static void try_update(void) {
    begin("locker_update");
    uint8_t bytes[40];
    for (size_t i = 0; i < sizeof bytes; i++) bytes[i] = (uint8_t)(i * 101 + 3);
    for (unsigned state = 0; state <= 0xffff; state++) {
        uint16_t from = (uint16_t)state;
        CHECK(locker_update(from, bytes, state % 40) == plain_sum(from, bytes, state % 40));
    }
    CHECK(locker_update(0, bytes, 0) == 0);
    CHECK(locker_update(0xffff, bytes, 0) == 0xffff);
    for (size_t cut = 0; cut <= sizeof bytes; cut++) {
        uint16_t first = locker_hash(bytes, cut);
        CHECK(locker_update(first, bytes + cut, sizeof bytes - cut) == locker_hash(bytes, sizeof bytes));
    }
}

/* ---- header */

static uint32_t read_header(const uint8_t *bytes, size_t length, struct rule *told) {
    uint8_t *kept = copied(bytes, length);
    *told = (struct rule){UNTOUCHED, UNTOUCHED};
    uint32_t answer = locker_read_header(bytes, length, &told->version, &told->ordinal);
    CHECK(memcmp(kept, bytes, length) == 0);
    if (answer != LOCKER_ACCEPTED) CHECK(told->version == UNTOUCHED && told->ordinal == UNTOUCHED);
    free(kept);
    return answer;
}

static void read_header_of(uint64_t version) {
    uint8_t bytes[LOCKER_HEADER_LENGTH + 1] = "LOCKDAT1";
    struct rule told;
    put_number(bytes + 8, version, 4);
    put_number(bytes + 16, UINT64_C(0x0102030405060708), 8);
    CHECK(read_header(bytes, LOCKER_HEADER_LENGTH, &told) == LOCKER_ACCEPTED);
    CHECK(told.version == version && told.ordinal == UINT64_C(0x0102030405060708));
    CHECK(read_header(bytes, LOCKER_HEADER_LENGTH + 1, &told) == LOCKER_ACCEPTED);
    static const size_t short_of_it[] = {0, 1, 8, 12, 24, LOCKER_HEADER_LENGTH - 1};
    for (size_t i = 0; i < sizeof short_of_it / sizeof *short_of_it; i++)
        CHECK(read_header(bytes, short_of_it[i], &told) == LOCKER_HEADER_TOO_SHORT);
    /* each bit of signature and version counts; no bit of the zeros does */
    for (size_t byte = 0; byte < LOCKER_HEADER_LENGTH; byte = byte == 63 ? LOCKER_HEADER_LENGTH - 8 : byte + 1) {
        for (int bit = 0; bit < 8; bit++) {
            uint32_t wanted = byte < 12 ? LOCKER_WRONG_HEADER : LOCKER_ACCEPTED;
            bytes[byte] ^= (uint8_t)(1 << bit);
            CHECK(read_header(bytes, LOCKER_HEADER_LENGTH, &told) == wanted);
            if (byte < 12) CHECK(read_header(bytes, LOCKER_HEADER_LENGTH - 1, &told) == LOCKER_HEADER_TOO_SHORT);
            bytes[byte] ^= (uint8_t)(1 << bit);
        }
    }
    static const uint64_t ordinals[] = {0, 1, UINT64_MAX - 1, UINT64_MAX};
    for (size_t i = 0; i < sizeof ordinals / sizeof *ordinals; i++) {
        put_number(bytes + 16, ordinals[i], 8);
        CHECK(read_header(bytes, LOCKER_HEADER_LENGTH, &told) == LOCKER_ACCEPTED);
        CHECK(told.version == version && told.ordinal == ordinals[i]);
    }
}

static void try_read_header(void) {
    begin("locker_read_header");
    read_header_of(LOCKER_VERSION_1);
    read_header_of(LOCKER_VERSION_2);
    /* of all that two bytes hold 1 and 2 alone are a version, and beside another byte that isn't 0 they are none */
    uint8_t bytes[LOCKER_HEADER_LENGTH] = "LOCKDAT1";
    struct rule told;
    for (uint64_t version = 0; version <= 0xffff; version++) {
        put_number(bytes + 8, version, 4);
        CHECK(read_header(bytes, sizeof bytes, &told) ==
              (version == 1 || version == 2 ? LOCKER_ACCEPTED : LOCKER_WRONG_HEADER));
    }
    for (uint64_t byte = 1; byte <= 0xff; byte++) {
        for (int place = 1; place < 4; place++) {
            for (uint64_t version = 1; version <= 2; version++) {
                put_number(bytes + 8, byte << 8 * place | version, 4);
                CHECK(read_header(bytes, sizeof bytes, &told) == LOCKER_WRONG_HEADER);
            }
        }
    }
}

static void write_header_of(uint64_t version) {
    uint8_t lent[LOCKER_HEADER_LENGTH + 16], wanted[sizeof lent];
    static const uint64_t ordinals[] = {0, 1, UINT64_C(0x0102030405060708), UINT64_MAX};
    for (size_t i = 0; i < sizeof ordinals / sizeof *ordinals; i++) {
        for (size_t length = LOCKER_HEADER_LENGTH; length <= LOCKER_HEADER_LENGTH + 1; length++) {
            memset(lent, 0xee, sizeof lent);
            memset(wanted, 0xee, sizeof wanted);
            memset(wanted, 0, LOCKER_HEADER_LENGTH);
            memcpy(wanted, "LOCKDAT1", 8);
            put_number(wanted + 8, version, 4);
            put_number(wanted + 16, ordinals[i], 8);
            CHECK(locker_write_header(lent, length, version, ordinals[i]) == LOCKER_ACCEPTED);
            CHECK(memcmp(lent, wanted, sizeof lent) == 0);
        }
    }
}

/* Writes a header under a version that is wrong, or too short a one, or both. */
static uint32_t refused_header(uint64_t version, size_t length) {
    uint8_t lent[LOCKER_HEADER_LENGTH + 16];
    memset(lent, 0xee, sizeof lent);
    uint32_t answer = locker_write_header(lent, length, version, 7);
    CHECK(all_are(lent, sizeof lent, 0xee));
    return answer;
}

static void try_write_header(void) {
    begin("locker_write_header");
    write_header_of(LOCKER_VERSION_1);
    write_header_of(LOCKER_VERSION_2);
    static const size_t short_of_it[] = {0, 1, 24, LOCKER_HEADER_LENGTH - 1};
    for (size_t i = 0; i < sizeof short_of_it / sizeof *short_of_it; i++) {
        CHECK(refused_header(LOCKER_VERSION_1, short_of_it[i]) == LOCKER_HEADER_TOO_SHORT);
        CHECK(refused_header(LOCKER_VERSION_2, short_of_it[i]) == LOCKER_HEADER_TOO_SHORT);
    }
    for (size_t i = 0; i < NEITHER; i++) {
        CHECK(refused_header(neither[i], LOCKER_HEADER_LENGTH) == LOCKER_WRONG_HEADER);
        CHECK(refused_header(neither[i], LOCKER_HEADER_LENGTH + 1) == LOCKER_WRONG_HEADER);
        CHECK(refused_header(neither[i], LOCKER_HEADER_LENGTH - 1) == LOCKER_HEADER_TOO_SHORT);
    }
}

/* ---- read at a place */

/* Reads, and looks at what must stay: the region (a small one), and on a refusal the entry. */
static uint32_t read_at(const uint8_t *region, size_t length, size_t p, size_t hint, struct locker_entry *entry) {
    size_t looked = length <= 200000 ? length : 0;
    uint8_t *kept = copied(region, looked);
    *entry = no_entry;
    uint32_t answer = locker_read_at(region, length, rule.version, rule.ordinal, p, hint, entry);
    CHECK(memcmp(kept, region, looked) == 0);
    if (answer != LOCKER_ACCEPTED) CHECK(same_entry(*entry, no_entry));
    free(kept);
    return answer;
}

static void read_at_limits(void) {
    struct locker_entry entry;
    uint8_t region[64] = {0};
    put_sample(region);
    CHECK(read_at(region, 64, 0, SIZE_MAX, &entry) == LOCKER_ACCEPTED);
    CHECK(same_entry(entry, entry_at(0, 0, LOCKER_INSERT, 1, 2, 1)));
    /* the type is the one that was written */
    CHECK(read_at(region, 64, 16, 64, &entry) == LOCKER_ACCEPTED);
    CHECK(same_entry(entry, entry_at(16, 0, LOCKER_UPDATE, 1, 2, 2)));
    /* 13 bytes are enough, whether the hint or the region ends them */
    for (size_t seen = 0; seen <= 20; seen++) {
        uint32_t wanted = seen < 13 ? LOCKER_ENTRY_TOO_SHORT : LOCKER_ACCEPTED;
        CHECK(read_at(region, 64, 0, seen, &entry) == wanted);
        CHECK(read_at(region, seen, 0, SIZE_MAX, &entry) == wanted);
    }
    /* off a line, at the region's end, past it and near 2^64 */
    static const size_t off[] = {1, 8, 15, 17, 63, 65, SIZE_MAX, SIZE_MAX - 14, SIZE_MAX / 2};
    for (size_t i = 0; i < sizeof off / sizeof *off; i++)
        CHECK(read_at(region, 64, off[i], 64, &entry) == LOCKER_NOT_ON_LINE);
    static const size_t past[] = {64, 80, (size_t)1 << 63, SIZE_MAX - 15};
    for (size_t i = 0; i < sizeof past / sizeof *past; i++)
        CHECK(read_at(region, 64, past[i], SIZE_MAX, &entry) == LOCKER_ENTRY_TOO_SHORT);
    CHECK(read_at(region, 0, 0, 0, &entry) == LOCKER_ENTRY_TOO_SHORT);
    CHECK(read_at(region, 0, 8, 0, &entry) == LOCKER_NOT_ON_LINE);
    /* the order after 3 and 5: 6 under eight bytes, 7, 6 for the layout, 8, 9 */
    uint8_t wrong[64];
    memcpy(wrong, region, 64);
    wrong[0] ^= 1;
    CHECK(read_at(wrong, 64, 0, 7, &entry) == LOCKER_ENTRY_TOO_SHORT);
    CHECK(read_at(wrong, 64, 0, 8, &entry) == LOCKER_WRONG_MARK);
    CHECK(read_at(region, 64, 0, 8, &entry) == LOCKER_ENTRY_TOO_SHORT);
    memcpy(wrong, region, 64);
    wrong[8] ^= 1;
    CHECK(read_at(wrong, 64, 0, 12, &entry) == LOCKER_ENTRY_TOO_SHORT);
    CHECK(read_at(wrong, 64, 0, 13, &entry) == LOCKER_WRONG_CHECKSUM);
    for (unsigned kind = 0; kind < 4; kind++) {
        for (unsigned ns = 0; ns <= LOCKER_LAST_NAMESPACE; ns++) {
            size_t length = put_entry(wrong, 48, 0, kind, ns, (const uint8_t *)"k", 1, (const uint8_t *)"v", 1);
            CHECK(read_at(wrong, 64, 48, length, &entry) == (kind < 2 ? LOCKER_ACCEPTED : LOCKER_TYPE_NOT_ALLOWED));
            if (kind < 2) CHECK(same_entry(entry, entry_at(48, 0, kind, ns, 1, 1)));
            wrong[48 + length - 1] ^= 0x80;
            CHECK(read_at(wrong, 64, 48, length, &entry) == LOCKER_WRONG_CHECKSUM);
        }
    }
    /* every length that two bytes hold is read */
    static const size_t lengths[] = {0, 1, 4096, 4097, 32768, 32769, 65535};
    uint8_t *part = calloc(1, 140000), *large = calloc(1, 140000);
    if (part == NULL || large == NULL) exit(2);
    for (size_t i = 0; i < sizeof lengths / sizeof *lengths; i++) {
        for (size_t j = 0; j < sizeof lengths / sizeof *lengths; j++) {
            for (unsigned kind = LOCKER_INSERT; kind <= LOCKER_UPDATE; kind++) {
                size_t length = put_entry(large, 16, 0, kind, 63, part, lengths[i], part, lengths[j]);
                CHECK(read_at(large, 16 + length, 16, length, &entry) == LOCKER_ACCEPTED);
                CHECK(same_entry(entry, entry_at(16, 0, kind, 63, lengths[i], lengths[j])));
                CHECK(read_at(large, 16 + length - 1, 16, length, &entry) == LOCKER_ENTRY_TOO_SHORT);
            }
        }
    }
    free(part);
    free(large);
    /* the largest region, its last line, and one byte more, where 3 comes before 5 and 6 */
    size_t last = largest - 16;
    size_t length = put_entry(big, last, 0, 1, 5, (const uint8_t *)"edge", 4, (const uint8_t *)"56", 2);
    CHECK(length == 16);
    CHECK(read_at(big, largest, last, SIZE_MAX, &entry) == LOCKER_ACCEPTED);
    CHECK(same_entry(entry, entry_at(last, 0, LOCKER_UPDATE, 5, 4, 2)));
    CHECK(read_at(big, largest - 1, last, SIZE_MAX, &entry) == LOCKER_ENTRY_TOO_SHORT);
    CHECK(read_at(big, largest + 1, last, SIZE_MAX, &entry) == LOCKER_REGION_TOO_LARGE);
    CHECK(read_at(big, largest + 1, 1, 0, &entry) == LOCKER_REGION_TOO_LARGE);
    memset(big + last, 0, 16);
    /* the mark of one line is 0, in version 1 of 173,966,336: zeros match it, and their checksum doesn't */
    if (rule.version == LOCKER_VERSION_1) CHECK(line_of(0) == 173966336);
    CHECK(read_at(big, largest, line_of(0), SIZE_MAX, &entry) == LOCKER_WRONG_CHECKSUM);
    CHECK(read_at(big, largest, line_of(0) - 16, SIZE_MAX, &entry) == LOCKER_WRONG_MARK);
}

static uint32_t read_of_a_version(bool due) {
    struct locker_entry entry;
    uint8_t region[64] = {0};
    put_sample(region);
    return due ? read_at(big, largest + 1, 1, 0, &entry) : read_at(region, 64, 0, SIZE_MAX, &entry);
}

static void try_read_at(void) {
    begin("locker_read_at");
    under_each_rule(read_at_limits);
    under_neither_version(read_of_a_version);
    struct locker_entry entry;
    uint8_t region[64] = {0};
    for (size_t i = 0; i < LATER; i++) {
        uint32_t wanted = recycle(region, i) ? LOCKER_ACCEPTED : LOCKER_WRONG_MARK;
        CHECK(read_at(region, 64, 0, SIZE_MAX, &entry) == wanted);
        CHECK(read_at(region, 64, 16, SIZE_MAX, &entry) == wanted);
    }
    share_marks(region);
    CHECK(read_at(region, 64, 16, SIZE_MAX, &entry) == LOCKER_ACCEPTED);
}

/* ---- appends */

static uint8_t key[LOCKER_LARGEST_KEY + 1], value[LOCKER_LARGEST_VALUE + 1];

struct append {
    size_t length, used;
    uint64_t kind, ns;
    size_t klen, vlen;
};

static uint32_t append_to(uint8_t *region, struct append a, bool tombstone, uint64_t *next) {
    if (tombstone)
        return locker_append_tombstone(region, a.length, rule.version, rule.ordinal, a.used, a.ns, key, a.klen, next);
    return locker_append_data(region, a.length, rule.version, rule.ordinal, a.used, a.kind, a.ns, key, a.klen, value,
                              a.vlen, next);
}

/* Appends to a region of 0xaa with some bytes behind it. Accepted, the region has to be as put_entry and the filling
 * make it, and the new used count has to be told; refused, nothing may change. */
static uint32_t append(struct append a, bool tombstone) {
    size_t room = a.length + 64;
    uint8_t *lent = malloc(room), *wanted = malloc(room);
    if (lent == NULL || wanted == NULL) exit(2);
    memset(lent, 0xaa, room);
    memset(wanted, 0xaa, room);
    uint64_t next[2] = {UNTOUCHED, UNTOUCHED};
    uint32_t answer = append_to(lent, a, tombstone, next);
    unsigned kind = tombstone ? 2 : (unsigned)a.kind;
    size_t length = (tombstone ? 8 : 10) + a.klen + a.vlen;
    bool fits = a.used <= a.length && up(length) <= a.length - a.used;
    if (answer == LOCKER_ACCEPTED) CHECK(fits);
    if (answer == LOCKER_ACCEPTED && fits) {
        CHECK(next[0] == a.used + up(length));
        memset(wanted + a.used, 0xff, up(length));
        put_entry(wanted, a.used, kind, kind, (unsigned)a.ns, key, a.klen, value, a.vlen);
    } else {
        CHECK(next[0] == UNTOUCHED);
    }
    CHECK(next[1] == UNTOUCHED);
    CHECK(memcmp(lent, wanted, room) == 0);
    free(lent);
    free(wanted);
    return answer;
}

#define APPEND_DATA(...) append((struct append){__VA_ARGS__}, false)
#define APPEND_TOMBSTONE(...) append((struct append){__VA_ARGS__}, true)

/* The limits that both appends have, and the orders of their refusals. */
static void try_append(bool tombstone) {
    size_t head = tombstone ? 8 : 10;
    struct append a = {.length = 96};
    for (a.used = 0; a.used <= 112; a.used++) {
        uint32_t wanted = a.used % 16 != 0 ? LOCKER_NOT_ON_LINE : a.used > 80 ? LOCKER_NO_SPACE : LOCKER_ACCEPTED;
        CHECK(append(a, tombstone) == wanted);
    }
    static const size_t far[] = {SIZE_MAX - 15, SIZE_MAX - 31, (size_t)1 << 63, largest + 16};
    for (size_t i = 0; i < sizeof far / sizeof *far; i++) {
        a.used = far[i];
        CHECK(append(a, tombstone) == LOCKER_NO_SPACE);
    }
    a.used = SIZE_MAX;
    CHECK(append(a, tombstone) == LOCKER_NOT_ON_LINE);
    /* the aligned entry fits the capacity, or is a byte too long for it */
    for (a.klen = 0; a.klen <= 40; a.klen++) {
        for (a.used = 0; a.used <= 32; a.used += 16) {
            a.length = a.used + up(head + a.klen);
            CHECK(append(a, tombstone) == LOCKER_ACCEPTED);
            a.length -= 1;
            CHECK(append(a, tombstone) == LOCKER_NO_SPACE);
        }
    }
    a = (struct append){0};
    CHECK(append(a, tombstone) == LOCKER_NO_SPACE);
    /* namespaces and keys */
    a.length = 8192;
    static const uint64_t spaces[] = {0, 1, 62, 63, 64, 65, 127, 255, 256, UINT64_C(1) << 32, UINT64_MAX};
    for (size_t i = 0; i < sizeof spaces / sizeof *spaces; i++) {
        a.ns = spaces[i];
        CHECK(append(a, tombstone) == (spaces[i] < 64 ? LOCKER_ACCEPTED : LOCKER_NAMESPACE_TOO_LARGE));
    }
    a.ns = LOCKER_LAST_NAMESPACE;
    static const size_t klens[] = {LOCKER_LARGEST_KEY - 1, LOCKER_LARGEST_KEY, LOCKER_LARGEST_KEY + 1};
    for (size_t i = 0; i < sizeof klens / sizeof *klens; i++) {
        a.klen = klens[i];
        CHECK(append(a, tombstone) == (i < 2 ? LOCKER_ACCEPTED : LOCKER_KEY_TOO_LONG));
    }
    /* the order: each is given while all later ones would be due too */
    a = (struct append){.length = 0, .used = 8, .kind = 2, .ns = 64, .klen = LOCKER_LARGEST_KEY + 1};
    if (!tombstone) a.vlen = LOCKER_LARGEST_VALUE + 1;
    CHECK(append(a, tombstone) == LOCKER_NOT_ON_LINE);
    a.used = 0;
    if (!tombstone) CHECK(append(a, tombstone) == LOCKER_TYPE_NOT_ALLOWED);
    a.kind = 1;
    CHECK(append(a, tombstone) == LOCKER_NAMESPACE_TOO_LARGE);
    a.ns = 63;
    CHECK(append(a, tombstone) == LOCKER_KEY_TOO_LONG);
    a.klen = LOCKER_LARGEST_KEY;
    if (!tombstone) CHECK(append(a, tombstone) == LOCKER_VALUE_TOO_LONG);
    a.vlen = 0;
    CHECK(append(a, tombstone) == LOCKER_NO_SPACE);
}

/* The largest region and one byte more, which is refused before all but a wrong version. */
static uint32_t append_to_too_large(bool tombstone) {
    struct append a = {.length = largest + 1, .used = 1, .kind = 2, .ns = 64, .klen = LOCKER_LARGEST_KEY + 1};
    a.vlen = LOCKER_LARGEST_VALUE + 1;
    uint64_t next = UNTOUCHED;
    uint32_t answer = append_to(big, a, tombstone, &next);
    CHECK(next == UNTOUCHED && all_are(big, largest + 1, 0));
    return answer;
}

static void try_append_big(bool tombstone) {
    uint64_t next = UNTOUCHED;
    size_t last = largest - 16;
    CHECK(append_to_too_large(tombstone) == LOCKER_REGION_TOO_LARGE);
    struct append a = {.length = largest, .used = largest, .ns = 5};
    CHECK(append_to(big, a, tombstone, &next) == LOCKER_NO_SPACE);
    a.used = last;
    a.length = largest - 1;
    CHECK(append_to(big, a, tombstone, &next) == LOCKER_NO_SPACE);
    CHECK(next == UNTOUCHED && all_are(big, largest + 1, 0));
    a.length = largest;
    a.klen = tombstone ? 8 : 4;
    a.vlen = tombstone ? 0 : 2;
    CHECK(append_to(big, a, tombstone, &next) == LOCKER_ACCEPTED);
    CHECK(next == largest);
    uint8_t *written = copied(big + last, 16);
    memset(big + last, 0xff, 16);
    put_entry(big, last, tombstone ? 2 : 0, tombstone ? 2 : 0, 5, key, a.klen, value, a.vlen);
    CHECK(memcmp(written, big + last, 16) == 0);
    free(written);
    memset(big + last, 0, 16);
    CHECK(all_are(big, largest + 1, 0));
}

/* Version 2's marks at 0 and at 32, under ordinals at their limits. */
static void try_marks(bool tombstone) {
    static const struct {
        uint64_t ordinal, first, third;
    } marks[] = {{0, 0x5A17C0, 0x5A17C2},          {1, 0x5A17C1, 0x5A17C3},         {7, 0x5A17C7, 0x5A17C9},
                 {0xFFFFFF, 0x5A17BF, 0x5A17C1},   {0x1000000, 0x5A17C0, 0x5A17C2}, {0x1000007, 0x5A17C7, 0x5A17C9},
                 {0xA5E83E, 0xFFFFFE, 0},          {0xA5E83F, 0xFFFFFF, 1},         {0xA5E840, 0, 2},
                 {UINT64_MAX, 0x5A17BF, 0x5A17C1}, {UINT64_C(1) << 63, 0x5A17C0, 0x5A17C2}};
    for (size_t i = 0; i < sizeof marks / sizeof *marks; i++) {
        rule = (struct rule){LOCKER_VERSION_2, marks[i].ordinal};
        uint8_t region[48] = {0}, first[3], third[3];
        uint64_t next = UNTOUCHED;
        put_number(first, marks[i].first, 3);
        put_number(third, marks[i].third, 3);
        struct append a = {.length = 48};
        CHECK(append_to(region, a, tombstone, &next) == LOCKER_ACCEPTED);
        a.used = 32;
        CHECK(append_to(region, a, tombstone, &next) == LOCKER_ACCEPTED);
        CHECK(memcmp(region, first, 3) == 0 && memcmp(region + 32, third, 3) == 0);
        CHECK(append(a, tombstone) == LOCKER_ACCEPTED);
    }
}

/* The same append to a version 1 file and to version 2 files, of which one has the same marks. */
static void try_shared_marks(bool tombstone) {
    static const struct rule each[] = {{LOCKER_VERSION_1, 7}, {LOCKER_VERSION_2, 0x1000000}, {LOCKER_VERSION_2, 7}};
    uint8_t regions[3][16] = {{0}};
    for (size_t i = 0; i < 3; i++) {
        uint64_t next;
        rule = each[i];
        CHECK(append_to(regions[i], (struct append){.length = 16}, tombstone, &next) == LOCKER_ACCEPTED);
    }
    CHECK(memcmp(regions[0], regions[1], 16) == 0);
    CHECK(memcmp(regions[0], regions[2], 16) != 0);
}

static void append_data_limits(void) {
    try_append(false);
    static const uint64_t kinds[] = {0, 1, 2, 3, 4, 255, 256, UINT64_C(1) << 32, UINT64_MAX};
    for (size_t i = 0; i < sizeof kinds / sizeof *kinds; i++)
        CHECK(APPEND_DATA(.length = 64, .used = 16, .kind = kinds[i], .ns = 63, .klen = 2, .vlen = 1) ==
              (i < 2 ? LOCKER_ACCEPTED : LOCKER_TYPE_NOT_ALLOWED));
    static const size_t vlens[] = {LOCKER_LARGEST_VALUE - 1, LOCKER_LARGEST_VALUE, LOCKER_LARGEST_VALUE + 1};
    for (size_t i = 0; i < sizeof vlens / sizeof *vlens; i++)
        CHECK(APPEND_DATA(.length = 40000, .vlen = vlens[i]) == (i < 2 ? LOCKER_ACCEPTED : LOCKER_VALUE_TOO_LONG));
    /* the largest entry, 36,874 bytes, and a line too few for it */
    CHECK(APPEND_DATA(.length = 36880, .kind = 1, .ns = 63, .klen = 4096, .vlen = 32768) == LOCKER_ACCEPTED);
    CHECK(APPEND_DATA(.length = 36879, .kind = 1, .ns = 63, .klen = 4096, .vlen = 32768) == LOCKER_NO_SPACE);
    CHECK(APPEND_DATA(.length = 36880, .used = 16, .klen = 4096, .vlen = 32768) == LOCKER_NO_SPACE);
    CHECK(APPEND_DATA(.length = 48, .used = 32, .vlen = 6) == LOCKER_ACCEPTED);
    CHECK(APPEND_DATA(.length = 48, .used = 32, .vlen = 7) == LOCKER_NO_SPACE);
    try_append_big(false);
}

static uint32_t data_append_of_a_version(bool due) {
    return due ? append_to_too_large(false) : APPEND_DATA(.length = 64, .used = 16, .klen = 2, .vlen = 1);
}

static void try_append_data(void) {
    begin("locker_append_data");
    under_each_rule(append_data_limits);
    under_neither_version(data_append_of_a_version);
    try_marks(false);
    try_shared_marks(false);
}

static void append_tombstone_limits(void) {
    try_append(true);
    CHECK(APPEND_TOMBSTONE(.length = 4112, .ns = 63, .klen = 4096) == LOCKER_ACCEPTED);
    CHECK(APPEND_TOMBSTONE(.length = 4111, .ns = 63, .klen = 4096) == LOCKER_NO_SPACE);
    CHECK(APPEND_TOMBSTONE(.length = 48, .used = 32, .klen = 8) == LOCKER_ACCEPTED);
    CHECK(APPEND_TOMBSTONE(.length = 48, .used = 32, .klen = 9) == LOCKER_NO_SPACE);
    try_append_big(true);
}

static uint32_t tombstone_append_of_a_version(bool due) {
    return due ? append_to_too_large(true) : APPEND_TOMBSTONE(.length = 64, .used = 16, .klen = 2);
}

static void try_append_tombstone(void) {
    begin("locker_append_tombstone");
    under_each_rule(append_tombstone_limits);
    under_neither_version(tombstone_append_of_a_version);
    try_marks(true);
    try_shared_marks(true);
}

/* ---- walk */

enum { END = 100, FOUND = 101 };

/* Walks: FOUND with its entry, END, or the refusal, 10 with its place. What wasn't told has to stay. */
static uint32_t walk(const uint8_t *region, size_t length, size_t bound, size_t offset, struct locker_entry *entry,
                     uint64_t *place) {
    size_t looked = length <= 200000 ? length : 0;
    uint8_t *kept = copied(region, looked);
    uint64_t found = UNTOUCHED;
    *entry = no_entry;
    *place = UNTOUCHED;
    uint32_t answer = locker_walk(region, length, rule.version, rule.ordinal, bound, offset, entry, &found, place);
    CHECK(memcmp(kept, region, looked) == 0);
    free(kept);
    CHECK(answer == LOCKER_ACCEPTED ? found <= 1 : found == UNTOUCHED);
    CHECK(answer == LOCKER_UNKNOWN_TYPE || *place == UNTOUCHED);
    CHECK((answer == LOCKER_ACCEPTED && found == 1) || same_entry(*entry, no_entry));
    if (answer != LOCKER_ACCEPTED) return answer;
    return found == 1 ? FOUND : END;
}

static void walk_limits(void) {
    struct locker_entry entry;
    uint64_t place;
    uint8_t region[64] = {0};
    put_sample(region);
    /* every offset: it is rounded up to a line, unless it is at the bound */
    for (size_t offset = 0; offset <= 70; offset++) {
        size_t line = up(offset);
        uint32_t answer = walk(region, 64, 64, offset, &entry, &place);
        CHECK(answer == (line <= 32 ? FOUND : END));
        if (line == 0) CHECK(same_entry(entry, entry_at(0, 0, LOCKER_INSERT, 1, 2, 1)));
        if (line == 16) CHECK(same_entry(entry, entry_at(16, 1, LOCKER_UPDATE, 1, 2, 2)));
        if (line == 32) CHECK(same_entry(entry, entry_at(32, 2, LOCKER_TOMBSTONE, 1, 2, 0)));
    }
    static const size_t far[] = {SIZE_MAX, SIZE_MAX - 1, SIZE_MAX - 15, SIZE_MAX - 16, (size_t)1 << 63};
    for (size_t i = 0; i < sizeof far / sizeof *far; i++) CHECK(walk(region, 64, 64, far[i], &entry, &place) == END);
    /* every bound: a line below it is tried, and its entry may reach past it */
    for (size_t bound = 0; bound <= 64; bound++) {
        CHECK(walk(region, 64, bound, 0, &entry, &place) == (bound > 0 ? FOUND : END));
        CHECK(walk(region, 64, bound, 17, &entry, &place) == (bound > 32 ? FOUND : END));
        CHECK(walk(region, bound, bound + 1, 0, &entry, &place) == LOCKER_BOUND_PAST_REGION);
        CHECK(walk(region, bound, SIZE_MAX, SIZE_MAX, &entry, &place) == LOCKER_BOUND_PAST_REGION);
    }
    CHECK(walk(region, 0, 0, 0, &entry, &place) == END);
    /* an entry flush with the region's end, and one that lacks a byte */
    CHECK(walk(region, 13, 13, 0, &entry, &place) == FOUND);
    CHECK(walk(region, 12, 12, 0, &entry, &place) == END);
    CHECK(walk(region, 42, 42, 32, &entry, &place) == FOUND);
    CHECK(walk(region, 41, 41, 32, &entry, &place) == END);
    uint8_t small[16] = {0};
    CHECK(put_entry(small, 0, 2, 2, 0, key, 0, value, 0) == 8);
    CHECK(walk(small, 8, 8, 0, &entry, &place) == FOUND);
    CHECK(walk(small, 8, 1, 0, &entry, &place) == FOUND);
    CHECK(walk(small, 7, 7, 0, &entry, &place) == END);
    /* type 3 is met whatever its checksum, but not with fewer than eight bytes left */
    uint8_t unknown[64];
    memcpy(unknown, region, 64);
    unknown[19] |= 0xc0;
    CHECK(walk(unknown, 64, 64, 0, &entry, &place) == FOUND);
    CHECK(walk(unknown, 64, 64, 13, &entry, &place) == LOCKER_UNKNOWN_TYPE);
    CHECK(place == 16);
    CHECK(walk(unknown, 64, 16, 13, &entry, &place) == END);
    CHECK(walk(unknown, 24, 17, 13, &entry, &place) == LOCKER_UNKNOWN_TYPE);
    CHECK(walk(unknown, 23, 23, 13, &entry, &place) == END);
    put_entry(unknown, 16, 0, 3, 1, key, 2, value, 2);
    CHECK(walk(unknown, 64, 64, 1, &entry, &place) == LOCKER_UNKNOWN_TYPE);
    CHECK(place == 16);
    /* a wrong mark or a wrong checksum costs its own line alone */
    for (size_t byte = 0; byte < 14; byte++) {
        uint8_t torn[64];
        memcpy(torn, region, 64);
        torn[16 + byte] ^= 1;
        CHECK(walk(torn, 64, 64, 13, &entry, &place) == FOUND);
        CHECK(entry.offset == 32);
    }
    /* every length that two bytes hold is walked */
    static const size_t lengths[] = {0, 4097, 32769, 65535};
    uint8_t *part = calloc(1, 140000), *large = calloc(1, 140000);
    if (part == NULL || large == NULL) exit(2);
    for (size_t i = 0; i < sizeof lengths / sizeof *lengths; i++) {
        for (size_t j = 0; j < sizeof lengths / sizeof *lengths; j++) {
            size_t length = put_entry(large, 0, 1, 1, 63, part, lengths[i], part, lengths[j]);
            CHECK(walk(large, length, length, 0, &entry, &place) == FOUND);
            CHECK(same_entry(entry, entry_at(0, 1, LOCKER_UPDATE, 63, lengths[i], lengths[j])));
            CHECK(walk(large, length - 1, length - 1, 0, &entry, &place) == END);
        }
        size_t length = put_entry(large, 0, 2, 2, 63, part, lengths[i], part, 0);
        CHECK(walk(large, length, length, 0, &entry, &place) == FOUND);
        CHECK(same_entry(entry, entry_at(0, 2, LOCKER_TOMBSTONE, 63, lengths[i], 0)));
        CHECK(walk(large, length - 1, length - 1, 0, &entry, &place) == END);
    }
    free(part);
    free(large);
    /* the largest region: zeros, though the mark of one line is 0; its last line; one byte more */
    CHECK(walk(big, largest, largest, 0, &entry, &place) == END);
    CHECK(walk(big, largest + 1, largest + 2, 0, &entry, &place) == LOCKER_REGION_TOO_LARGE);
    CHECK(walk(big, largest + 1, 0, 0, &entry, &place) == LOCKER_REGION_TOO_LARGE);
    CHECK(walk(big, largest, largest + 1, 0, &entry, &place) == LOCKER_BOUND_PAST_REGION);
    put_entry(big, largest - 16, 2, 2, 5, key, 8, value, 0);
    CHECK(walk(big, largest, largest, 0, &entry, &place) == FOUND);
    CHECK(same_entry(entry, entry_at(largest - 16, 2, LOCKER_TOMBSTONE, 5, 8, 0)));
    CHECK(walk(big, largest, largest - 16, largest - 32, &entry, &place) == END);
    CHECK(walk(big, largest - 1, largest - 1, largest - 32, &entry, &place) == END);
    memset(big + largest - 16, 0, 16);
}

static uint32_t walk_of_a_version(bool due) {
    struct locker_entry entry;
    uint64_t place;
    uint8_t region[64] = {0};
    put_sample(region);
    return due ? walk(big, largest + 1, largest + 2, 0, &entry, &place) : walk(region, 64, 64, 0, &entry, &place);
}

/* Regions of 0xff: a line is of type 3 where the mark is 0xffffff, and no other line is anything. */
static void walk_erased(void) {
    struct locker_entry entry;
    uint64_t place;
    uint8_t erased[64];
    memset(erased, 0xff, sizeof erased);
    for (uint64_t ordinal = 0xA5E83A; ordinal <= 0xA5E841; ordinal++) {
        for (unsigned version = LOCKER_VERSION_1; version <= LOCKER_VERSION_2; version++) {
            rule = (struct rule){version, ordinal};
            for (size_t length = 0; length <= 64; length++) {
                bool met = line_of(0xffffff) + 8 <= length;
                CHECK(walk(erased, length, length, 0, &entry, &place) == (met ? LOCKER_UNKNOWN_TYPE : END));
                if (met) CHECK(place == line_of(0xffffff));
            }
        }
    }
    rule = (struct rule){LOCKER_VERSION_2, 0xA5E83F};
    CHECK(walk(erased, 64, 64, 0, &entry, &place) == LOCKER_UNKNOWN_TYPE && place == 0);
    rule = (struct rule){LOCKER_VERSION_2, 0x1A5E83F};
    CHECK(walk(erased, 64, 64, 0, &entry, &place) == LOCKER_UNKNOWN_TYPE && place == 0);
    memset(big, 0xff, largest);
    rule = (struct rule){LOCKER_VERSION_1, 0xA5E83F};
    CHECK(walk(big, largest, largest, 0, &entry, &place) == LOCKER_UNKNOWN_TYPE && place == 173966320);
    rule = (struct rule){LOCKER_VERSION_2, 0xA5E840};
    CHECK(walk(big, largest, largest, 0, &entry, &place) == LOCKER_UNKNOWN_TYPE && place == largest - 16);
    memset(big, 0, largest);
}

static void try_walk(void) {
    begin("locker_walk");
    under_each_rule(walk_limits);
    under_neither_version(walk_of_a_version);
    walk_erased();
    struct locker_entry entry;
    uint64_t place;
    uint8_t region[64] = {0};
    for (size_t i = 0; i < LATER; i++) {
        bool seen = recycle(region, i);
        CHECK(walk(region, 64, 64, 0, &entry, &place) == (seen ? FOUND : END));
        /* the later file's first entry is found, and behind it what it was before */
        put_entry(region, 0, 0, 0, 2, (const uint8_t *)"B2", 2, (const uint8_t *)"5", 1);
        CHECK(walk(region, 64, 64, 0, &entry, &place) == FOUND);
        CHECK(same_entry(entry, entry_at(0, 0, LOCKER_INSERT, 2, 2, 1)));
        CHECK(walk(region, 64, 64, 13, &entry, &place) == (seen ? FOUND : END));
    }
    share_marks(region);
    for (size_t line = 0; line < 48; line += 16)
        CHECK(walk(region, 64, 64, line, &entry, &place) == FOUND && entry.offset == line);
}

/* ---- parts */

static void try_part(void) {
    begin("locker_part");
    uint8_t region[40] = {0};
    static const size_t numbers[] = {0, 1, 20, 39, 40, 41, (size_t)1 << 63, SIZE_MAX - 40, SIZE_MAX - 1, SIZE_MAX};
    const size_t count = sizeof numbers / sizeof *numbers;
    for (size_t i = 0; i < count; i++) {
        for (size_t j = 0; j < count; j++) {
            for (size_t length = 0; length <= 40; length += 20) {
                size_t at = numbers[i], len = numbers[j];
                bool fits = at <= length && len <= length - at;
                uint64_t out[3] = {UNTOUCHED, UNTOUCHED, UNTOUCHED};
                locker_part(region, length, at, len, &out[0], &out[1]);
                CHECK(out[0] == (fits ? at : 0));
                CHECK(out[1] == (fits ? len : 0));
                CHECK(out[2] == UNTOUCHED);
            }
        }
    }
    uint64_t start = UNTOUCHED, bytes = UNTOUCHED;
    locker_part(big, largest + 1, largest, 1, &start, &bytes);
    CHECK(start == largest && bytes == 1);
    CHECK(all_are(region, sizeof region, 0));
}

/* ---- used bound, durable end and count entries */

static void try_used_bound(void) {
    begin("locker_used_bound");
    uint8_t region[70] = {0};
    uint64_t bound;
    for (size_t length = 0; length <= 64; length++) {
        bound = UNTOUCHED;
        CHECK(locker_used_bound(region, length, &bound) == LOCKER_ACCEPTED && bound == 0);
        for (size_t at = 0; at < length; at++) {
            uint64_t wanted = up(at + 1) < length ? up(at + 1) : length;
            region[at] = (uint8_t)(at % 2 == 0 ? 1 : 0x80);
            CHECK(locker_used_bound(region, length, &bound) == LOCKER_ACCEPTED && bound == wanted);
            region[0] ^= 0xff;
            CHECK(at == 0 || (locker_used_bound(region, length, &bound) == LOCKER_ACCEPTED && bound == wanted));
            region[0] = 0;
            region[at] = 0;
        }
        /* a byte behind the region isn't looked at */
        region[length] = 1;
        CHECK(locker_used_bound(region, length, &bound) == LOCKER_ACCEPTED && bound == 0);
        region[length] = 0;
    }
    static const size_t ends[] = {0, 15, 16, largest - 17, largest - 16, largest - 1};
    CHECK(locker_used_bound(big, largest, &bound) == LOCKER_ACCEPTED && bound == 0);
    for (size_t i = 0; i < sizeof ends / sizeof *ends; i++) {
        big[ends[i]] = 1;
        CHECK(locker_used_bound(big, largest, &bound) == LOCKER_ACCEPTED && bound == up(ends[i] + 1));
        bound = UNTOUCHED;
        CHECK(locker_used_bound(big, largest + 1, &bound) == LOCKER_REGION_TOO_LARGE && bound == UNTOUCHED);
        big[ends[i]] = 0;
    }
}

/* What a durable end answers: the number, the end or with 10 the place, and the effort, where the number has them. */
struct ended {
    uint32_t number;
    uint64_t at;
    struct locker_effort effort;
};

static uint64_t number_at(const uint8_t *at, int bytes) {
    uint64_t number = 0;
    for (int i = 0; i < bytes; i++) number |= (uint64_t)at[i] << 8 * i;
    return number;
}

/* What can become of a line that is tried, and how often it has under the plain rule. */
enum { WRONG_MARK, UNKNOWN, PAST_THE_REGION, WRONG_CHECKSUM, VERIFIED, OUTCOMES };
static unsigned long met[OUTCOMES];

/* What becomes of the line p, and how many bytes a checksum of its entry covers. */
static int plain_line(const uint8_t *region, size_t length, size_t p, size_t *covered) {
    const uint8_t *at = region + p;
    if (number_at(at, 3) != mark(p)) return WRONG_MARK;
    unsigned kind = at[3] >> 6;
    if (kind == 3) return UNKNOWN;
    *covered = kind == 2 ? 6 + number_at(at + 4, 2) : 8 + number_at(at + 4, 2) + number_at(at + 6, 2);
    if (*covered + 2 > length - p) return PAST_THE_REGION;
    return plain_sum(0xffff, at, *covered) == number_at(at + *covered, 2) ? VERIFIED : WRONG_CHECKSUM;
}

/* Document 01's walk up to a bound, line by line: the durable end with document 02's request 8, and by its request 9 one
 * more in *counts for each entry. */
static struct ended plain_walk(const uint8_t *region, size_t length, size_t bound, struct locker_counts *counts) {
    struct ended told = {.number = LOCKER_ACCEPTED};
    if (rule.version != 1 && rule.version != 2) return (struct ended){.number = 2};
    if (length > largest) return (struct ended){.number = 3};
    if (bound > length) return (struct ended){.number = 4};
    for (size_t p = 0, next; p < bound && length - p >= 8; p = next) {
        size_t covered = 0;
        int outcome = plain_line(region, length, p, &covered);
        met[outcome]++;
        told.effort.lines++;
        if (outcome == UNKNOWN) return (struct ended){10, p, told.effort};
        if (outcome == WRONG_CHECKSUM || outcome == VERIFIED) told.effort.bytes += covered;
        next = outcome == VERIFIED ? up(p + covered + 2) : p + 16;
        if (outcome == VERIFIED) told.at = next;
        if (outcome == VERIFIED) counts->entries[region[p + 3] >> 6][region[p + 3] & 63]++;
    }
    return told;
}

static struct ended plain_end(const uint8_t *region, size_t length, size_t bound) {
    struct locker_counts counts = {{{0}}};
    return plain_walk(region, length, bound, &counts);
}

static bool same_effort(struct locker_effort a, struct locker_effort b) {
    return a.lines == b.lines && a.bytes == b.bytes;
}

/* The durable end, held to what is wanted, and to the two bounds on the effort. What isn't told has to stay, and so has
 * the region (a small one). */
static struct ended wanted_end(const uint8_t *region, size_t length, size_t bound, struct ended wanted) {
    const struct locker_effort no_effort = {UNTOUCHED, UNTOUCHED};
    struct locker_effort effort[2] = {no_effort, no_effort};
    uint64_t end = UNTOUCHED, place = UNTOUCHED;
    size_t looked = length <= 200000 ? length : 0;
    uint8_t *kept = copied(region, looked);
    uint32_t number = locker_durable_end(region, length, rule.version, rule.ordinal, bound, &end, &place, &effort[0]);
    CHECK(memcmp(kept, region, looked) == 0);
    free(kept);
    bool counted = number == LOCKER_ACCEPTED || number == LOCKER_UNKNOWN_TYPE;
    CHECK(number == wanted.number);
    CHECK(end == (number == LOCKER_ACCEPTED ? wanted.at : UNTOUCHED));
    CHECK(place == (number == LOCKER_UNKNOWN_TYPE ? wanted.at : UNTOUCHED));
    CHECK(same_effort(effort[0], counted ? wanted.effort : no_effort));
    CHECK(same_effort(effort[1], no_effort));
    if (counted) CHECK(effort[0].lines <= bound / 16 + (bound % 16 != 0));
    if (counted) CHECK(effort[0].bytes <= effort[0].lines * 131078);
    return (struct ended){number, number == LOCKER_UNKNOWN_TYPE ? place : end, effort[0]};
}

/* The durable end, held to the plain rule. */
static struct ended durable_end(const uint8_t *region, size_t length, size_t bound) {
    return wanted_end(region, length, bound, plain_end(region, length, bound));
}

static bool is_ended(struct ended told, uint32_t number, uint64_t at, uint64_t lines, uint64_t bytes) {
    return told.number == number && told.at == at && told.effort.lines == lines && told.effort.bytes == bytes;
}

/* Whether the durable end is this one, after so many lines and bytes. */
static bool ends(const uint8_t *region, size_t length, size_t bound, uint64_t end, uint64_t lines, uint64_t bytes) {
    return is_ended(durable_end(region, length, bound), LOCKER_ACCEPTED, end, lines, bytes);
}

/* Whether the durable end is refused with 10 at this place, after so many lines and bytes, the refused line's too. */
static bool is_unknown(const uint8_t *region, size_t length, size_t bound, uint64_t place, uint64_t lines,
                       uint64_t bytes) {
    return is_ended(durable_end(region, length, bound), LOCKER_UNKNOWN_TYPE, place, lines, bytes);
}

static void durable_end_of_the_sample(void) {
    uint8_t region[64] = {0}, gap[64];
    put_sample(region);
    for (size_t bound = 0; bound <= 64; bound++) {
        uint64_t bytes = bound == 0 ? 0 : bound <= 16 ? 11 : bound <= 32 ? 11 + 12 : 11 + 12 + 8;
        CHECK(ends(region, 64, bound, bound < 48 ? up(bound) : 48, up(bound) / 16, bytes));
        CHECK(durable_end(region, bound, bound + 1).number == LOCKER_BOUND_PAST_REGION);
        CHECK(durable_end(region, bound, SIZE_MAX).number == LOCKER_BOUND_PAST_REGION);
    }
    CHECK(ends(region, 48, 48, 48, 3, 31));
    CHECK(ends(region, 0, 0, 0, 0, 0));
    /* past the region by as much as its last entry's filling; an entry that lacks a byte adds none */
    CHECK(ends(region, 13, 13, 16, 1, 11));
    CHECK(ends(region, 12, 12, 0, 1, 0));
    CHECK(ends(region, 42, 42, 48, 3, 31));
    CHECK(ends(region, 41, 41, 32, 3, 23));
    CHECK(ends(region, 40, 40, 32, 3, 23));
    CHECK(ends(region, 39, 39, 32, 2, 23));
    /* the second entry's key is a byte longer, then reaches to the region's end, then a byte past it */
    memcpy(gap, region, 64);
    gap[20] = 3;
    CHECK(ends(gap, 64, 64, 48, 4, 11 + 13 + 8));
    gap[20] = 36;
    CHECK(ends(gap, 64, 64, 48, 4, 11 + 46 + 8));
    gap[20] = 37;
    CHECK(ends(gap, 64, 64, 48, 4, 11 + 8));
    /* its mark is wrong, its type 3 */
    gap[16] ^= 1;
    CHECK(ends(gap, 64, 64, 48, 4, 11 + 8));
    gap[16] ^= 1;
    gap[19] |= 0xc0;
    CHECK(is_unknown(gap, 64, 64, 16, 2, 11));
    CHECK(is_unknown(gap, 64, 17, 16, 2, 11));
    CHECK(ends(gap, 64, 16, 16, 1, 11));
    CHECK(is_unknown(gap, 24, 24, 16, 2, 11));
    CHECK(ends(gap, 23, 23, 16, 1, 11));
    CHECK(durable_end(gap, 64, 65).number == LOCKER_BOUND_PAST_REGION);
    gap[3] |= 0xc0;
    CHECK(is_unknown(gap, 64, 64, 0, 1, 0));
    /* each bit of it changed; each start of it, under each bound */
    for (size_t bit = 0; bit < 8 * 64; bit++) {
        region[bit / 8] ^= (uint8_t)(1 << bit % 8);
        durable_end(region, 64, 64);
        region[bit / 8] ^= (uint8_t)(1 << bit % 8);
    }
    for (size_t length = 0; length <= 64; length++)
        for (size_t bound = 0; bound <= length; bound++) durable_end(region, length, bound);
}

/* Of zeros each line is tried that has eight bytes. None of these lines has the mark 0. */
static void durable_end_of_zeros(void) {
    static const uint8_t zeros[64];
    for (size_t length = 0; length <= 64; length++) {
        for (size_t bound = 0; bound <= length; bound++) {
            uint64_t lines = 0;
            for (size_t p = 0; p < bound; p += 16) lines += length - p >= 8;
            CHECK(ends(zeros, length, bound, 0, lines, 0));
        }
    }
}

/* An entry that covers several lines is passed over whole where it verifies; where it doesn't, each line is tried. */
static void durable_end_over_lines(void) {
    uint8_t region[96] = {0};
    CHECK(put_entry(region, 0, 1, 1, 63, key, 20, value, 40) == 70);
    CHECK(ends(region, 96, 96, 80, 2, 68));
    CHECK(ends(region, 80, 80, 80, 1, 68));
    CHECK(ends(region, 70, 1, 80, 1, 68));
    region[8] ^= 1;
    CHECK(ends(region, 96, 96, 0, 6, 68));
    CHECK(ends(region, 70, 1, 0, 1, 68));
    CHECK(ends(region, 69, 69, 0, 4, 0));
    memset(region, 0, sizeof region);
    CHECK(put_entry(region, 16, 2, 2, 63, key, 56, value, 0) == 64);
    CHECK(ends(region, 96, 96, 80, 3, 62));
    CHECK(ends(region, 80, 80, 80, 2, 62));
    CHECK(ends(region, 79, 79, 0, 5, 0));
    region[79] ^= 1;
    CHECK(ends(region, 96, 96, 0, 6, 62));
}

/* The most that one line adds: key and value of 65,535 bytes each. */
static void durable_end_at_most(void) {
    const size_t longest = 131080;
    uint8_t *part = calloc(1, 65535), *region = calloc(1, longest + 48);
    if (part == NULL || region == NULL) exit(2);
    CHECK(put_entry(region, 0, 0, 0, 63, part, 65535, part, 65535) == longest);
    CHECK(ends(region, longest, longest, longest + 8, 1, 131078));
    CHECK(ends(region, longest, 1, longest + 8, 1, 131078));
    /* a byte too few: every line is tried but the last, which has seven bytes */
    CHECK(ends(region, longest - 1, longest - 1, 0, 8192, 0));
    CHECK(ends(region, longest - 1, 16, 0, 1, 0));
    region[longest - 1] ^= 1;
    CHECK(ends(region, longest, longest, 0, 8193, 131078));
    CHECK(ends(region, longest, 16, 0, 1, 131078));
    /* three lines that add so much each, and the third of them a byte too long for the region */
    memset(region, 0, longest + 32);
    for (size_t p = 0; p <= 32; p += 16) {
        put_number(region + p, mark(p) | 1 << 30, 4);
        put_number(region + p + 4, 0xffffffff, 4);
    }
    CHECK(ends(region, longest + 32, 33, 0, 3, 3 * 131078));
    CHECK(ends(region, longest + 31, 33, 0, 3, 2 * 131078));
    /* a tombstone of the longest key */
    memset(region, 0, longest + 32);
    CHECK(put_entry(region, 16, 2, 2, 63, part, 65535, part, 0) == 65543);
    CHECK(ends(region, 65559, 65559, 65568, 2, 65541));
    CHECK(ends(region, 65558, 17, 0, 2, 0));
    free(part);
    free(region);
}

/* A hostile card: every mark is right, every entry ends with the region, and no checksum agrees. */
enum { HOSTILE_LINES = 1024, HOSTILE = 16 * HOSTILE_LINES };

static void put_hostile(uint8_t *region) {
    memset(region, 0x5a, HOSTILE);
    for (size_t p = 0; p < HOSTILE; p += 16) {
        size_t covered = HOSTILE - p - 2, klen = covered - 8;
        put_number(region + p, mark(p) | (uint64_t)(p / 16 % 2) << 30, 4);
        put_number(region + p + 4, klen, 2);
        put_number(region + p + 6, 0, 2);
    }
    /* all share their last two bytes: some such agree with none */
    uint64_t sum = 0;
    do put_number(region + HOSTILE - 2, sum++, 2);
    while (plain_end(region, HOSTILE, HOSTILE).at != 0);
}

static void durable_end_of_a_hostile_region(void) {
    enum { LINES = HOSTILE_LINES, LENGTH = HOSTILE };
    uint8_t *region = malloc(LENGTH);
    if (region == NULL) exit(2);
    put_hostile(region);
    CHECK(ends(region, LENGTH, LENGTH, 0, LINES, UINT64_C(8) * LINES * LINES + 6 * LINES));
    CHECK(ends(region, LENGTH, LENGTH / 2, 0, LINES / 2, UINT64_C(6) * LINES * LINES + 3 * LINES));
    CHECK(ends(region, LENGTH, 1, 0, 1, LENGTH - 2));
    /* without the last byte every entry is too long */
    CHECK(ends(region, LENGTH - 1, LENGTH - 1, 0, LINES, 0));
    free(region);
}

/* More bytes than 32 bits hold: at each of 32,768 lines the most that one adds. The plain rule would take too long. */
static void durable_end_of_many_bytes(void) {
    enum { LINES = 32768, LENGTH = 16 * (LINES - 1) + 131080 };
    uint8_t *region = calloc(1, LENGTH);
    if (region == NULL) exit(2);
    rule = rules[0];
    for (size_t p = 0; p < 16 * LINES; p += 16) {
        put_number(region + p, mark(p), 4);
        put_number(region + p + 4, 0xffffffff, 4);
    }
    wanted_end(region, LENGTH, 16 * LINES, (struct ended){LOCKER_ACCEPTED, 0, {LINES, UINT64_C(4295163904)}});
    free(region);
}

static void durable_end_of_the_largest(void) {
    /* zeros: one line has the mark 0, where an entry of 10 bytes seems to stand */
    const uint64_t lines = largest / 16;
    size_t there = line_of(0);
    CHECK(lines == 16777216);
    CHECK(ends(big, largest, largest, 0, lines, 8));
    CHECK(ends(big, largest, largest / 2, 0, lines / 2, there < largest / 2 ? 8 : 0));
    CHECK(ends(big, largest, there, 0, there / 16, 0));
    CHECK(ends(big, largest, there + 1, 0, there / 16 + 1, 8));
    CHECK(ends(big, there + 10, there + 10, 0, there / 16 + 1, 8));
    CHECK(ends(big, there + 9, there + 9, 0, there / 16 + 1, 0));
    CHECK(ends(big, there + 8, there + 8, 0, there / 16 + 1, 0));
    CHECK(ends(big, there + 7, there + 7, 0, there / 16, 0));
    CHECK(ends(big, largest - 8, largest - 8, 0, lines, 8));
    CHECK(ends(big, largest - 9, largest - 9, 0, lines - 1, 8));
    put_entry(big, largest - 16, 2, 2, 5, key, 8, value, 0);
    CHECK(ends(big, largest, largest, largest, lines, 8 + 14));
    CHECK(ends(big, largest, largest - 16, 0, lines - 1, 8));
    CHECK(ends(big, largest, largest - 15, largest, lines, 8 + 14));
    CHECK(durable_end(big, largest, largest + 1).number == LOCKER_BOUND_PAST_REGION);
    CHECK(durable_end(big, largest + 1, largest + 2).number == LOCKER_REGION_TOO_LARGE);
    CHECK(durable_end(big, largest + 1, largest).number == LOCKER_REGION_TOO_LARGE);
    CHECK(durable_end(big, largest + 1, 0).number == LOCKER_REGION_TOO_LARGE);
    /* nothing but what this file put there, and took away again, has ever stood in the large region */
    memset(big + largest - 16, 0, 16);
    CHECK(all_are(big, largest + 1, 0));
}

static void durable_end_limits(void) {
    durable_end_of_the_sample();
    durable_end_of_zeros();
    durable_end_over_lines();
    durable_end_at_most();
    durable_end_of_a_hostile_region();
    durable_end_of_the_largest();
}

static uint32_t durable_end_of_a_version(bool due) {
    uint8_t region[64] = {0};
    put_sample(region);
    return due ? durable_end(big, largest + 1, largest + 2).number : durable_end(region, 64, 64).number;
}

static void durable_end_of_a_card_used_again(void) {
    uint8_t region[64] = {0};
    for (size_t i = 0; i < LATER; i++) {
        bool seen = recycle(region, i);
        CHECK(seen ? ends(region, 64, 64, 48, 4, 31) : ends(region, 64, 64, 0, 4, 0));
        put_entry(region, 0, 0, 0, 2, (const uint8_t *)"B2", 2, (const uint8_t *)"5", 1);
        CHECK(seen ? ends(region, 64, 64, 48, 4, 31) : ends(region, 64, 64, 16, 4, 11));
    }
    share_marks(region);
    CHECK(ends(region, 64, 64, 48, 4, 31));
}

/* Regions of 0xff, and one whose first mark is 0. */
static void durable_end_of_erased(void) {
    uint8_t region[64];
    memset(region, 0xff, 64);
    rule = (struct rule){LOCKER_VERSION_2, 0xA5E83F};
    CHECK(is_unknown(region, 64, 64, 0, 1, 0));
    CHECK(is_unknown(region, 8, 8, 0, 1, 0));
    CHECK(ends(region, 7, 7, 0, 0, 0));
    rule = (struct rule){LOCKER_VERSION_2, 0xA5E83D};
    CHECK(is_unknown(region, 64, 64, 32, 3, 0));
    CHECK(ends(region, 39, 39, 0, 2, 0));
    rule = (struct rule){LOCKER_VERSION_1, 0xA5E83F};
    CHECK(ends(region, 64, 64, 0, 4, 0));
    memset(big, 0xff, largest);
    CHECK(is_unknown(big, largest, largest, 173966320, 10872896, 0));
    rule = (struct rule){LOCKER_VERSION_2, 0xA5E840};
    CHECK(is_unknown(big, largest, largest, largest - 16, 16777216, 0));
    CHECK(ends(big, largest, largest - 16, 0, 16777215, 0));
    memset(big, 0, largest);
    memset(region, 0, 64);
    CHECK(ends(region, 64, 64, 0, 4, 8));
    CHECK(ends(region, 10, 10, 0, 1, 8));
    CHECK(ends(region, 9, 9, 0, 1, 0));
}

/* A number below `under`, the next of a row that is the same in each run. */
static size_t draw(size_t under) {
    static uint64_t row = 8;
    row = row * UINT64_C(6364136223846793005) + UINT64_C(1442695040888963407);
    return (size_t)(row >> 33) % under;
}

static void draw_bytes(uint8_t *at, size_t length) {
    for (size_t i = 0; i < length; i++) at[i] = (uint8_t)draw(256);
}

/* An entry of any type at p, whole, with a bit changed or with a length that reaches far; where the next one may stand,
 * in it or behind it. */
static size_t draw_entry(uint8_t *region, size_t p) {
    unsigned kind = draw(12) == 0 ? 3 : (unsigned)draw(3), ns = (unsigned)draw(64);
    size_t length = put_entry(region, p, kind, kind, ns, key, draw(24), value, kind == 2 ? 0 : draw(24));
    size_t harm = draw(6);
    if (harm == 0) region[p + draw(length)] ^= (uint8_t)(1 << draw(8));
    if (harm == 1) put_number(region + p + 4, draw(65536), 2);
    if (harm == 2) put_number(region + p + 4 + draw(3), draw(256), 2);
    return draw(3) == 0 ? p + 16 : p + up(length);
}

/* A region of lines of all sorts, from 0 to `most` bytes, with room for an entry behind it. */
static size_t draw_region(uint8_t *region, size_t most) {
    memset(region, 0, most + 80);
    for (size_t p = 0, next; p < most; p = next) {
        size_t sort = draw(8);
        next = p + 16;
        if (sort == 1) draw_bytes(region + p, 16);
        if (sort == 2) memset(region + p, 0xff, 16);
        if (sort > 2) next = draw_entry(region, p);
    }
    return draw(most + 1);
}

/* Many small regions. What becomes of their lines is counted, so that none of it is missed. */
static void under_any_region(void (*trial)(const uint8_t *region, size_t length)) {
    enum { REGIONS = 50000, MOST = 160, OFTEN = 1000 };
    static const struct rule told[] = {{1, 7}, {2, 7}, {2, 8}, {2, 0xA5E83C}, {2, UINT64_MAX}, {3, 7}};
    uint8_t region[MOST + 80];
    memset(met, 0, sizeof met);
    for (size_t i = 0; i < REGIONS; i++) {
        rule = told[draw(5)];
        size_t length = draw_region(region, MOST);
        if (draw(16) == 0) rule = told[draw(6)];
        trial(region, length);
    }
    for (int outcome = 0; outcome < OUTCOMES; outcome++) CHECK(met[outcome] > OFTEN);
}

static void durable_end_of_any(const uint8_t *region, size_t length) {
    durable_end(region, length, draw(2) == 0 ? length : draw(length + 2));
}

static void try_durable_end(void) {
    begin("locker_durable_end");
    under_each_rule(durable_end_limits);
    under_neither_version(durable_end_of_a_version);
    durable_end_of_a_card_used_again();
    durable_end_of_erased();
    durable_end_of_many_bytes();
    under_any_region(durable_end_of_any);
}

/* What count entries answers: the number, with 10 the place, and with 0 the grid. */
struct counted {
    uint32_t number;
    uint64_t place;
    struct locker_counts counts;
};

static bool same_counts(const struct locker_counts *a, const struct locker_counts *b) {
    return memcmp(a, b, sizeof *a) == 0;
}

/* The entries of all cells. */
static uint64_t sum_of(const struct locker_counts *counts) {
    uint64_t sum = 0;
    for (size_t kind = 0; kind < LOCKER_KINDS; kind++)
        for (size_t ns = 0; ns < LOCKER_NAMESPACES; ns++) sum += counts->entries[kind][ns];
    return sum;
}

/* Count entries, held to what is wanted. What isn't told has to stay, and so has the region (a small one). The grid lies
 * between two numbers, at a place that is a multiple of 4 and of no more. */
static struct counted wanted_counts(const uint8_t *region, size_t length, struct counted wanted) {
    struct {
        _Alignas(16) uint32_t before;
        struct locker_counts counts;
        uint32_t behind;
    } told, left;
    memset(&told, 0x5a, sizeof told);
    memset(&left, 0x5a, sizeof left);
    uint64_t place = UNTOUCHED;
    size_t looked = length <= 200000 ? length : 0;
    uint8_t *kept = copied(region, looked);
    uint32_t number = locker_count_entries(region, length, rule.version, rule.ordinal, &told.counts, &place);
    CHECK(memcmp(kept, region, looked) == 0);
    free(kept);
    CHECK(number == wanted.number);
    CHECK(place == (number == LOCKER_UNKNOWN_TYPE ? wanted.place : UNTOUCHED));
    CHECK(same_counts(&told.counts, number == LOCKER_ACCEPTED ? &wanted.counts : &left.counts));
    CHECK(told.before == left.before && told.behind == left.behind);
    return (struct counted){number, place, told.counts};
}

/* One past the last byte that isn't 0, rounded up to a line, but at most the length. */
static size_t plain_bound(const uint8_t *region, size_t length) {
    size_t used = length;
    while (used > 0 && region[used - 1] == 0) used--;
    return up(used) < length ? up(used) : length;
}

/* Count entries, held to the plain rule: the walk to the used bound. No grid can have more entries than lines. */
static struct counted count(const uint8_t *region, size_t length) {
    struct counted wanted = {.number = LOCKER_ACCEPTED};
    struct ended ended = plain_walk(region, length, plain_bound(region, length), &wanted.counts);
    wanted.number = ended.number;
    wanted.place = ended.at;
    struct counted told = wanted_counts(region, length, wanted);
    if (told.number == LOCKER_ACCEPTED) CHECK(sum_of(&told.counts) <= up(length) / 16);
    return told;
}

/* Whether the entries are these alone, in namespace 1, where the sample stands. */
static bool counts_of_sample(struct counted told, uint32_t inserts, uint32_t updates, uint32_t tombstones) {
    struct locker_counts wanted = {{{0}}};
    wanted.entries[LOCKER_INSERT][1] = inserts;
    wanted.entries[LOCKER_UPDATE][1] = updates;
    wanted.entries[LOCKER_TOMBSTONE][1] = tombstones;
    return told.number == LOCKER_ACCEPTED && same_counts(&told.counts, &wanted);
}

/* Whether so many entries are counted and all of them are in this cell. */
static bool counts_in(struct counted told, unsigned kind, unsigned ns, uint32_t entries) {
    struct locker_counts wanted = {{{0}}};
    wanted.entries[kind][ns] = entries;
    return told.number == LOCKER_ACCEPTED && same_counts(&told.counts, &wanted);
}

static bool counts_none(struct counted told) { return counts_in(told, 0, 0, 0); }

static bool is_unknown_at(struct counted told, uint64_t place) {
    return told.number == LOCKER_UNKNOWN_TYPE && told.place == place;
}

static void count_of_the_sample(void) {
    uint8_t region[64] = {0}, changed[64];
    put_sample(region);
    /* an entry that lacks a byte isn't counted, and one that ends with the region is */
    for (size_t length = 0; length <= 64; length++)
        CHECK(counts_of_sample(count(region, length), length >= 13, length >= 30, length >= 42));
    /* the used bound is told by the bytes alone: behind it nothing is looked at, whatever the length */
    for (size_t line = 0; line <= 48; line += 16) {
        memset(changed, 0, sizeof changed);
        memcpy(changed, region, line);
        CHECK(counts_of_sample(count(changed, 64), line > 0, line > 16, line > 32));
    }
    /* type 3 before, between and behind the entries, which aren't told then; a byte too few for it */
    for (size_t line = 0; line <= 48; line += 16) {
        memcpy(changed, region, sizeof changed);
        put_number(changed + line, mark(line) | UINT64_C(3) << 30, 4);
        CHECK(is_unknown_at(count(changed, 64), line));
        CHECK(is_unknown_at(count(changed, line + 8), line));
        CHECK(counts_of_sample(count(changed, line + 7), line > 0, line > 16, line > 32));
    }
    /* each bit of it changed */
    for (size_t bit = 0; bit < 8 * 64; bit++) {
        region[bit / 8] ^= (uint8_t)(1 << bit % 8);
        count(region, 64);
        region[bit / 8] ^= (uint8_t)(1 << bit % 8);
    }
}

/* Every cell: an entry alone, and all 192 types and namespaces in one region, each another number of times. */
static void count_of_every_cell(void) {
    enum { ALL = 192 * 193 / 2 };
    uint8_t alone[16], *region = calloc(ALL, 16);
    if (region == NULL) exit(2);
    struct counted wanted = {.number = LOCKER_ACCEPTED};
    size_t used = 0;
    for (unsigned kind = 0; kind < LOCKER_KINDS; kind++) {
        for (unsigned ns = 0; ns < LOCKER_NAMESPACES; ns++) {
            size_t length = put_entry(alone, 0, kind, kind, ns, key, 2, value, kind == 2 ? 0 : 1);
            CHECK(counts_in(count(alone, length), kind, ns, 1));
            wanted.counts.entries[kind][ns] = kind * LOCKER_NAMESPACES + ns + 1;
            for (uint32_t i = 0; i < wanted.counts.entries[kind][ns]; i++, used += 16)
                put_entry(region, used, kind, kind, ns, key, 2, value, kind == 2 ? 0 : 1);
        }
    }
    CHECK(used == 16 * ALL && sum_of(&wanted.counts) == ALL);
    wanted_counts(region, used, wanted);
    /* the last entry, of 10 bytes, lacks one */
    wanted.counts.entries[LOCKER_TOMBSTONE][LOCKER_LAST_NAMESPACE]--;
    wanted_counts(region, used - 7, wanted);
    /* 10 at the last line: of all that was counted nothing is told */
    region[used - 13] |= 0xc0;
    CHECK(is_unknown_at(count(region, used), used - 16));
    free(region);
}

/* Entries within an entry, and a line of type 3: where the outer one verifies it alone is counted, else the lines in it
 * are tried. */
static void count_over_lines(void) {
    uint8_t region[96] = {0};
    memset(region + 16, 0xff, 48);
    put_entry(region, 16, 2, 2, 2, key, 2, value, 0);
    put_entry(region, 32, 0, 1, 3, key, 2, value, 1);
    put_number(region + 48, mark(48) | UINT64_C(3) << 30, 4);
    uint8_t *within = copied(region + 8, 62);
    CHECK(put_entry(region, 0, 1, 1, 63, within + 52, 10, within, 52) == 72);
    free(within);
    CHECK(counts_in(count(region, 96), LOCKER_UPDATE, 63, 1));
    CHECK(counts_in(count(region, 72), LOCKER_UPDATE, 63, 1));
    CHECK(is_unknown_at(count(region, 71), 48));
    region[70] ^= 1;
    CHECK(is_unknown_at(count(region, 96), 48));
    region[48] ^= 1;
    struct counted told = count(region, 96);
    CHECK(told.number == LOCKER_ACCEPTED && sum_of(&told.counts) == 2);
    CHECK(told.counts.entries[LOCKER_TOMBSTONE][2] == 1 && told.counts.entries[LOCKER_UPDATE][3] == 1);
}

/* An entry that ends in zeros, its checksum among them: the used bound lies within it, and it is counted all the same. */
static void count_past_the_bound(void) {
    static const uint8_t zeros[30];
    uint8_t region[64] = {0}, two[2];
    uint64_t drawn = 0;
    do {
        put_number(two, drawn++, 2);
        put_entry(region, 0, 1, 1, 9, zeros, sizeof zeros, two, 2);
    } while (number_at(region + 40, 2) != 0 && drawn <= 0xffff);
    CHECK(plain_bound(region, 64) == 16 && plain_bound(region, 42) == 16);
    for (size_t length = 0; length <= 64; length++)
        CHECK(counts_in(count(region, length), LOCKER_UPDATE, 9, length >= 42));
}

/* Entries of which both lengths are the most that two bytes hold, more than an append takes. */
static void count_of_the_longest(void) {
    const size_t longest = 131080;
    uint8_t *part = calloc(1, 65535), *region = calloc(1, 2 * up(longest));
    if (part == NULL || region == NULL) exit(2);
    CHECK(put_entry(region, 0, 0, 0, 63, part, 65535, part, 65535) == longest);
    CHECK(put_entry(region, up(longest), 0, 0, 63, part, 65535, part, 65535) == longest);
    CHECK(counts_in(count(region, up(longest) + longest), LOCKER_INSERT, 63, 2));
    CHECK(counts_in(count(region, up(longest) + longest - 1), LOCKER_INSERT, 63, 1));
    CHECK(counts_in(count(region, longest), LOCKER_INSERT, 63, 1));
    CHECK(counts_none(count(region, longest - 1)));
    free(part);
    free(region);
}

static void count_of_nothing(void) {
    static const uint8_t zeros[64];
    for (size_t length = 0; length <= 64; length++) CHECK(counts_none(count(zeros, length)));
    uint8_t *region = malloc(HOSTILE);
    if (region == NULL) exit(2);
    put_hostile(region);
    CHECK(counts_none(count(region, HOSTILE)));
    CHECK(counts_none(count(region, HOSTILE - 1)));
    free(region);
}

/* One byte more than the largest region, of which the first line is of type 3. */
static uint32_t count_of_too_large(void) {
    put_number(big, mark(0) | UINT64_C(3) << 30, 4);
    uint32_t number = count(big, largest + 1).number;
    memset(big, 0, 4);
    return number;
}

static void count_of_the_largest(void) {
    CHECK(counts_none(count(big, largest)));
    put_entry(big, largest - 16, 2, 2, 5, key, 8, value, 0);
    CHECK(counts_in(count(big, largest), LOCKER_TOMBSTONE, 5, 1));
    CHECK(counts_none(count(big, largest - 1)));
    CHECK(count(big, largest + 1).number == LOCKER_REGION_TOO_LARGE);
    memset(big + largest - 16, 0, 16);
    CHECK(count_of_too_large() == LOCKER_REGION_TOO_LARGE);
    CHECK(all_are(big, largest + 1, 0));
}

/* The largest region full of entries of 16 bytes, the most that a cell can hold. The plain rule would take too long. */
static void count_of_the_most(void) {
    const uint32_t most = LOCKER_LARGEST_REGION / LOCKER_LINE;
    struct counted wanted = {.number = LOCKER_ACCEPTED};
    uint32_t *cell = &wanted.counts.entries[LOCKER_TOMBSTONE][LOCKER_LAST_NAMESPACE];
    rule = rules[2];
    for (size_t p = 0; p < largest; p += 16) put_entry(big, p, 2, 2, LOCKER_LAST_NAMESPACE, key, 8, value, 0);
    CHECK(most == 16777216);
    *cell = most;
    wanted_counts(big, largest, wanted);
    *cell = most - 1;
    wanted_counts(big, largest - 1, wanted);
    wanted_counts(big, largest + 1, (struct counted){.number = LOCKER_REGION_TOO_LARGE});
    /* 10 at the last line, behind all others; a byte too few for it */
    big[largest - 13] |= 0xc0;
    wanted_counts(big, largest, (struct counted){.number = LOCKER_UNKNOWN_TYPE, .place = largest - 16});
    wanted_counts(big, largest - 9, wanted);
    memset(big, 0, largest);
}

static void count_limits(void) {
    count_of_the_sample();
    count_of_every_cell();
    count_over_lines();
    count_past_the_bound();
    count_of_the_longest();
    count_of_nothing();
    count_of_the_largest();
}

static uint32_t count_of_a_version(bool due) {
    uint8_t region[64] = {0};
    put_sample(region);
    return due ? count_of_too_large() : count(region, 64).number;
}

static void count_of_a_card_used_again(void) {
    uint8_t region[64] = {0};
    for (size_t i = 0; i < LATER; i++) {
        bool seen = recycle(region, i);
        CHECK(counts_of_sample(count(region, 64), seen, seen, seen));
        /* the later file's first entry is counted, and behind it what was before */
        put_entry(region, 0, 0, 0, 1, (const uint8_t *)"B2", 2, (const uint8_t *)"5", 1);
        CHECK(counts_of_sample(count(region, 64), 1, seen, seen));
    }
    share_marks(region);
    CHECK(counts_of_sample(count(region, 64), 1, 1, 1));
}

/* Regions of 0xff. */
static void count_of_erased(void) {
    uint8_t region[64];
    memset(region, 0xff, 64);
    rule = (struct rule){LOCKER_VERSION_2, 0xA5E83F};
    CHECK(is_unknown_at(count(region, 64), 0));
    CHECK(counts_none(count(region, 7)));
    rule = (struct rule){LOCKER_VERSION_2, 0xA5E83D};
    CHECK(is_unknown_at(count(region, 64), 32));
    CHECK(counts_none(count(region, 39)));
    rule = (struct rule){LOCKER_VERSION_1, 0xA5E83F};
    CHECK(counts_none(count(region, 64)));
    memset(big, 0xff, largest);
    CHECK(is_unknown_at(count(big, largest), 173966320));
    memset(big, 0, largest);
}

static void count_of_any(const uint8_t *region, size_t length) { count(region, length); }

static void try_count_entries(void) {
    begin("locker_count_entries");
    under_each_rule(count_limits);
    under_neither_version(count_of_a_version);
    count_of_a_card_used_again();
    count_of_erased();
    count_of_the_most();
    under_any_region(count_of_any);
}

/* ---- replay */

static void try_replay_data(void) {
    begin("locker_replay_data");
    static const size_t klens[] = {0, 1, 4095, 4096, 4097, 65536, (size_t)1 << 63, SIZE_MAX};
    static const size_t vlens[] = {0, 1, 32767, 32768, 32769, 65536, (size_t)1 << 63, SIZE_MAX};
    static const size_t maxima[] = {0, 15, 16, 4111, 4112, 36863, 36864, 36879, 36880, largest, largest + 1, SIZE_MAX};
    for (size_t i = 0; i < sizeof klens / sizeof *klens; i++) {
        for (size_t j = 0; j < sizeof vlens / sizeof *vlens; j++) {
            for (size_t k = 0; k < sizeof maxima / sizeof *maxima; k++) {
                uint32_t wanted = maxima[k] > LOCKER_LARGEST_REGION          ? LOCKER_REGION_TOO_LARGE
                                  : klens[i] > LOCKER_LARGEST_KEY            ? LOCKER_KEY_TOO_LONG
                                  : vlens[j] > LOCKER_LARGEST_VALUE          ? LOCKER_VALUE_TOO_LONG
                                  : up(10 + klens[i] + vlens[j]) > maxima[k] ? LOCKER_NO_SPACE
                                                                             : LOCKER_ACCEPTED;
                CHECK(locker_replay_data(klens[i], vlens[j], maxima[k]) == wanted);
            }
        }
    }
    CHECK(locker_replay_data(4096, 32768, 36880) == LOCKER_ACCEPTED);
    CHECK(locker_replay_data(4096, 32768, 36879) == LOCKER_NO_SPACE);
    CHECK(locker_replay_data(4, 2, 16) == LOCKER_ACCEPTED);
    CHECK(locker_replay_data(4, 3, 16) == LOCKER_NO_SPACE);
}

static void try_replay_tombstone(void) {
    begin("locker_replay_tombstone");
    static const size_t klens[] = {0, 1, 7, 8, 9, 4095, 4096, 4097, 65536, (size_t)1 << 63, SIZE_MAX};
    static const size_t maxima[] = {0, 15, 16, 31, 32, 4111, 4112, largest, largest + 1, SIZE_MAX};
    for (size_t i = 0; i < sizeof klens / sizeof *klens; i++) {
        for (size_t k = 0; k < sizeof maxima / sizeof *maxima; k++) {
            uint32_t wanted = maxima[k] > LOCKER_LARGEST_REGION ? LOCKER_REGION_TOO_LARGE
                              : klens[i] > LOCKER_LARGEST_KEY   ? LOCKER_KEY_TOO_LONG
                              : up(8 + klens[i]) > maxima[k]    ? LOCKER_NO_SPACE
                                                                : LOCKER_ACCEPTED;
            CHECK(locker_replay_tombstone(klens[i], maxima[k]) == wanted);
        }
    }
    CHECK(locker_replay_tombstone(8, 16) == LOCKER_ACCEPTED);
    CHECK(locker_replay_tombstone(9, 16) == LOCKER_NO_SPACE);
}

static void try_start_file(void) {
    begin("locker_start_file");
    uint64_t ordinals[LOCKER_MOST_ORDINALS + 1], kept[LOCKER_MOST_ORDINALS + 1];
    for (size_t i = 0; i <= LOCKER_MOST_ORDINALS; i++) ordinals[i] = 10 * i;
    memcpy(kept, ordinals, sizeof kept);
    for (size_t count = 0; count <= LOCKER_MOST_ORDINALS; count++) {
        for (uint64_t cursor = 0; cursor <= 660; cursor += 5) {
            uint64_t place = UNTOUCHED, found = UNTOUCHED, first = (cursor + 9) / 10;
            CHECK(locker_start_file(ordinals, count, cursor, &place, &found) == LOCKER_ACCEPTED);
            CHECK(found == (count != 0));
            CHECK(place == (count == 0 ? UNTOUCHED : first < count ? first : count - 1));
        }
    }
    uint64_t place = UNTOUCHED, found = UNTOUCHED;
    CHECK(locker_start_file(ordinals, LOCKER_MOST_ORDINALS + 1, 0, &place, &found) == LOCKER_TOO_MANY_ORDINALS);
    CHECK(place == UNTOUCHED && found == UNTOUCHED);
    /* an equal pair at any two places of a full list, and 18 before it in a longer one */
    for (size_t first = 0; first < LOCKER_MOST_ORDINALS; first++) {
        for (size_t second = first + 1; second < LOCKER_MOST_ORDINALS; second++) {
            ordinals[second] = ordinals[first];
            CHECK(locker_start_file(ordinals, LOCKER_MOST_ORDINALS, 0, &place, &found) == LOCKER_EQUAL_ORDINALS);
            CHECK(place == UNTOUCHED && found == UNTOUCHED);
            CHECK(locker_start_file(ordinals, second, 0, &place, &found) == LOCKER_ACCEPTED && found == 1 && place == 0);
            place = found = UNTOUCHED;
            CHECK(locker_start_file(ordinals, LOCKER_MOST_ORDINALS + 1, 0, &place, &found) == LOCKER_TOO_MANY_ORDINALS);
            ordinals[second] = kept[second];
        }
    }
    CHECK(memcmp(ordinals, kept, sizeof kept) == 0);
    /* any order: a full list up, down and scattered (a step without a common divisor with 64), each turned to all its starts */
    static const size_t steps[] = {1, LOCKER_MOST_ORDINALS - 1, 37};
    for (size_t k = 0; k < sizeof steps / sizeof *steps; k++) {
        for (size_t turn = 0; turn < LOCKER_MOST_ORDINALS; turn++) {
            for (size_t i = 0; i < LOCKER_MOST_ORDINALS; i++) ordinals[(steps[k] * i + turn) % LOCKER_MOST_ORDINALS] = 10 * i;
            for (uint64_t cursor = 0; cursor <= 640; cursor += 5) {
                uint64_t file = (cursor + 9) / 10 < LOCKER_MOST_ORDINALS ? (cursor + 9) / 10 : LOCKER_MOST_ORDINALS - 1;
                CHECK(locker_start_file(ordinals, LOCKER_MOST_ORDINALS, cursor, &place, &found) == LOCKER_ACCEPTED);
                CHECK(found == 1 && place == (steps[k] * file + turn) % LOCKER_MOST_ORDINALS);
            }
        }
    }
    static const uint64_t mixed[] = {9, 5, UINT64_MAX, 1};
    CHECK(locker_start_file(mixed, 4, 4, &place, &found) == LOCKER_ACCEPTED && found == 1 && place == 1);
    CHECK(locker_start_file(mixed, 4, 10, &place, &found) == LOCKER_ACCEPTED && found == 1 && place == 2);
    CHECK(locker_start_file(mixed, 4, UINT64_MAX, &place, &found) == LOCKER_ACCEPTED && found == 1 && place == 2);
    CHECK(locker_start_file(mixed, 2, UINT64_MAX, &place, &found) == LOCKER_ACCEPTED && found == 1 && place == 0);
}

/* ---- tracker
 *
 * Every call below is made on a copy between two guards. On a refusal, on Stale and in a checkpoint all of it has to
 * stay as it was; after any call the guards and the cells behind an out parameter have to. */

struct guarded {
    uint64_t low[4];
    struct locker_tracker t;
    uint64_t high[4];
};

static struct guarded lent, kept;

static void lend(const struct locker_tracker *t) {
    for (int i = 0; i < 4; i++) lent.low[i] = lent.high[i] = UNTOUCHED;
    lent.t = *t;
    kept = lent;
}

static bool untouched_guards(void) {
    return memcmp(lent.low, kept.low, sizeof lent.low) == 0 && memcmp(lent.high, kept.high, sizeof lent.high) == 0;
}

static bool untouched_lent(void) { return memcmp(&lent, &kept, sizeof lent) == 0; }

/* The same state: slots, next number and what waits; what lies past a queue's length doesn't count. */
static bool same_state(const struct locker_tracker *a, const struct locker_tracker *b) {
    if (memcmp(a->slots, b->slots, sizeof a->slots) != 0 || a->next != b->next) return false;
    if (memcmp(a->lengths, b->lengths, sizeof a->lengths) != 0) return false;
    for (size_t s = 0; s < LOCKER_SHARDS; s++) {
        size_t base = s * LOCKER_WAITING, count = a->lengths[s];
        if (memcmp(a->numbers + base, b->numbers + base, count * sizeof *a->numbers) != 0) return false;
        if (memcmp(a->deltas + base, b->deltas + base, count) != 0) return false;
    }
    return true;
}

/* Every slot idle and nothing waiting. What isn't state is filled with numbers that would be noticed. */
static struct locker_tracker tracker_from(uint64_t next) {
    struct locker_tracker t;
    memset(&t, 0, sizeof t);
    for (size_t i = 0; i < LOCKER_SHARDS * LOCKER_WAITING; i++) {
        t.numbers[i] = UINT64_MAX - i;
        t.deltas[i] = 77;
    }
    t.next = next;
    return t;
}

static void wait_on(struct locker_tracker *t, size_t shard, uint64_t number, int8_t delta) {
    size_t at = shard * LOCKER_WAITING + t->lengths[shard]++;
    t->numbers[at] = number;
    t->deltas[at] = delta;
}

/* The same in the order of numbers, behind its equals: from the back on before each that is larger. */
static void wait_in_order(struct locker_tracker *t, size_t shard, uint64_t number, int8_t delta) {
    wait_on(t, shard, number, delta);
    size_t base = shard * LOCKER_WAITING;
    for (size_t at = base + t->lengths[shard] - 1; at > base && t->numbers[at - 1] > number; at--) {
        t->numbers[at] = t->numbers[at - 1];
        t->deltas[at] = t->deltas[at - 1];
        t->numbers[at - 1] = number;
        t->deltas[at - 1] = delta;
    }
}

static void open_slot(struct locker_tracker *t, size_t shard, uint64_t number, uint64_t ordinal, uint64_t offset) {
    t->slots[shard] = (struct locker_slot){number, ordinal, offset};
}

/* A tracker in use: `count` deltas wait on the shard, numbers from 1 on, and its slot is open or idle. */
static struct locker_tracker tracker_with(size_t shard, size_t count, bool open, uint64_t next) {
    struct locker_tracker t = tracker_from(next);
    for (size_t i = 0; i < count; i++) wait_on(&t, shard, i + 1, (int8_t)(i + 1));
    open_slot(&t, shard, open ? 40 : 0, 6, 96);
    return t;
}

/* Trackers that aren't sound, each in one way. They are made on shard 0 and on shard 15. */
enum { UNSOUND = 16 };

static struct locker_tracker unsound(size_t which, size_t shard) {
    struct locker_tracker t = tracker_with(shard, 3, false, 50);
    size_t base = shard * LOCKER_WAITING;
    switch (which) {
    case 0: t = tracker_from(0); break;
    case 1: t = tracker_with(shard, 3, false, 0); break;
    case 2: t.lengths[shard] = 33; break;
    case 3: t.lengths[shard] = UINT64_MAX; break;
    case 4: t.lengths[shard] = UINT64_C(1) << 63; break;
    case 5: t.lengths[shard] = UINT64_C(1) << 32; break;
    case 6: t.lengths[shard] = base == 0 ? UINT64_MAX - 31 : UINT64_MAX - base + 1; break; /* base + length wraps */
    case 7: t.slots[shard].number = 50; break;
    case 8: t.slots[shard].number = UINT64_MAX; break;
    case 9: t.numbers[base] = 50, t.lengths[shard] = 1; break;
    case 10: t.numbers[base + 2] = UINT64_MAX; break;
    case 11: t = tracker_with(shard, 32, true, 50); break;
    case 12: t = tracker_with(shard, 32, false, 32); break;
    case 13: t.numbers[base] = 3; break;
    case 14: t.numbers[base + 2] = 1; break;
    default: t = tracker_with(shard, 1, true, 40);
    }
    return t;
}

/* Sound ones, each as near to not being so as it can be. */
enum { SOUND = 14 };

static struct locker_tracker sound(size_t which, size_t shard) {
    struct locker_tracker t = tracker_with(shard, 3, false, 50);
    size_t base = shard * LOCKER_WAITING;
    switch (which) {
    case 0: return tracker_from(1);
    case 1: return tracker_from(UINT64_MAX);
    case 2: return tracker_with(shard, 32, false, 33);
    case 3: return tracker_with(shard, 31, true, 41);
    case 4: t.slots[shard].number = 49; break;
    case 5: t.numbers[base] = 49, t.lengths[shard] = 1; break;
    case 6: t.numbers[base + 2] = 49; break;
    case 7: t.numbers[base] = 0; break;
    case 8: t.numbers[base + 3] = 50; break;
    case 9: t.slots[shard] = (struct locker_slot){0, UINT64_MAX, UINT64_MAX}; break;
    case 10: t.numbers[base] = 2; break;
    case 11: t.numbers[base + 2] = 2; break;
    case 12: t.numbers[base + 3] = 0; break;
    default: t.next = UINT64_MAX, t.slots[shard].number = UINT64_MAX - 1;
    }
    return t;
}

static void try_fresh(void) {
    begin("locker_tracker_fresh");
    for (int byte = 0; byte < 256; byte += 85) {
        struct locker_tracker t, wanted = tracker_from(1);
        memset(&t, byte, sizeof t);
        lend(&t);
        CHECK(locker_tracker_fresh(&lent.t) == LOCKER_ACCEPTED);
        CHECK(untouched_guards());
        CHECK(same_state(&lent.t, &wanted));
    }
    for (size_t which = 0; which < UNSOUND; which++) {
        struct locker_tracker t = unsound(which, 15), wanted = tracker_from(1);
        lend(&t);
        CHECK(locker_tracker_fresh(&lent.t) == LOCKER_ACCEPTED);
        CHECK(same_state(&lent.t, &wanted));
        CHECK(locker_tracker_is_sound(&lent.t));
    }
}

static void try_is_sound(void) {
    begin("locker_tracker_is_sound");
    for (size_t shard = 0; shard < LOCKER_SHARDS; shard++) {
        for (size_t which = 0; which < SOUND; which++) {
            struct locker_tracker t = sound(which, shard);
            lend(&t);
            CHECK(locker_tracker_is_sound(&lent.t) == true);
            CHECK(untouched_lent());
        }
        for (size_t which = 0; which < UNSOUND; which++) {
            struct locker_tracker t = unsound(which, shard);
            lend(&t);
            CHECK(locker_tracker_is_sound(&lent.t) == false);
            CHECK(untouched_lent());
        }
        for (size_t count = 0; count <= 40; count++) {
            struct locker_tracker t = tracker_with(shard, 3, false, UINT64_MAX);
            memset(t.numbers, 0, sizeof t.numbers);
            t.lengths[shard] = count;
            CHECK(locker_tracker_is_sound(&t) == (count <= 32));
            t.slots[shard].number = UINT64_MAX - 1;
            CHECK(locker_tracker_is_sound(&t) == (count <= 31));
        }
        /* any place of a queue of any length: a number may equal the one before it, and be no smaller */
        for (size_t count = 2; count <= 32; count++) {
            for (size_t at = 1; at < count; at++) {
                struct locker_tracker t = tracker_with(shard, count, false, 50);
                t.numbers[shard * LOCKER_WAITING + at] = at;
                CHECK(locker_tracker_is_sound(&t) == true);
                t.numbers[shard * LOCKER_WAITING + at] = at - 1;
                CHECK(locker_tracker_is_sound(&t) == false);
            }
        }
    }
}

/* Each of these makes the call on a copy of the tracker, looks at what must stay, and leaves the rest to its caller:
 * the tracker afterwards is lent.t, and the out parameter is told. */

struct space {
    size_t shard;
    uint64_t ordinal, used, capacity;
    bool sealed;
    uint64_t length;
};

static uint32_t reserve(const struct locker_tracker *t, struct space s, struct locker_reserved *told) {
    struct locker_reserved out[2], before[2];
    memset(out, 0x5a, sizeof out);
    memcpy(before, out, sizeof out);
    lend(t);
    uint32_t answer =
        locker_tracker_reserve(&lent.t, s.shard, s.ordinal, s.used, s.capacity, s.sealed, s.length, &out[0]);
    CHECK(untouched_guards());
    CHECK(memcmp(&out[1], &before[1], sizeof out[1]) == 0);
    if (answer != LOCKER_ACCEPTED) {
        CHECK(untouched_lent());
        CHECK(memcmp(out, before, sizeof out) == 0);
    }
    *told = out[0];
    return answer;
}

/* A call that tells one number: record, complete or abandon. */
enum call { RECORD, COMPLETE, ABANDON };

static uint32_t tell_one(const struct locker_tracker *t, enum call call, size_t shard, uint64_t number, int8_t delta,
                         uint64_t *told) {
    uint64_t out[2] = {UNTOUCHED, UNTOUCHED};
    uint32_t answer;
    lend(t);
    if (call == RECORD)
        answer = locker_tracker_record(&lent.t, shard, delta, &out[0]);
    else if (call == COMPLETE)
        answer = locker_tracker_complete(&lent.t, shard, number, delta, &out[0]);
    else
        answer = locker_tracker_abandon(&lent.t, shard, number, &out[0]);
    CHECK(untouched_guards());
    CHECK(out[1] == UNTOUCHED);
    if (answer != LOCKER_ACCEPTED) {
        CHECK(untouched_lent());
        CHECK(out[0] == UNTOUCHED);
    } else if (call != RECORD) {
        CHECK(out[0] <= 1);
        if (out[0] == 0) CHECK(untouched_lent());
    }
    *told = out[0];
    return answer;
}

static uint32_t checkpoint(const struct locker_tracker *t, uint64_t ordinal, uint64_t used,
                           struct locker_progress *told) {
    struct locker_progress out[2], before[2];
    memset(out, 0x5a, sizeof out);
    memcpy(before, out, sizeof out);
    lend(t);
    uint32_t answer = locker_tracker_checkpoint(&lent.t, ordinal, used, &out[0]);
    CHECK(untouched_lent());
    CHECK(memcmp(&out[1], &before[1], sizeof out[1]) == 0);
    if (answer != LOCKER_ACCEPTED) CHECK(memcmp(out, before, sizeof out) == 0);
    *told = out[0];
    return answer;
}

static uint32_t drain(const struct locker_tracker *t, uint64_t limit, int64_t *told) {
    int64_t out[2] = {(int64_t)UNTOUCHED, (int64_t)UNTOUCHED};
    lend(t);
    uint32_t answer = locker_tracker_drain(&lent.t, limit, &out[0]);
    CHECK(untouched_guards());
    CHECK(out[1] == (int64_t)UNTOUCHED);
    if (answer != LOCKER_ACCEPTED) {
        CHECK(untouched_lent());
        CHECK(out[0] == (int64_t)UNTOUCHED);
    }
    *told = out[0];
    return answer;
}

static uint32_t clear(const struct locker_tracker *t) {
    lend(t);
    uint32_t answer = locker_tracker_clear(&lent.t);
    CHECK(untouched_guards());
    if (answer != LOCKER_ACCEPTED) CHECK(untouched_lent());
    return answer;
}

static const struct space line = {.shard = 15, .ordinal = 7, .used = 32, .capacity = 48, .length = 16};

static bool accepted_space(const struct locker_tracker *t, struct space s) {
    struct locker_reserved told;
    struct locker_tracker wanted = *t;
    if (reserve(t, s, &told) != LOCKER_ACCEPTED) return false;
    open_slot(&wanted, s.shard, t->next, s.ordinal, s.used);
    wanted.next++;
    return same_state(&lent.t, &wanted) && told.number == t->next && told.place == s.used &&
           told.used == s.used + s.length && locker_tracker_is_sound(&lent.t);
}

static void try_reserve(void) {
    begin("locker_tracker_reserve");
    struct locker_reserved told;
    struct locker_tracker t = tracker_from(1);
    struct space s = line;
    for (s.shard = 0; s.shard < LOCKER_SHARDS; s.shard++) CHECK(accepted_space(&t, s));
    static const size_t shards[] = {16, 17, 255, 256, (size_t)1 << 32, SIZE_MAX};
    for (size_t i = 0; i < sizeof shards / sizeof *shards; i++) {
        s.shard = shards[i];
        CHECK(reserve(&t, s, &told) == LOCKER_SHARD_TOO_LARGE);
    }
    /* lines and lengths */
    s = line;
    s.capacity = 256;
    for (s.used = 0; s.used <= 64; s.used++)
        CHECK(s.used % 16 == 0 ? accepted_space(&t, s) : reserve(&t, s, &told) == LOCKER_NOT_ON_LINE);
    s.used = 32;
    for (s.length = 0; s.length <= 64; s.length++)
        CHECK(s.length % 16 == 0 && s.length != 0 ? accepted_space(&t, s)
                                                  : reserve(&t, s, &told) == LOCKER_NOT_ON_LINE);
    /* capacities: used count + length at it, a line over it, and a capacity that is no line */
    s = line;
    CHECK(accepted_space(&t, s));
    s.length = 32;
    CHECK(reserve(&t, s, &told) == LOCKER_NO_SPACE);
    s.length = 16;
    for (s.capacity = 0; s.capacity <= 64; s.capacity++)
        CHECK(s.capacity >= 48 ? accepted_space(&t, s) : reserve(&t, s, &told) == LOCKER_NO_SPACE);
    s.capacity = largest;
    CHECK(accepted_space(&t, s));
    s.used = largest - 16;
    CHECK(accepted_space(&t, s));
    s.used = largest;
    CHECK(reserve(&t, s, &told) == LOCKER_NO_SPACE);
    s.used = 0;
    s.length = largest;
    CHECK(accepted_space(&t, s));
    s.length = largest + 16;
    CHECK(reserve(&t, s, &told) == LOCKER_NO_SPACE);
    s = line;
    static const uint64_t over[] = {largest + 1, largest + 16, UINT64_C(1) << 32, UINT64_MAX};
    for (size_t i = 0; i < sizeof over / sizeof *over; i++) {
        s.capacity = over[i];
        CHECK(reserve(&t, s, &told) == LOCKER_REGION_TOO_LARGE);
    }
    /* sums over 2^64 - 1 don't wrap */
    s = line;
    static const uint64_t near_end[] = {UINT64_MAX - 15, UINT64_MAX - 31, UINT64_C(1) << 63};
    for (size_t i = 0; i < sizeof near_end / sizeof *near_end; i++) {
        s.used = near_end[i];
        s.length = 16;
        CHECK(reserve(&t, s, &told) == LOCKER_NO_SPACE);
        s.length = near_end[i];
        CHECK(reserve(&t, s, &told) == LOCKER_NO_SPACE);
        s.used = 16;
        CHECK(reserve(&t, s, &told) == LOCKER_NO_SPACE);
        s.used = 0;
        CHECK(reserve(&t, s, &told) == LOCKER_NO_SPACE);
    }
    s.used = s.length = UINT64_MAX;
    CHECK(reserve(&t, s, &told) == LOCKER_NOT_ON_LINE);
    s = line;
    s.sealed = true;
    CHECK(reserve(&t, s, &told) == LOCKER_NO_SPACE);
    /* any ordinal */
    s = line;
    s.ordinal = UINT64_MAX;
    CHECK(accepted_space(&t, s));
    /* the last number is 2^64 - 2 */
    t = tracker_from(UINT64_MAX - 1);
    CHECK(accepted_space(&t, line));
    t = lent.t;
    CHECK(t.next == UINT64_MAX && t.slots[15].number == UINT64_MAX - 1);
    CHECK(reserve(&t, line, &told) == LOCKER_NUMBERS_USED_UP);
    t = tracker_from(UINT64_MAX);
    CHECK(reserve(&t, line, &told) == LOCKER_NUMBERS_USED_UP);
    /* waiting room: a full queue and no less; an open slot is overwritten */
    for (size_t count = 0; count <= 32; count++) {
        t = tracker_with(15, count, false, 50);
        CHECK(count < 32 ? accepted_space(&t, line) : reserve(&t, line, &told) == LOCKER_NO_WAITING_ROOM);
        if (count == 32) break;
        t = tracker_with(15, count, true, 50);
        CHECK(accepted_space(&t, line));
    }
    /* a full queue of another shard doesn't matter */
    t = tracker_with(14, 32, false, 50);
    CHECK(accepted_space(&t, line));
    /* 28 comes before all else */
    for (size_t which = 0; which < UNSOUND; which++) {
        for (size_t shard = 0; shard < LOCKER_SHARDS; shard += 15) {
            t = unsound(which, shard);
            CHECK(reserve(&t, line, &told) == LOCKER_NOT_SOUND);
            s = (struct space){.shard = 16, .used = 8, .capacity = UINT64_MAX, .sealed = true};
            CHECK(reserve(&t, s, &told) == LOCKER_NOT_SOUND);
        }
    }
    for (size_t which = 0; which < SOUND; which++) {
        t = sound(which, 0);
        CHECK(t.next == UINT64_MAX ? reserve(&t, line, &told) == LOCKER_NUMBERS_USED_UP : accepted_space(&t, line));
    }
    /* the order: each is given while all later ones would be due too */
    t = tracker_with(15, 32, false, UINT64_MAX);
    s = (struct space){.shard = 16, .used = 8, .capacity = UINT64_MAX, .sealed = true, .length = 0};
    CHECK(reserve(&t, s, &told) == LOCKER_SHARD_TOO_LARGE);
    s.shard = 15;
    CHECK(reserve(&t, s, &told) == LOCKER_NUMBERS_USED_UP);
    t.next = 50;
    CHECK(reserve(&t, s, &told) == LOCKER_NO_WAITING_ROOM);
    t.lengths[15] = 31;
    CHECK(reserve(&t, s, &told) == LOCKER_NOT_ON_LINE);
    s.used = 0;
    CHECK(reserve(&t, s, &told) == LOCKER_NOT_ON_LINE);
    s.length = 8;
    CHECK(reserve(&t, s, &told) == LOCKER_NOT_ON_LINE);
    s.length = 16;
    CHECK(reserve(&t, s, &told) == LOCKER_REGION_TOO_LARGE);
    s.capacity = 48;
    CHECK(reserve(&t, s, &told) == LOCKER_NO_SPACE);
    s.sealed = false;
    CHECK(accepted_space(&t, s));
}

static bool accepted_record(const struct locker_tracker *t, size_t shard, int8_t delta) {
    uint64_t told;
    struct locker_tracker wanted = *t;
    if (tell_one(t, RECORD, shard, 0, delta, &told) != LOCKER_ACCEPTED) return false;
    wait_on(&wanted, shard, t->next, delta);
    wanted.next++;
    return same_state(&lent.t, &wanted) && told == t->next && locker_tracker_is_sound(&lent.t);
}

static void try_record(void) {
    begin("locker_tracker_record");
    uint64_t told;
    struct locker_tracker t = tracker_from(1);
    for (size_t shard = 0; shard < LOCKER_SHARDS; shard++) CHECK(accepted_record(&t, shard, 5));
    static const size_t shards[] = {16, 17, 256, (size_t)1 << 32, SIZE_MAX};
    for (size_t i = 0; i < sizeof shards / sizeof *shards; i++)
        CHECK(tell_one(&t, RECORD, shards[i], 0, 5, &told) == LOCKER_SHARD_TOO_LARGE);
    for (int delta = -128; delta <= 127; delta++) CHECK(accepted_record(&t, 3, (int8_t)delta));
    /* the last number is 2^64 - 2 */
    t = tracker_from(UINT64_MAX - 1);
    CHECK(accepted_record(&t, 15, -1));
    t = lent.t;
    CHECK(t.next == UINT64_MAX);
    CHECK(tell_one(&t, RECORD, 15, 0, -1, &told) == LOCKER_NUMBERS_USED_UP);
    /* waiting room: 32, and one less beside an open slot */
    for (size_t shard = 0; shard < LOCKER_SHARDS; shard++) {
        for (size_t count = 0; count <= 32; count++) {
            t = tracker_with(shard, count, false, 50);
            CHECK(count < 32 ? accepted_record(&t, shard, 9)
                             : tell_one(&t, RECORD, shard, 0, 9, &told) == LOCKER_NO_WAITING_ROOM);
            CHECK(accepted_record(&t, (shard + 1) % LOCKER_SHARDS, 9));
            if (count == 32) break;
            t = tracker_with(shard, count, true, 50);
            CHECK(count < 31 ? accepted_record(&t, shard, 9)
                             : tell_one(&t, RECORD, shard, 0, 9, &told) == LOCKER_NO_WAITING_ROOM);
        }
    }
    for (size_t which = 0; which < UNSOUND; which++) {
        for (size_t shard = 0; shard < LOCKER_SHARDS; shard += 15) {
            t = unsound(which, shard);
            CHECK(tell_one(&t, RECORD, 3, 0, 1, &told) == LOCKER_NOT_SOUND);
            CHECK(tell_one(&t, RECORD, 16, 0, 1, &told) == LOCKER_NOT_SOUND);
        }
    }
    /* the order */
    t = tracker_with(15, 32, false, UINT64_MAX);
    CHECK(tell_one(&t, RECORD, 16, 0, 1, &told) == LOCKER_SHARD_TOO_LARGE);
    CHECK(tell_one(&t, RECORD, 15, 0, 1, &told) == LOCKER_NUMBERS_USED_UP);
    t.next = 50;
    CHECK(tell_one(&t, RECORD, 15, 0, 1, &told) == LOCKER_NO_WAITING_ROOM);
}

/* Done: the slot is idle, of which only its number changed, and a delta that isn't 0 waits behind its equals. */
static bool done(const struct locker_tracker *t, enum call call, size_t shard, uint64_t number, int8_t delta) {
    uint64_t told;
    struct locker_tracker wanted = *t;
    if (tell_one(t, call, shard, number, delta, &told) != LOCKER_ACCEPTED) return false;
    wanted.slots[shard].number = 0;
    if (call == COMPLETE && delta != 0) wait_in_order(&wanted, shard, number, delta);
    return told == 1 && same_state(&lent.t, &wanted) && locker_tracker_is_sound(&lent.t);
}

/* Stale: told, and by tell_one not a cell has changed. */
static bool stale(const struct locker_tracker *t, enum call call, size_t shard, uint64_t number, int8_t delta) {
    uint64_t told;
    return tell_one(t, call, shard, number, delta, &told) == LOCKER_ACCEPTED && told == 0;
}

static void try_finish(enum call call) {
    uint64_t told;
    struct locker_tracker t;
    for (size_t shard = 0; shard < LOCKER_SHARDS; shard++) {
        for (size_t count = 0; count <= 32; count++) {
            t = tracker_with(shard, count, false, 50);
            /* an idle slot has no number, not even 0 */
            CHECK(stale(&t, call, shard, 0, 1));
            CHECK(stale(&t, call, shard, 40, 1));
            CHECK(stale(&t, call, shard, 1, 1));
            if (count == 32) break;
            t = tracker_with(shard, count, true, 50);
            CHECK(done(&t, call, shard, 40, 1));
            CHECK(done(&t, call, shard, 40, 0));
            CHECK(stale(&t, call, shard, 0, 1));
            CHECK(stale(&t, call, shard, 39, 1));
            CHECK(stale(&t, call, shard, 41, 1));
            CHECK(stale(&t, call, shard, 49, 1));
            CHECK(stale(&t, call, shard, UINT64_MAX, 1));
            CHECK(stale(&t, call, (shard + 1) % LOCKER_SHARDS, 40, 1));
        }
    }
    /* beside 2, 4, 6 and so on every number up to one above the last, and a queue of equals */
    for (size_t count = 0; count < 32; count++) {
        for (uint64_t number = 1; number <= 2 * count + 1; number++) {
            t = tracker_from(70);
            for (size_t i = 1; i <= count; i++) wait_on(&t, 9, 2 * i, (int8_t)i);
            open_slot(&t, 9, number, 6, 96);
            CHECK(done(&t, call, 9, number, -1));
        }
        t = tracker_from(70);
        for (size_t i = 1; i <= count; i++) wait_on(&t, 9, 40, (int8_t)i);
        for (uint64_t number = 39; number <= 41; number++) {
            open_slot(&t, 9, number, 6, 96);
            CHECK(done(&t, call, 9, number, -1));
        }
    }
    t = tracker_with(0, 31, true, 50);
    for (int delta = -128; delta <= 127; delta++) CHECK(done(&t, call, 0, 40, (int8_t)delta));
    /* a second time it is stale */
    CHECK(done(&t, call, 0, 40, 3));
    t = lent.t;
    CHECK(stale(&t, call, 0, 40, 3));
    /* the last number is finished too */
    t = tracker_from(UINT64_MAX);
    open_slot(&t, 15, UINT64_MAX - 1, UINT64_MAX, UINT64_MAX);
    CHECK(done(&t, call, 15, UINT64_MAX - 1, -128));
    CHECK(stale(&t, call, 15, UINT64_MAX, -128));
    t = tracker_with(15, 3, true, 50);
    static const size_t shards[] = {16, 17, 256, (size_t)1 << 32, SIZE_MAX};
    for (size_t i = 0; i < sizeof shards / sizeof *shards; i++) {
        CHECK(tell_one(&t, call, shards[i], 40, 1, &told) == LOCKER_SHARD_TOO_LARGE);
        CHECK(tell_one(&t, call, shards[i], 0, 0, &told) == LOCKER_SHARD_TOO_LARGE);
    }
    for (size_t which = 0; which < UNSOUND; which++) {
        for (size_t shard = 0; shard < LOCKER_SHARDS; shard += 15) {
            t = unsound(which, shard);
            CHECK(tell_one(&t, call, shard, t.slots[shard].number, 1, &told) == LOCKER_NOT_SOUND);
            CHECK(tell_one(&t, call, shard, 0, 1, &told) == LOCKER_NOT_SOUND);
            CHECK(tell_one(&t, call, 16, 40, 1, &told) == LOCKER_NOT_SOUND);
        }
    }
}

static void try_complete(void) {
    begin("locker_tracker_complete");
    try_finish(COMPLETE);
}

static void try_abandon(void) {
    begin("locker_tracker_abandon");
    try_finish(ABANDON);
}

/* With 9 as the active ordinal and 160 as its used count, the checkpoint tells these. */
static bool progress_is(const struct locker_tracker *t, uint64_t ordinal, uint64_t offset, int64_t sum, uint64_t limit,
                        uint64_t pending) {
    struct locker_progress told;
    return checkpoint(t, 9, 160, &told) == LOCKER_ACCEPTED && told.ordinal == ordinal && told.offset == offset &&
           told.sum == sum && told.limit == limit && told.pending == pending;
}

static void try_checkpoint(void) {
    begin("locker_tracker_checkpoint");
    struct locker_progress told;
    struct locker_tracker t = tracker_from(1);
    CHECK(progress_is(&t, 9, 160, 0, LOCKER_NO_LIMIT, 0));
    CHECK(checkpoint(&t, UINT64_MAX, UINT64_MAX, &told) == LOCKER_ACCEPTED);
    CHECK(told.ordinal == UINT64_MAX && told.offset == UINT64_MAX);
    /* pending: a slot alone, a queue alone, even one of a 0 */
    for (size_t shard = 0; shard < LOCKER_SHARDS; shard++) {
        t = tracker_from(50);
        open_slot(&t, shard, 49, 10, 176);
        CHECK(progress_is(&t, 10, 176, 0, 49, 1));
        t = tracker_from(50);
        wait_on(&t, shard, 49, 0);
        CHECK(progress_is(&t, 9, 160, 0, LOCKER_NO_LIMIT, 1));
        t.deltas[shard * LOCKER_WAITING] = -128;
        CHECK(progress_is(&t, 9, 160, -128, LOCKER_NO_LIMIT, 1));
    }
    /* the cursor: ordinals first, then offsets; the limit goes by numbers alone */
    t = tracker_from(50);
    open_slot(&t, 2, 10, 5, 16);
    open_slot(&t, 3, 20, 4, 96);
    open_slot(&t, 4, 30, 4, 80);
    open_slot(&t, 5, 40, 5, 0);
    t.slots[6] = (struct locker_slot){0, 0, 0};
    CHECK(progress_is(&t, 4, 80, 0, 10, 1));
    /* every number below the limit counts, and no other */
    wait_on(&t, 0, 3, 4);
    wait_on(&t, 0, 9, 1);
    wait_on(&t, 0, 10, 2);
    wait_on(&t, 15, 0, 8);
    wait_on(&t, 15, 9, 16);
    wait_on(&t, 15, 11, 32);
    CHECK(progress_is(&t, 4, 80, 29, 10, 1));
    /* document 01: shard 0 reserves 1, shard 1 reserves 2, shard 0 records 3, then completes 1 with delta 1; by document
     * 02's request 6 the delta of number 1 counts */
    uint64_t number;
    struct locker_reserved reserved;
    t = tracker_from(1);
    CHECK(accepted_space(&t, (struct space){0, 1, 0, 64, false, 16}));
    t = lent.t;
    CHECK(reserve(&t, (struct space){1, 1, 16, 64, false, 16}, &reserved) == LOCKER_ACCEPTED && reserved.number == 2);
    t = lent.t;
    CHECK(tell_one(&t, RECORD, 0, 0, 7, &number) == LOCKER_ACCEPTED && number == 3);
    t = lent.t;
    CHECK(tell_one(&t, COMPLETE, 0, 1, 1, &number) == LOCKER_ACCEPTED && number == 1);
    t = lent.t;
    CHECK(progress_is(&t, 1, 16, 1, 2, 1));
    /* the least and the greatest sum */
    for (int extreme = 0; extreme < 2; extreme++) {
        t = tracker_from(UINT64_MAX);
        for (size_t i = 0; i < LOCKER_SHARDS * LOCKER_WAITING; i++)
            wait_on(&t, i / LOCKER_WAITING, UINT64_MAX - 1, extreme ? 127 : -128);
        CHECK(progress_is(&t, 9, 160, extreme ? 65024 : -65536, LOCKER_NO_LIMIT, 1));
    }
    for (size_t which = 0; which < UNSOUND; which++) {
        for (size_t shard = 0; shard < LOCKER_SHARDS; shard += 15) {
            t = unsound(which, shard);
            CHECK(checkpoint(&t, 9, 160, &told) == LOCKER_NOT_SOUND);
        }
    }
    for (size_t which = 0; which < SOUND; which++) {
        t = sound(which, 15);
        CHECK(checkpoint(&t, 9, 160, &told) == LOCKER_ACCEPTED);
    }
}

static void try_drain(void) {
    begin("locker_tracker_drain");
    int64_t sum;
    struct locker_tracker t = tracker_from(1);
    CHECK(drain(&t, UINT64_MAX, &sum) == LOCKER_ACCEPTED && sum == 0);
    CHECK(same_state(&lent.t, &t));
    /* every limit on every length: what is below it goes, the rest moves up, the slots stay */
    for (size_t count = 0; count <= 32; count++) {
        for (uint64_t limit = 0; limit <= 34; limit++) {
            for (size_t shard = 0; shard < LOCKER_SHARDS; shard += 5) {
                t = tracker_with(shard, count, count < 32, 50);
                struct locker_tracker wanted = tracker_with(shard, 0, count < 32, 50);
                int64_t gone = 0;
                for (size_t i = 0; i < count; i++) {
                    if (i + 1 < limit)
                        gone += (int64_t)i + 1;
                    else
                        wait_on(&wanted, shard, i + 1, (int8_t)(i + 1));
                }
                CHECK(drain(&t, limit, &sum) == LOCKER_ACCEPTED && sum == gone);
                CHECK(same_state(&lent.t, &wanted));
                CHECK(locker_tracker_is_sound(&lent.t));
            }
        }
    }
    /* it takes what a checkpoint's sum does */
    t = tracker_from(50);
    wait_on(&t, 0, 3, 4);
    wait_on(&t, 0, 9, 1);
    wait_on(&t, 0, 10, 2);
    wait_on(&t, 7, 9, -8);
    struct locker_tracker wanted = tracker_from(50);
    wait_on(&wanted, 0, 10, 2);
    CHECK(drain(&t, 10, &sum) == LOCKER_ACCEPTED && sum == -3);
    CHECK(same_state(&lent.t, &wanted));
    /* drained places are used again */
    t = tracker_with(15, 32, false, 50);
    CHECK(drain(&t, 2, &sum) == LOCKER_ACCEPTED && sum == 1);
    t = lent.t;
    CHECK(accepted_record(&t, 15, 3));
    /* the least and the greatest sum; 2^64 - 1 is above every number */
    for (int extreme = 0; extreme < 2; extreme++) {
        t = tracker_from(UINT64_MAX);
        for (size_t i = 0; i < LOCKER_SHARDS * LOCKER_WAITING; i++)
            wait_on(&t, i / LOCKER_WAITING, UINT64_MAX - 1, extreme ? 127 : -128);
        CHECK(drain(&t, UINT64_MAX - 1, &sum) == LOCKER_ACCEPTED && sum == 0);
        CHECK(same_state(&lent.t, &t));
        CHECK(drain(&t, LOCKER_NO_LIMIT, &sum) == LOCKER_ACCEPTED && sum == (extreme ? 65024 : -65536));
        wanted = tracker_from(UINT64_MAX);
        CHECK(same_state(&lent.t, &wanted));
    }
    for (size_t which = 0; which < UNSOUND; which++) {
        for (size_t shard = 0; shard < LOCKER_SHARDS; shard += 15) {
            t = unsound(which, shard);
            CHECK(drain(&t, 0, &sum) == LOCKER_NOT_SOUND);
            CHECK(drain(&t, UINT64_MAX, &sum) == LOCKER_NOT_SOUND);
        }
    }
}

static void try_clear(void) {
    begin("locker_tracker_clear");
    for (size_t shard = 0; shard < LOCKER_SHARDS; shard++) {
        for (size_t which = 0; which < SOUND; which++) {
            struct locker_tracker t = sound(which, shard), wanted = tracker_from(t.next);
            CHECK(clear(&t) == LOCKER_ACCEPTED);
            CHECK(same_state(&lent.t, &wanted));
            CHECK(locker_tracker_is_sound(&lent.t));
        }
        for (size_t which = 0; which < UNSOUND; which++) {
            struct locker_tracker t = unsound(which, shard);
            CHECK(clear(&t) == LOCKER_NOT_SOUND);
        }
    }
    struct locker_tracker t = tracker_from(UINT64_MAX), wanted = tracker_from(UINT64_MAX);
    for (size_t shard = 0; shard < LOCKER_SHARDS; shard++) {
        open_slot(&t, shard, shard + 1, 5, 16);
        for (size_t i = 0; i < 31; i++) wait_on(&t, shard, i, -1);
    }
    CHECK(clear(&t) == LOCKER_ACCEPTED);
    CHECK(same_state(&lent.t, &wanted));
}

static void try_slot_abandon(void) {
    begin("locker_slot_abandon");
    static const uint64_t numbers[] = {0, 1, 2, UINT64_C(1) << 32, UINT64_C(1) << 63, UINT64_MAX - 1, UINT64_MAX};
    const size_t count = sizeof numbers / sizeof *numbers;
    for (size_t i = 0; i < count; i++) {
        for (size_t j = 0; j < count; j++) {
            struct locker_slot slots[3] = {{9, 9, 9}, {numbers[i], 5, UINT64_MAX}, {9, 9, 9}}, wanted[3];
            uint64_t out[2] = {UNTOUCHED, UNTOUCHED};
            bool has_it = i == j && numbers[j] != 0;
            memcpy(wanted, slots, sizeof slots);
            if (has_it) wanted[1].number = 0;
            CHECK(locker_slot_abandon(&slots[1], numbers[j], &out[0]) == LOCKER_ACCEPTED);
            CHECK(out[0] == (has_it ? 1 : 0) && out[1] == UNTOUCHED);
            CHECK(memcmp(slots, wanted, sizeof slots) == 0);
        }
    }
}

/* The cursor and the limit, as a checkpoint tells them, along any run of slots. */
static bool least_is(const struct locker_slot *slots, size_t count, bool any, uint64_t ordinal, uint64_t offset,
                     uint64_t limit) {
    struct locker_least out[2];
    memset(out, 0x5a, sizeof out);
    struct locker_least behind = out[1];
    if (locker_least_along(slots, count, 9, 160, &out[0]) != LOCKER_ACCEPTED) return false;
    CHECK(memcmp(&out[1], &behind, sizeof behind) == 0);
    return out[0].any == any && out[0].ordinal == ordinal && out[0].offset == offset && out[0].limit == limit;
}

static void try_least_along(void) {
    begin("locker_least_along");
    static const struct locker_slot run[] = {{0, 0, 0}, {30, 5, 16}, {20, 4, 96}, {40, 4, 80}, {10, 5, 0}, {0, 1, 1}};
    struct locker_slot slots[1000];
    const size_t count = sizeof run / sizeof *run;
    memcpy(slots, run, sizeof run);
    CHECK(least_is(slots, 0, false, 9, 160, LOCKER_NO_LIMIT));
    CHECK(least_is(slots, 1, false, 9, 160, LOCKER_NO_LIMIT));
    CHECK(least_is(slots, 2, true, 5, 16, 30));
    CHECK(least_is(slots, 3, true, 4, 96, 20));
    CHECK(least_is(slots, 4, true, 4, 80, 20));
    CHECK(least_is(slots, 5, true, 4, 80, 10));
    CHECK(least_is(slots, 6, true, 4, 80, 10));
    CHECK(least_is(slots + 4, 2, true, 5, 0, 10));
    CHECK(memcmp(slots, run, sizeof run) == 0);
    /* places and numbers at the top: open, though the place is no less than the one that is passed */
    struct locker_slot top = {UINT64_MAX, UINT64_MAX, UINT64_MAX};
    CHECK(least_is(&top, 1, true, UINT64_MAX, UINT64_MAX, UINT64_MAX));
    /* a run that is longer than a tracker's, its one open slot at each place */
    memset(slots, 0, sizeof slots);
    for (size_t i = 0; i < sizeof slots / sizeof *slots; i++) {
        slots[i] = (struct locker_slot){i + 1, 3, i};
        CHECK(least_is(slots, 1000, true, 3, i, i + 1));
        CHECK(least_is(slots, i, false, 9, 160, LOCKER_NO_LIMIT));
        slots[i].number = 0;
    }
    /* along a tracker's slots it is the checkpoint */
    struct locker_tracker t = tracker_from(50);
    struct locker_progress told;
    memcpy(t.slots + 3, run, sizeof run);
    CHECK(checkpoint(&t, 9, 160, &told) == LOCKER_ACCEPTED);
    CHECK(least_is(t.slots, LOCKER_SHARDS, true, told.ordinal, told.offset, told.limit));
    memset(t.slots + 3, 0, count * sizeof *run);
    CHECK(checkpoint(&t, 9, 160, &told) == LOCKER_ACCEPTED);
    CHECK(least_is(t.slots, LOCKER_SHARDS, false, told.ordinal, told.offset, told.limit));
}

int main(void) {
    big = mmap(NULL, largest + 1, PROT_READ | PROT_WRITE, MAP_PRIVATE | MAP_ANONYMOUS | MAP_NORESERVE, -1, 0);
    if (big == MAP_FAILED) {
        perror("limits: a region of 268,435,457 bytes");
        return 2;
    }
    for (size_t i = 0; i < sizeof key; i++) key[i] = (uint8_t)(i * 7 + 1);
    for (size_t i = 0; i < sizeof value; i++) value[i] = (uint8_t)(i * 11 + 5);
    try_hash();
    try_update();
    try_read_header();
    try_write_header();
    try_read_at();
    try_append_data();
    try_append_tombstone();
    try_walk();
    try_part();
    try_used_bound();
    try_durable_end();
    try_count_entries();
    try_replay_data();
    try_replay_tombstone();
    try_start_file();
    try_fresh();
    try_is_sound();
    try_reserve();
    try_record();
    try_complete();
    try_abandon();
    try_checkpoint();
    try_drain();
    try_clear();
    try_slot_abandon();
    try_least_along();
    end_function();
    if (failures > MOST_TOLD) fprintf(stderr, "limits: %lu more checks failed\n", failures - MOST_TOLD);
    printf("limits: %lu functions, %lu checks, %lu failed\n", functions, all_checks, failures);
    return failures == 0 ? 0 : 1;
}
