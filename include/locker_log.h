/*
 * The locker log: header, entries, walk, used bound, durable end and counts of one data file, the limits of replay and
 * its start file, and the tracker of reservations and waiting deltas, proved in Rattle and built as
 * target/native/liblocker.a by `tools/native locker`.
 *
 * Every function that can refuse answers a number: 0 for accepted, else the number of document 01's table (LOCKER_...
 * below). Any bytes and any numbers may be passed, and a tracker of any cells. "Refuses 3, 5" gives a function's
 * refusals in the order in which they are tested. A refusal changes no lent byte, no cell of a tracker and no out
 * parameter, but for what goes with LOCKER_UNKNOWN_TYPE: the place, and with a durable end the effort too.
 *
 * Who owns what: the caller owns every buffer, every tracker and every out parameter, and the library keeps no pointer
 * after it returns, allocates nothing and has no state. A pointer with a length covers that many bytes (or ordinals,
 * or slots) and isn't null, even where the length is 0; a pointer without one isn't null and has its type's alignment.
 * No two parameters of one call may overlap where one of them is written to. Nothing here locks: whoever shares a
 * tracker or a region between threads sees to it that one call at a time works on it.
 *
 * The library calls memcpy and memset and nothing else. A call on a tracker works on copies of it: built for Arm it
 * takes up to 16 KiB of stack. The durable end has 4 KiB for the checksums of a hostile card and takes less than 5 KiB;
 * counting entries has that too, fills grids of its own first and takes less than 6 KiB. Any other call takes less than
 * 2 KiB.
 *
 * A region is a data file without its first 4,096 bytes. All places count from the region's first byte.
 *
 * Every call that needs a mark takes the file's version and ordinal, as locker_read_header tells them, and refuses a
 * version that is neither 1 nor 2 with 2, before all else; the header's reader and writer refuse it after 1. In a
 * version 1 file a line's mark depends on its place alone, and the ordinal that is passed has no effect.
 *
 * Version 2 is for cards that are used again. There the ordinal is added to the mark, so an entry left from an earlier
 * use, under another ordinal, has a wrong mark at its place and doesn't verify. Ordinals that agree modulo 2^24 share
 * their marks, and those that are 0 modulo 2^24 have version 1's. A line of 0xff is of type 3 where the mark is
 * 0xFFFFFF: in a version 1 file at offset 173,966,320 alone, in a version 2 file at one that its ordinal gives.
 * Under an ordinal that is 0xA5E83F modulo 2^24 that is offset 0: on a region erased to 0xff a boot answers 10 there.
 *
 * The two examples below are compiled and run: bindings/c/examples.c has them line by line.
 *
 * A boot, whole:
 *
 *     uint64_t version, ordinal, bound, end, place, found, at = 0;
 *     struct locker_entry entry;
 *     struct locker_effort effort;
 *     if (locker_read_header(file, file_length, &version, &ordinal) != 0)
 *         return refuse_card();
 *     const uint8_t *region = file + LOCKER_HEADER_LENGTH;
 *     size_t length = file_length - LOCKER_HEADER_LENGTH;
 *     if (locker_used_bound(region, length, &bound) != 0)
 *         return refuse_card();
 *     while (locker_walk(region, length, version, ordinal, bound, at, &entry, &found, &place) == 0 && found) {
 *         use(entry.ns, region + entry.kplace, entry.klen, region + entry.vplace, entry.vlen);
 *         at = entry.end;
 *     }
 *     if (locker_durable_end(region, length, version, ordinal, bound, &end, &place, &effort) != 0)
 *         return refuse_card();
 *     note_effort(effort.lines, effort.bytes);
 *     continue_writing_at(end);
 *
 * A reservation's life: shard 3 reserves a line of the active file, writes its entry there and completes, which leaves
 * one entry more to be counted; then what every shard has finished is counted and kept:
 *
 *     struct locker_tracker tracker;
 *     struct locker_reserved reserved;
 *     struct locker_progress progress;
 *     uint64_t next, done;
 *     int64_t sum;
 *     locker_tracker_fresh(&tracker);
 *     if (locker_tracker_reserve(&tracker, 3, ordinal, used, length, false, LOCKER_LINE, &reserved) != 0)
 *         return turn_to_the_next_file();
 *     used = reserved.used;
 *     if (locker_append_data(region, length, version, ordinal, reserved.place, LOCKER_INSERT, 1, key, 2, value, 1,
 *                            &next) != 0)
 *         locker_tracker_abandon(&tracker, 3, reserved.number, &done);
 *     else
 *         locker_tracker_complete(&tracker, 3, reserved.number, 1, &done);
 *     if (locker_tracker_checkpoint(&tracker, ordinal, used, &progress) != 0)
 *         return refuse_tracker();
 *     if (locker_tracker_drain(&tracker, progress.limit, &sum) != 0)
 *         return refuse_tracker();
 *     keep(progress.ordinal, progress.offset, sum);
 */
#ifndef LOCKER_LOG_H
#define LOCKER_LOG_H

#include <stdbool.h>
#include <stddef.h>
#include <stdint.h>

#ifdef __cplusplus
extern "C" {
#endif

/* Document 01's answer numbers. */
enum {
    LOCKER_ACCEPTED = 0,
    LOCKER_HEADER_TOO_SHORT = 1,    /* header shorter than 4,096 */
    LOCKER_WRONG_HEADER = 2,        /* wrong signature or version */
    LOCKER_REGION_TOO_LARGE = 3,    /* region or configured maximum over 268,435,456 */
    LOCKER_BOUND_PAST_REGION = 4,   /* bound over the region's length */
    LOCKER_NOT_ON_LINE = 5,         /* place, used count or length not a multiple of 16, or reserved length 0 */
    LOCKER_ENTRY_TOO_SHORT = 6,     /* entry too short */
    LOCKER_WRONG_MARK = 7,          /* wrong mark */
    LOCKER_WRONG_CHECKSUM = 8,      /* wrong checksum */
    LOCKER_TYPE_NOT_ALLOWED = 9,    /* type not allowed here */
    LOCKER_UNKNOWN_TYPE = 10,       /* walk meets type 3 */
    LOCKER_KEY_TOO_LONG = 11,       /* key over 4,096 bytes */
    LOCKER_VALUE_TOO_LONG = 12,     /* value over 32,768 bytes */
    LOCKER_NO_SPACE = 13,           /* sealed, or used count + length over capacity */
    LOCKER_SHARD_TOO_LARGE = 14,    /* shard over 15 */
    LOCKER_NO_WAITING_ROOM = 15,    /* no waiting room */
    LOCKER_NUMBERS_USED_UP = 16,    /* next number is 2^64 - 1 */
    LOCKER_NAMESPACE_TOO_LARGE = 17, /* namespace over 63 */
    LOCKER_TOO_MANY_ORDINALS = 18,  /* more than 64 ordinals */
    LOCKER_EQUAL_ORDINALS = 22,     /* two equal ordinals */
    LOCKER_NOT_SOUND = 28           /* tracker value not sound */
};

/* A data file's version, which decides the marks of all its lines. */
enum { LOCKER_VERSION_1 = 1, LOCKER_VERSION_2 = 2 };

enum {
    LOCKER_HEADER_LENGTH = 4096,
    LOCKER_LINE = 16,
    LOCKER_LARGEST_REGION = 268435456,
    LOCKER_LARGEST_KEY = 4096,
    LOCKER_LARGEST_VALUE = 32768,
    LOCKER_LAST_NAMESPACE = 63,
    LOCKER_MOST_ORDINALS = 64, /* in the list from which replay's start file is chosen */
    LOCKER_SHARDS = 16,        /* of a tracker, from 0 to 15 */
    LOCKER_WAITING = 32        /* deltas that one shard has room for */
};

/* The limit that a checkpoint tells where no slot is open. Every waiting number of a sound tracker is below it. */
#define LOCKER_NO_LIMIT UINT64_MAX

enum { LOCKER_INSERT = 0, LOCKER_UPDATE = 1, LOCKER_TOMBSTONE = 2 };

/* How many types there are, and how many namespaces: the rows and the columns of a grid of counts. */
enum { LOCKER_KINDS = 3, LOCKER_NAMESPACES = 64 };

/* Where an entry stands: its line, its type, its namespace, the lengths and places of key and value, and one past its
 * checksum, not rounded up. */
struct locker_entry {
    uint64_t offset;
    uint64_t kind;
    uint64_t ns;
    uint64_t klen;
    uint64_t vlen;
    uint64_t vplace;
    uint64_t kplace;
    uint64_t end;
};

/* What a durable end took: how many lines it tried, and how many bytes it checksummed. It tries a line by comparing its
 * mark: each line that it comes to below the bound, with at least eight bytes left in the region; the lines that a
 * verified entry covers it passes over. A tried line with the right mark, type 0, 1 or 2 and its whole entry within the
 * region adds the entry's length less 2, whether its checksum agrees or not; any other line adds nothing.
 *
 * Whatever the bytes are, the lines are at most the bound divided by 16, rounded up, and the bytes at most 131,078 for
 * each line tried. Both come with 0, and with LOCKER_UNKNOWN_TYPE up to and including the line that is refused. */
struct locker_effort {
    uint64_t lines;
    uint64_t bytes;
};

/* How many entries of each type stand in each namespace: entries[kind][ns] is the number of those whose type is `kind`,
 * from LOCKER_INSERT to LOCKER_TOMBSTONE, and whose namespace is `ns`, from 0 to LOCKER_LAST_NAMESPACE. Every entry
 * has a line of its own, so all cells together are at most 16,777,216. */
struct locker_counts {
    uint32_t entries[LOCKER_KINDS][LOCKER_NAMESPACES];
};

/* A reservation's number, and the place that it holds: the file's ordinal and the offset. Number 0 is an idle slot,
 * whose ordinal and offset say nothing. */
struct locker_slot {
    uint64_t number;
    uint64_t ordinal;
    uint64_t offset;
};

/* A slot for each shard, and its waiting deltas: shard s waits at the places from 32 * s on of `numbers` and `deltas`,
 * as many as lengths[s] says, in the order of their numbers. What lies past a queue's length is no state: no answer
 * depends on it, and a call may leave anything there. `next` is the number that is given next.
 *
 * A tracker is sound if each length is at most 32, and at most 31 beside an open slot, `next` is at least 1, every open
 * or waiting number is below `next`, and the numbers of each queue ascend, of which some may be equal.
 * locker_tracker_fresh makes a sound one, and every call on a sound one leaves it sound; on any other, as a damaged copy
 * may be, each call gives 28. The cells are the caller's to look at, to keep and to set. */
struct locker_tracker {
    struct locker_slot slots[LOCKER_SHARDS];
    uint64_t numbers[LOCKER_SHARDS * LOCKER_WAITING];
    int8_t deltas[LOCKER_SHARDS * LOCKER_WAITING];
    uint64_t lengths[LOCKER_SHARDS];
    uint64_t next;
};

/* What an accepted reserve tells: the reservation's number, its place, and the used count afterwards. */
struct locker_reserved {
    uint64_t number;
    uint64_t place;
    uint64_t used;
};

/* What an accepted checkpoint tells: the cursor (ordinal and offset) up to which everything is finished, the sum of the
 * deltas below the limit, the limit, and in `pending` 1 where a slot is open or a delta waits, else 0. */
struct locker_progress {
    uint64_t ordinal;
    uint64_t offset;
    int64_t sum;
    uint64_t limit;
    uint64_t pending;
};

/* What a search along slots tells: whether one is open, the least place (ordinal and offset) and the least open
 * number. */
struct locker_least {
    bool any;
    uint64_t ordinal;
    uint64_t offset;
    uint64_t limit;
};

/* ---- checksum: CRC-16/IBM-3740 */

/* The checksum of the bytes. */
uint16_t locker_hash(const uint8_t *bytes, size_t length);

/* The checksum's register after more bytes, from any register: locker_update(locker_hash(a), b) is the checksum of a
 * and b in one. */
uint16_t locker_update(uint16_t state, const uint8_t *bytes, size_t length);

/* ---- header */

/* The version, 1 or 2, and the ordinal of the file that begins with these bytes. Refuses 1, 2. */
uint32_t locker_read_header(const uint8_t *header, size_t length, uint64_t *version, uint64_t *ordinal);

/* Fills the first 4,096 bytes and touches no more. Refuses 1, 2 (neither version). */
uint32_t locker_write_header(uint8_t *lent, size_t length, uint64_t version, uint64_t ordinal);

/* ---- entries */

/* The data entry at p, of which at most `hint` bytes are looked at. Its kind is the one that was written, insert or
 * update, as locker_walk tells it. Refuses 2, 3, 5, then 6, 7, 6, 8, 9. */
uint32_t locker_read_at(const uint8_t *region, size_t length, uint64_t version, uint64_t ordinal, size_t p, size_t hint,
                        struct locker_entry *entry);

/* Writes a data entry (kind 0 or 1) at the used count, fills up to the next line with 0xff and tells the new used
 * count; the region's length is its capacity. Refuses 2, 3, 5, 9, 17, 11, 12, 13. */
uint32_t locker_append_data(uint8_t *region, size_t length, uint64_t version, uint64_t ordinal, size_t used,
                            uint64_t kind, uint64_t ns, const uint8_t *key, size_t klen, const uint8_t *value,
                            size_t vlen, uint64_t *next);

/* The same for a tombstone. Refuses 2, 3, 5, 17, 11, 13. */
uint32_t locker_append_tombstone(uint8_t *region, size_t length, uint64_t version, uint64_t ordinal, size_t used,
                                 uint64_t ns, const uint8_t *key, size_t klen, uint64_t *next);

/* ---- walk and tail */

/* The next verified entry from `offset` on, up to `bound`: *found is 1 and *entry tells it; or *found is 0 at the end,
 * and *entry stays. Refuses 2, 3, 4, then 10 with its *place. */
uint32_t locker_walk(const uint8_t *region, size_t length, uint64_t version, uint64_t ordinal, size_t bound,
                     size_t offset, struct locker_entry *entry, uint64_t *found, uint64_t *place);

/* Where `len` bytes from `at` on begin in the region and how many they are: `at` and `len`, or 0 and 0 where they run
 * past its end. With an entry's kplace and klen they are its key, with its vplace and vlen its value. */
void locker_part(const uint8_t *region, size_t length, size_t at, size_t len, uint64_t *start, uint64_t *count);

/* One past the last nonzero byte, rounded up to a line, but at most the length. Refuses 3. */
uint32_t locker_used_bound(const uint8_t *region, size_t length, uint64_t *bound);

/* The last verified entry's end rounded up to a line, or 0, and in *effort what it took. Refuses 2, 3, 4, then 10 with
 * its *place and with *effort. */
uint32_t locker_durable_end(const uint8_t *region, size_t length, uint64_t version, uint64_t ordinal, size_t bound,
                            uint64_t *end, uint64_t *place, struct locker_effort *effort);

/* Counts the entries that locker_walk lists from 0 to the used bound, each in the cell of its type and its namespace:
 * *counts tells them all, and whatever it held before is written over. With a refusal it stays as it was. Refuses 2, 3,
 * then 10 with its *place. */
uint32_t locker_count_entries(const uint8_t *region, size_t length, uint64_t version, uint64_t ordinal,
                              struct locker_counts *counts, uint64_t *place);

/* ---- replay */

/* Whether a recovered data entry of these lengths is accepted for replay under a configured maximum region size.
 * Refuses 3, 11, 12, 13. */
uint32_t locker_replay_data(size_t klen, size_t vlen, size_t maximum);

/* The same for a tombstone. Refuses 3, 11, 13. */
uint32_t locker_replay_tombstone(size_t klen, size_t maximum);

/* The file at which replay begins, by its place in the list as given: the one with the smallest ordinal at or above the
 * cursor's, else the one with the largest. The list may stand in any order. *found is 1 and *place tells the file; or
 * *found is 0 for an empty list, and *place stays. Refuses 18, 22. */
uint32_t locker_start_file(const uint64_t *ordinals, size_t count, uint64_t cursor, uint64_t *place, uint64_t *found);

/* ---- tracker
 *
 * Each call works on the tracker in place, and changes it only where it answers 0. What holds a reservation is its
 * shard and its number: whoever reserves keeps both, and passes them to complete or to abandon. */

/* Makes the tracker fresh, whatever its cells hold: every slot idle, nothing waiting, and 1 as its next number. Refuses
 * nothing and answers 0. */
uint32_t locker_tracker_fresh(struct locker_tracker *t);

/* Whether the tracker is sound. */
bool locker_tracker_is_sound(const struct locker_tracker *t);

/* Reserves `length` bytes for a shard at the used count of the active file, which `ordinal`, `used`, `capacity` and
 * `sealed` tell of: the next number is taken, the shard's slot is set to it, the ordinal and the used count, and
 * *reserved tells number, place and the used count afterwards. A reservation that was open on the shard is given up.
 * The library keeps no used count: the caller passes reserved->used the next time. Refuses 28, 14, 16, 15 (32 deltas
 * wait), 5 (used count or length), 3 (capacity), 13. */
uint32_t locker_tracker_reserve(struct locker_tracker *t, size_t shard, uint64_t ordinal, uint64_t used,
                                uint64_t capacity, bool sealed, uint64_t length, struct locker_reserved *reserved);

/* Takes the next number and has the delta wait under it on the shard, even a delta of 0; *number tells it. Refuses 28,
 * 14, 16, 15 (32 deltas wait, or 31 beside an open slot). */
uint32_t locker_tracker_record(struct locker_tracker *t, size_t shard, int8_t delta, uint64_t *number);

/* Finishes the reservation with that number. If the shard's slot has it and it isn't 0, the slot becomes idle, of
 * which only its number changes, a delta that isn't 0 waits in the shard's queue under that number, behind its equals
 * and before what is larger, and *done is 1. Otherwise the number is stale, no cell changes, and *done is 0. Refuses
 * 28, 14. */
uint32_t locker_tracker_complete(struct locker_tracker *t, size_t shard, uint64_t number, int8_t delta, uint64_t *done);

/* The same without a delta: nothing waits. Refuses 28, 14. */
uint32_t locker_tracker_abandon(struct locker_tracker *t, size_t shard, uint64_t number, uint64_t *done);

/* The cursor is the least (ordinal, offset) over the open slots, else the active ordinal and the used count that are
 * passed. The limit is the least open number, else LOCKER_NO_LIMIT. The sum adds every waiting delta whose number is
 * below the limit. Refuses 28. */
uint32_t locker_tracker_checkpoint(const struct locker_tracker *t, uint64_t ordinal, uint64_t used,
                                   struct locker_progress *progress);

/* Removes every waiting delta whose number is below the limit, and tells the removed deltas' *sum: with a checkpoint's
 * limit, the checkpoint's sum. Any limit may be passed. Refuses 28. */
uint32_t locker_tracker_drain(struct locker_tracker *t, uint64_t limit, int64_t *sum);

/* Zeroes every slot and empties every queue. The next number stays, so that earlier ones are stale. Refuses 28. */
uint32_t locker_tracker_clear(struct locker_tracker *t);

/* Of one slot on its own: if it has that number and the number isn't 0 it becomes idle, of which only its number
 * changes, and *done is 1; otherwise no cell changes, and *done is 0. Refuses nothing and answers 0. */
uint32_t locker_slot_abandon(struct locker_slot *slot, uint64_t number, uint64_t *done);

/* Cursor and limit, as a checkpoint has them, along a run of any number of slots: least->any is whether one is open.
 * Where none is, and for an empty run, the ordinal and the used count that are passed and LOCKER_NO_LIMIT. Refuses
 * nothing and answers 0. */
uint32_t locker_least_along(const struct locker_slot *slots, size_t count, uint64_t ordinal, uint64_t used,
                            struct locker_least *least);

#ifdef __cplusplus
}
#endif

/* The library's structs have these sizes and offsets; a compiler that lays one out in another way is told so. */
#if defined(__cplusplus) && __cplusplus >= 201103L
#define LOCKER_HOLDS(claim, words) static_assert(claim, words)
#elif defined(__STDC_VERSION__) && __STDC_VERSION__ >= 201112L
#define LOCKER_HOLDS(claim, words) _Static_assert(claim, words)
#else
#define LOCKER_HOLDS(claim, words) extern char locker_holds[(claim) ? 1 : -1]
#endif

LOCKER_HOLDS(sizeof(size_t) == 8, "the library is built for machines of 64 bits");
LOCKER_HOLDS(sizeof(bool) == 1, "a bool is a byte");

LOCKER_HOLDS(sizeof(struct locker_entry) == 64, "eight numbers of 64 bits");
LOCKER_HOLDS(offsetof(struct locker_entry, offset) == 0, "offset first");
LOCKER_HOLDS(offsetof(struct locker_entry, kind) == 8, "then the type");
LOCKER_HOLDS(offsetof(struct locker_entry, ns) == 16, "then the namespace");
LOCKER_HOLDS(offsetof(struct locker_entry, klen) == 24, "then the key's length");
LOCKER_HOLDS(offsetof(struct locker_entry, vlen) == 32, "then the value's length");
LOCKER_HOLDS(offsetof(struct locker_entry, vplace) == 40, "then the value's place");
LOCKER_HOLDS(offsetof(struct locker_entry, kplace) == 48, "then the key's place");
LOCKER_HOLDS(offsetof(struct locker_entry, end) == 56, "then the end");

LOCKER_HOLDS(sizeof(struct locker_effort) == 16, "two numbers of 64 bits");
LOCKER_HOLDS(offsetof(struct locker_effort, lines) == 0, "lines first");
LOCKER_HOLDS(offsetof(struct locker_effort, bytes) == 8, "then bytes");

LOCKER_HOLDS(sizeof(struct locker_counts) == 768, "three rows of 64 numbers of 32 bits");
LOCKER_HOLDS(offsetof(struct locker_counts, entries) == 0, "the rows and nothing else");

LOCKER_HOLDS(sizeof(struct locker_slot) == 24, "three numbers of 64 bits");
LOCKER_HOLDS(offsetof(struct locker_slot, number) == 0, "number first");
LOCKER_HOLDS(offsetof(struct locker_slot, ordinal) == 8, "then the ordinal");
LOCKER_HOLDS(offsetof(struct locker_slot, offset) == 16, "then the offset");

LOCKER_HOLDS(sizeof(struct locker_tracker) == 5128, "slots, 512 numbers, 512 deltas, 16 lengths, next");
LOCKER_HOLDS(offsetof(struct locker_tracker, slots) == 0, "slots first");
LOCKER_HOLDS(offsetof(struct locker_tracker, numbers) == 384, "then the waiting numbers");
LOCKER_HOLDS(offsetof(struct locker_tracker, deltas) == 4480, "then their deltas");
LOCKER_HOLDS(offsetof(struct locker_tracker, lengths) == 4992, "then the queues' lengths");
LOCKER_HOLDS(offsetof(struct locker_tracker, next) == 5120, "then the next number");

LOCKER_HOLDS(sizeof(struct locker_reserved) == 24, "three numbers of 64 bits");
LOCKER_HOLDS(offsetof(struct locker_reserved, number) == 0, "number first");
LOCKER_HOLDS(offsetof(struct locker_reserved, place) == 8, "then the place");
LOCKER_HOLDS(offsetof(struct locker_reserved, used) == 16, "then the used count");

LOCKER_HOLDS(sizeof(struct locker_progress) == 40, "five numbers of 64 bits");
LOCKER_HOLDS(offsetof(struct locker_progress, ordinal) == 0, "ordinal first");
LOCKER_HOLDS(offsetof(struct locker_progress, offset) == 8, "then the offset");
LOCKER_HOLDS(offsetof(struct locker_progress, sum) == 16, "then the sum");
LOCKER_HOLDS(offsetof(struct locker_progress, limit) == 24, "then the limit");
LOCKER_HOLDS(offsetof(struct locker_progress, pending) == 32, "then pending");

LOCKER_HOLDS(sizeof(struct locker_least) == 32, "a byte, seven of filling, three numbers of 64 bits");
LOCKER_HOLDS(offsetof(struct locker_least, any) == 0, "whether one is open first");
LOCKER_HOLDS(offsetof(struct locker_least, ordinal) == 8, "then the ordinal");
LOCKER_HOLDS(offsetof(struct locker_least, offset) == 16, "then the offset");
LOCKER_HOLDS(offsetof(struct locker_least, limit) == 24, "then the limit");

#undef LOCKER_HOLDS

#endif
