// Measures two builds of the library in turns: the checksum alone, durable end, count entries, reads at a place, appends,
// the start file, the tracker. bench/before builds and runs this, with the path of the earlier build, the form of its calls
// (`neither`, `versions`, `efforts` or `counts`), the path of today's build and the number of rounds. Prints a line for each
// case, and ends with status 1 if the two ever give different sums, ends, efforts, counts, entries, bytes, places or
// progress. A second table has count entries of today's build beside its own durable end.
#define _POSIX_C_SOURCE 199309L
#include <dlfcn.h>
#include <stdio.h>
#include <stdlib.h>
#include <string.h>
#include <time.h>

#include "locker_log.h"

enum { REGION = 268435456, HOSTILE = 65536, LARGER_HOSTILE = 1048576, LONGEST_RUN = 67108864, ROOM_FOR_APPENDS = 67108864 };
enum { MOST_SUMS = 5000000, MOST_APPENDS = 200000, STARTS = 20000, TRACKS = 20000 };

// What is called of a build. Calls go through these pointers, so the compiler can neither merge nor skip them. Those that
// need a mark have two forms: with the file's version and ordinal, and without, as before there were version 2 files. A
// durable end has a third, which tells its effort too. A build that doesn't count entries has no such call.
struct side {
    bool versions, efforts, counts;
    uint16_t (*hash)(const uint8_t *, size_t);
    union {
        uint32_t (*with)(uint8_t *, size_t, uint64_t, uint64_t, size_t, uint64_t, uint64_t, const uint8_t *, size_t, const uint8_t *, size_t,
                         uint64_t *);
        uint32_t (*without)(uint8_t *, size_t, size_t, uint64_t, uint64_t, const uint8_t *, size_t, const uint8_t *, size_t, uint64_t *);
    } append_data;
    union {
        uint32_t (*with)(uint8_t *, size_t, uint64_t, uint64_t, size_t, uint64_t, const uint8_t *, size_t, uint64_t *);
        uint32_t (*without)(uint8_t *, size_t, size_t, uint64_t, const uint8_t *, size_t, uint64_t *);
    } append_tombstone;
    union {
        uint32_t (*telling)(const uint8_t *, size_t, uint64_t, uint64_t, size_t, uint64_t *, uint64_t *, struct locker_effort *);
        uint32_t (*with)(const uint8_t *, size_t, uint64_t, uint64_t, size_t, uint64_t *, uint64_t *);
        uint32_t (*without)(const uint8_t *, size_t, size_t, uint64_t *, uint64_t *);
    } durable_end;
    uint32_t (*used_bound)(const uint8_t *, size_t, uint64_t *);
    uint32_t (*count_entries)(const uint8_t *, size_t, uint64_t, uint64_t, struct locker_counts *, uint64_t *);
    union {
        uint32_t (*with)(const uint8_t *, size_t, uint64_t, uint64_t, size_t, size_t, struct locker_entry *);
        uint32_t (*without)(const uint8_t *, size_t, size_t, size_t, struct locker_entry *);
    } read_at;
    uint32_t (*start_file)(const uint64_t *, size_t, uint64_t, uint64_t *, uint64_t *);
    uint32_t (*complete)(struct locker_tracker *, size_t, uint64_t, int8_t, uint64_t *);
    uint32_t (*checkpoint)(const struct locker_tracker *, uint64_t, uint64_t, struct locker_progress *);
};

enum { EARLIER, TODAY, SIDES };
static struct side sides[SIDES];
static int rounds;
static bool same = true;

static void fail(const char *what)
{
    fprintf(stderr, "before: %s\n", what);
    exit(1);
}

static void *found(void *library, const char *name)
{
    void *function = dlsym(library, name);
    if (!function)
        fail(dlerror());
    return function;
}

static struct side loaded(const char *path, const char *form)
{
    void *library = dlopen(path, RTLD_NOW | RTLD_LOCAL);
    if (!library)
        fail(dlerror());
    struct side side = {.counts = strcmp(form, "counts") == 0};
    side.efforts = side.counts || strcmp(form, "efforts") == 0;
    side.versions = side.efforts || strcmp(form, "versions") == 0;
    *(void **)&side.hash = found(library, "locker_hash");
    *(void **)&side.append_data = found(library, "locker_append_data");
    *(void **)&side.append_tombstone = found(library, "locker_append_tombstone");
    *(void **)&side.durable_end = found(library, "locker_durable_end");
    *(void **)&side.used_bound = found(library, "locker_used_bound");
    if (side.counts)
        *(void **)&side.count_entries = found(library, "locker_count_entries");
    *(void **)&side.read_at = found(library, "locker_read_at");
    *(void **)&side.start_file = found(library, "locker_start_file");
    *(void **)&side.complete = found(library, "locker_tracker_complete");
    *(void **)&side.checkpoint = found(library, "locker_tracker_checkpoint");
    return side;
}

static double now(void)
{
    struct timespec t;
    clock_gettime(CLOCK_MONOTONIC, &t);
    return (double)t.tv_sec + (double)t.tv_nsec / 1e9;
}

static void fill(uint8_t *bytes, size_t length)
{
    uint32_t seed = 1;
    for (size_t i = 0; i < length; i++) {
        seed = seed * 1664525 + 1013904223;
        bytes[i] = (uint8_t)(seed >> 24);
    }
}

// ---- a case: how much it is, how long each side took at best, and whether both answered alike

struct best {
    double seconds[SIDES];
    uint64_t answer[SIDES];
};

typedef uint64_t measured_fn(const struct side *side, const void *what);

// The call with that many bytes of stack passed over first. A short sum copies its tables to the stack, and how fast that
// is depends on where they come to lie: durable end at entries of 16 bytes takes up to a tenth longer at one place than at
// another, in the same build. So each round has another place, and the best of them counts for each side.
__attribute__((noinline)) static uint64_t deeper(size_t bytes, measured_fn *measured, const struct side *side, const void *what)
{
    volatile uint8_t passed[bytes];
    passed[0] = 0;
    uint64_t answer = measured(side, what);
    return answer + passed[0];
}

enum { STACK_STEP = 16, STACK_PLACES = 8 };

// A build that takes more seconds than this for a round has only one.
#define SLOW 3.0

// What takes turns: two builds at one call, or one build at two.
struct turn {
    const struct side *side;
    measured_fn *measured;
};

static struct best in_turns_of(const struct turn turns[SIDES], const void *what)
{
    struct best best = {{1e9, 1e9}, {0, 0}};
    for (int round = 0; round < rounds; round++)
        for (int i = 0; i < SIDES; i++) {
            if (round > 0 && best.seconds[i] > SLOW)
                continue;
            const size_t passed = STACK_STEP * (size_t)(1 + round % STACK_PLACES);
            double began = now();
            best.answer[i] = deeper(passed, turns[i].measured, turns[i].side, what);
            double took = now() - began;
            if (took < best.seconds[i])
                best.seconds[i] = took;
        }
    return best;
}

static struct best in_turns(measured_fn *measured, const void *what)
{
    return in_turns_of((struct turn[SIDES]){{&sides[EARLIER], measured}, {&sides[TODAY], measured}}, what);
}

static void head(const char *first, const char *second)
{
    printf("%-14s %10s  %27s  %27s  %7s  %s\n", "", "bytes", first, second, "faster", "answers");
}

static void report(const char *name, size_t size, double bytes, double calls, struct best best)
{
    bool alike = best.answer[EARLIER] == best.answer[TODAY];
    same &= alike;
    printf("%-14s %10zu", name, size);
    for (int i = 0; i < SIDES; i++)
        printf("  %6.0f MB/s %13.1f ns", bytes / best.seconds[i] / 1e6, best.seconds[i] / calls * 1e9);
    printf("  %5.2f x  %s\n", best.seconds[EARLIER] / best.seconds[TODAY], alike ? "alike" : "DIFFER");
    fflush(stdout);
}

// ---- the checksum alone

struct run {
    const uint8_t *bytes;
    size_t length, calls;
};

static uint64_t sums(const struct side *side, const void *what)
{
    const struct run *run = what;
    uint64_t sum = 0;
    for (size_t i = 0; i < run->calls; i++)
        sum = sum * 31 + side->hash(run->bytes + i % 2, run->length);
    return sum;
}

static void measure_sums(const uint8_t *bytes, size_t length)
{
    struct run run = {bytes, length, MOST_SUMS};
    if (length > LONGEST_RUN / MOST_SUMS)
        run.calls = LONGEST_RUN / length;
    report("checksum", length, (double)length * (double)run.calls, (double)run.calls, in_turns(sums, &run));
}

// ---- entries: appended one after the other to a region, the region's durable end, its counts, and each entry read at its
// place

struct log {
    uint8_t *region;
    const uint8_t *bytes;
    uint64_t version, ordinal;
    size_t capacity, klen, vlen, size, count, end;
};

// Each build is called in its own form.

static uint32_t append_data(const struct side *side, const struct log *log, uint64_t *used, const uint8_t *key, const uint8_t *value)
{
    if (side->versions)
        return side->append_data.with(log->region, log->capacity, log->version, log->ordinal, *used, LOCKER_INSERT, 1, key, log->klen, value,
                                      log->vlen, used);
    return side->append_data.without(log->region, log->capacity, *used, LOCKER_INSERT, 1, key, log->klen, value, log->vlen, used);
}

static uint32_t append_tombstone(const struct side *side, const struct log *log, uint64_t *used, const uint8_t *key)
{
    if (side->versions)
        return side->append_tombstone.with(log->region, log->capacity, log->version, log->ordinal, *used, 1, key, log->klen, used);
    return side->append_tombstone.without(log->region, log->capacity, *used, 1, key, log->klen, used);
}

static uint32_t durable_end(const struct side *side, const struct log *log, size_t bound, uint64_t *end, uint64_t *place,
                            struct locker_effort *effort)
{
    if (side->efforts)
        return side->durable_end.telling(log->region, log->capacity, log->version, log->ordinal, bound, end, place, effort);
    if (side->versions)
        return side->durable_end.with(log->region, log->capacity, log->version, log->ordinal, bound, end, place);
    return side->durable_end.without(log->region, log->capacity, bound, end, place);
}

static uint32_t read_at(const struct side *side, const struct log *log, size_t p, struct locker_entry *entry)
{
    if (side->versions)
        return side->read_at.with(log->region, log->capacity, log->version, log->ordinal, p, SIZE_MAX, entry);
    return side->read_at.without(log->region, log->capacity, p, SIZE_MAX, entry);
}

// An entry of 16 bytes is a tombstone, any other data; neighbours have different keys and values.
static uint64_t appended(const struct side *side, const void *what)
{
    const struct log *log = what;
    uint64_t used = 0;
    for (size_t i = 0; i < log->count; i++) {
        const uint8_t *key = log->bytes + i % 4096, *value = key + 4096;
        if (log->vlen ? append_data(side, log, &used, key, value) : append_tombstone(side, log, &used, key))
            fail("an append was refused");
    }
    return used;
}

static struct locker_effort ended_at(const struct side *side, const struct log *log, size_t bound)
{
    uint64_t end = 0, place = 0;
    struct locker_effort effort = {0, 0};
    if (durable_end(side, log, bound, &end, &place, &effort))
        fail("a durable end was refused");
    if (end != log->end)
        fail("a durable end isn't the one that was meant");
    return effort;
}

// The end, and the effort where both sides tell it.
static uint64_t ended(const struct side *side, const void *what)
{
    const struct log *log = what;
    struct locker_effort effort = ended_at(side, log, log->size * log->count);
    return sides[EARLIER].efforts ? (log->end * 31 + effort.lines) * 31 + effort.bytes : log->end;
}

// The entries, of which all are in one cell: as many as there are up to the end.
static uint64_t counted(const struct side *side, const void *what)
{
    const struct log *log = what;
    struct locker_counts counts;
    uint64_t place = 0, all = 0;
    if (side->count_entries(log->region, log->capacity, log->version, log->ordinal, &counts, &place))
        fail("a count was refused");
    for (size_t kind = 0; kind < LOCKER_KINDS; kind++)
        for (size_t ns = 0; ns < LOCKER_NAMESPACES; ns++)
            all += counts.entries[kind][ns];
    if (all != log->end / log->size || all != counts.entries[log->vlen ? LOCKER_INSERT : LOCKER_TOMBSTONE][1])
        fail("the counts aren't those that were meant");
    return all;
}

// What a count takes without its counting: the used bound, and the durable end up to it, of so many entries.
static uint64_t ended_at_used_bound(const struct side *side, const void *what)
{
    const struct log *log = what;
    uint64_t bound = 0;
    if (side->used_bound(log->region, log->capacity, &bound))
        fail("a used bound was refused");
    ended_at(side, log, bound);
    return log->end / log->size;
}

// The entries are inserts, which every build tells as such.
static uint64_t read_all(const struct side *side, const void *what)
{
    const struct log *log = what;
    uint64_t told = 0;
    for (size_t i = 0; i < log->count; i++) {
        struct locker_entry entry;
        if (read_at(side, log, i * log->size, &entry))
            fail("a read was refused");
        told = told * 31 + entry.kind + entry.kplace + entry.end;
    }
    return told;
}

// A line of the second table, which is told when the first is whole.
struct line {
    const char *name;
    size_t size;
    double bytes, calls;
    struct best best;
};

static struct line beside[9];
static size_t lines;

// Count entries of both builds, where the earlier has it, and of today's beside its durable end.
static void measure_counts(const char *name, size_t size, double bytes, const struct log *log)
{
    const struct turn turns[SIDES] = {{&sides[TODAY], ended_at_used_bound}, {&sides[TODAY], counted}};
    if (sides[EARLIER].counts)
        report(name, size, bytes, (double)log->count, in_turns(counted, log));
    beside[lines++] = (struct line){name, size, bytes, (double)log->count, in_turns_of(turns, log)};
}

enum { DAMAGED = 4096 };

static void measure_entries(struct log log, size_t length)
{
    log.size = (length + 15) / 16 * 16;
    log.count = REGION / log.size;
    log.end = log.size * log.count;
    memset(log.region, 0, REGION);
    if (appended(&sides[TODAY], &log) != log.end)
        fail("the entries don't have the size that was meant");
    struct log other = log;
    // Under this ordinal version 2 has version 1's marks: the same bytes serve, and a build without versions ends alike.
    other.version = LOCKER_VERSION_2;
    other.ordinal = 1 << 24;
    report("durable end", length, (double)log.size * (double)log.count, (double)log.count, in_turns(ended, &log));
    report(".. version 2", length, (double)log.size * (double)log.count, (double)log.count, in_turns(ended, &other));
    measure_counts("count", length, (double)log.size * (double)log.count, &log);
    if (log.vlen)
        report("read", length, (double)log.size * (double)log.count, (double)log.count, in_turns(read_all, &log));
    if (length == DAMAGED) {
        // One byte of the middle entry's value: it is summed in vain, and every line within it is tried.
        log.region[log.count / 2 * log.size + 8 + log.vlen / 2] ^= 1;
        report("end, damaged", length, (double)log.size * (double)log.count, (double)log.count, in_turns(ended, &log));
    }
}

// Where the appends ended, with a sum over all bytes that they wrote: one checksum serves for both sides.
static uint64_t written(const struct side *side, const struct log *log)
{
    memset(log->region, 0, ROOM_FOR_APPENDS);
    uint64_t used = appended(side, log);
    return used * 65536 + sides[TODAY].hash(log->region, used);
}

static void measure_appends(struct log log, size_t length)
{
    log.size = (length + 15) / 16 * 16;
    log.count = ROOM_FOR_APPENDS / log.size < MOST_APPENDS ? ROOM_FOR_APPENDS / log.size : MOST_APPENDS;
    struct best best = in_turns(appended, &log);
    for (int i = 0; i < SIDES; i++)
        best.answer[i] = written(&sides[i], &log);
    report("append", length, (double)log.size * (double)log.count, (double)log.count, best);
}

// ---- regions without an entry, in which every line is tried

static void put_number(uint8_t *at, uint64_t number, int bytes)
{
    for (int i = 0; i < bytes; i++)
        at[i] = (uint8_t)(number >> 8 * i);
}

// Version 1's mark of a line.
static uint64_t mark(size_t p)
{
    return (p / 16 + 0x5A17C0) % 0x1000000;
}

static void measure_lines(const char *name, const char *counts, struct log log, size_t length, size_t bytes)
{
    log.capacity = length;
    log.size = LOCKER_LINE;
    log.count = length / LOCKER_LINE;
    log.end = 0;
    report(name, length, (double)bytes, (double)log.count, in_turns(ended, &log));
    measure_counts(counts, length, (double)bytes, &log);
}

// Of the zeros one line has its mark, which is 0, and seems to be an entry of 10 bytes with a wrong checksum.
static void measure_no_entry(struct log log)
{
    memset(log.region, 0, REGION);
    measure_lines("end, zeros", "count, zeros", log, REGION, REGION);
    fill(log.region, REGION);
    for (size_t p = 0; p < REGION; p += LOCKER_LINE)
        if (log.region[p] == mark(p) % 256)
            log.region[p] ^= 1;
    measure_lines("end, no mark", "count, no mark", log, REGION, REGION);
}

// The costliest region of its size: at each line an entry of a key alone that takes all the rest, and all of them share the
// last two bytes as their checksum, which is right for none of them. The bytes are those that are checksummed.
static void measure_hostile(struct log log)
{
    size_t bytes = 0;
    fill(log.region, HOSTILE);
    for (size_t p = 0; p < HOSTILE; p += LOCKER_LINE) {
        put_number(log.region + p, mark(p), 4);
        put_number(log.region + p + 4, HOSTILE - p - 10, 2);
        put_number(log.region + p + 6, 0, 2);
        bytes += HOSTILE - p - 2;
    }
    measure_lines("end, hostile", "count, hostile", log, HOSTILE, bytes);
}

// The product of two registers, modulo the checksum's polynomial.
static uint16_t times(uint16_t a, uint16_t b)
{
    unsigned product = 0;
    for (int bit = 15; bit >= 0; bit--)
        product = (product << 1 ^ (product >> 15) * 0x11021) ^ (a >> bit & 1) * b;
    return (uint16_t)product;
}

enum { LARGEST_LENGTH = 65535, MOST_SUMMED = 8 + 2 * LARGEST_LENGTH };

// Every mark of a region of LARGER_HOSTILE bytes is right, and each sum covers so many bytes, or where these are
// MOST_SUMMED as many as there are; no checksum agrees. What the bytes from a place on add to a register, divided by x^8 for
// each, is kept for every place: the checksum is linear, so no entry has to be summed up on its own, and a line whose
// checksum agrees gets other bytes behind its lengths. The bytes are those that are checksummed.
static void measure_larger_hostile(const char *name, const char *counts, struct log log, size_t most)
{
    static uint16_t behind[LARGER_HOSTILE + 1], powers[MOST_SUMMED + 1];
    uint16_t undo = 0x8810;
    size_t bytes = 0;
    for (int i = 1; i < 8; i++)
        undo = times(undo, 0x8810);
    powers[0] = 1;
    for (size_t i = 1; i <= MOST_SUMMED; i++)
        powers[i] = times(powers[i - 1], 1 << 8);
    fill(log.region, LARGER_HOSTILE);
    behind[LARGER_HOSTILE] = 0;
    for (size_t p = LARGER_HOSTILE; p > 0;) {
        p -= LOCKER_LINE;
        const size_t room = LARGER_HOSTILE - p - 2, wanted = most == MOST_SUMMED && room < most ? room : most;
        const size_t klen = most == MOST_SUMMED ? (wanted - 8) / 2 : 0, end = p + wanted;
        put_number(log.region + p, mark(p), 4);
        put_number(log.region + p + 4, klen, 2);
        put_number(log.region + p + 6, wanted - 8 - klen, 2);
        for (bool agrees = true; agrees;) {
            for (size_t at = p + LOCKER_LINE; at-- > p;)
                behind[at] = times(behind[at + 1], undo) ^ (uint16_t)(log.region[at] << 8);
            if (wanted > room)
                break;
            const uint16_t sum = times(behind[p] ^ 0xffff, powers[wanted]) ^ behind[end];
            agrees = sum == (log.region[end] | log.region[end + 1] << 8);
            log.region[p + LOCKER_LINE - 1] += agrees;
        }
        bytes += wanted > room ? 0 : wanted;
    }
    measure_lines(name, counts, log, LARGER_HOSTILE, bytes);
}

// ---- the start file, of an ascending list, where every build chooses the same, and with a cursor past its last ordinal

struct list {
    uint64_t ordinals[LOCKER_MOST_ORDINALS];
    size_t count;
};

static uint64_t started(const struct side *side, const void *what)
{
    const struct list *list = what;
    uint64_t told = 0;
    for (size_t i = 0; i < STARTS; i++) {
        uint64_t place = 0, any = 0;
        if (side->start_file(list->ordinals, list->count, LOCKER_MOST_ORDINALS, &place, &any))
            fail("a start file was refused");
        told = told * 31 + place + any;
    }
    return told;
}

static void measure_starts(size_t count)
{
    struct list list = {.count = count};
    for (size_t i = 0; i < count; i++)
        list.ordinals[i] = i;
    report("start file", 8 * count, 8.0 * (double)count * STARTS, STARTS, in_turns(started, &list));
}

// ---- the tracker, where as many deltas wait on each shard, numbers from 2 on. Each is a number of 8 bytes and a byte

enum { DELTA = 9, SHARD = 3, LAST = 1000 };

struct waiting {
    struct locker_tracker tracker;
    uint64_t number;
};

static uint64_t checkpoints(const struct side *side, const void *what)
{
    const struct waiting *waiting = what;
    uint64_t told = 0;
    for (size_t i = 0; i < TRACKS; i++) {
        struct locker_progress progress;
        if (side->checkpoint(&waiting->tracker, 7, i, &progress))
            fail("a checkpoint was refused");
        told = told * 31 + progress.offset + (uint64_t)progress.sum + progress.limit + progress.pending;
    }
    return told;
}

// The same reservation is completed again and again: its shard's cells are set back each time. Where the delta went isn't
// looked at, since builds differ in that.
static uint64_t completions(const struct side *side, const void *what)
{
    const struct waiting *waiting = what;
    const size_t base = SHARD * LOCKER_WAITING;
    struct locker_tracker t = waiting->tracker;
    uint64_t told = 0, done;
    for (size_t i = 0; i < TRACKS; i++) {
        memcpy(t.numbers + base, waiting->tracker.numbers + base, LOCKER_WAITING * sizeof *t.numbers);
        memcpy(t.deltas + base, waiting->tracker.deltas + base, LOCKER_WAITING);
        t.lengths[SHARD] = waiting->tracker.lengths[SHARD];
        t.slots[SHARD].number = waiting->number;
        if (side->complete(&t, SHARD, waiting->number, 1, &done))
            fail("a completion was refused");
        told = told * 31 + done + t.lengths[SHARD];
    }
    return told;
}

static void measure_tracker(size_t count)
{
    struct waiting waiting = {.tracker = {.next = LAST + 1}, .number = LAST};
    for (size_t i = 0; i < LOCKER_SHARDS * LOCKER_WAITING; i++) {
        waiting.tracker.numbers[i] = i % LOCKER_WAITING + 2;
        waiting.tracker.deltas[i] = 1;
    }
    for (size_t shard = 0; shard < LOCKER_SHARDS; shard++) {
        waiting.tracker.lengths[shard] = count;
        waiting.tracker.slots[shard] = (struct locker_slot){LAST, 7, 16 * shard};
    }
    const size_t all = LOCKER_SHARDS * count * DELTA;
    report("checkpoint", all, (double)all * TRACKS, TRACKS, in_turns(checkpoints, &waiting));
    report("complete", all, (double)all * TRACKS, TRACKS, in_turns(completions, &waiting));
    waiting.number = 1;
    report(".. in front", all, (double)all * TRACKS, TRACKS, in_turns(completions, &waiting));
}

int main(int argc, char **argv)
{
    static const size_t lengths[] = {0, 6, 13, 4096, LONGEST_RUN};
    static const struct {
        size_t length, klen, vlen;
    } entries[] = {{16, 8, 0}, {32, 8, 14}, {4096, 16, 4070}, {36874, 4096, 32768}};
    if (argc != 5)
        fail("takes the earlier library, the form of its calls, today's library and the number of rounds");
    sides[EARLIER] = loaded(argv[1], argv[2]);
    sides[TODAY] = loaded(argv[3], "counts");
    rounds = atoi(argv[4]);

    uint8_t *region = malloc(REGION), *bytes = malloc(LONGEST_RUN + 1);
    if (!region || !bytes)
        fail("no room for a region of 268,435,456 bytes and a run of 67,108,864");
    fill(bytes, LONGEST_RUN + 1);
    struct log log = {.region = region, .bytes = bytes, .version = LOCKER_VERSION_1, .capacity = REGION};

    head("earlier, each", "today, each");
    for (size_t i = 0; i < sizeof lengths / sizeof *lengths; i++)
        measure_sums(bytes, lengths[i]);
    for (size_t i = 0; i < sizeof entries / sizeof *entries; i++) {
        log.klen = entries[i].klen;
        log.vlen = entries[i].vlen;
        measure_entries(log, entries[i].length);
        measure_appends(log, entries[i].length);
    }
    measure_no_entry(log);
    measure_hostile(log);
    measure_larger_hostile("end, hostile", "count, hostile", log, MOST_SUMMED);
    measure_larger_hostile("end, of 240", "count, of 240", log, 240);
    for (size_t count = 1; count <= LOCKER_MOST_ORDINALS; count *= 8)
        measure_starts(count);
    for (size_t count = 0; count < LOCKER_WAITING; count = 2 * count + 1)
        measure_tracker(count);

    printf("\n");
    head("durable end, each", "count entries, each");
    for (size_t i = 0; i < lines; i++)
        report(beside[i].name, beside[i].size, beside[i].bytes, beside[i].calls, beside[i].best);
    return same ? 0 : 1;
}
