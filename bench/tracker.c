// The tracker's rules in plain C, in place, and the time of each call beside the proved one. Both sides start from the same
// state and must answer the same number.
#include <stdint.h>
#include <stdio.h>
#include <stdlib.h>
#include <string.h>
#include <time.h>

uint64_t rattle_pairs(uint64_t rounds);
uint64_t rattle_drains(uint64_t rounds);
uint64_t rattle_checkpoints(uint64_t rounds);

struct slot { uint64_t number, ordinal, offset; };
struct tracker {
    struct slot slots[16];
    uint64_t numbers[512];
    int8_t deltas[512];
    uint64_t lengths[16];
    uint64_t next;
};

static int sound(const struct tracker *t) {
    if (t->next == 0) return 0;
    for (int s = 0; s < 16; s++) {
        uint64_t held = t->slots[s].number;
        if (t->lengths[s] + (held != 0) > 32 || t->lengths[s] > 32) return 0;
        if (held != 0 && held >= t->next) return 0;
        for (uint64_t i = 0; i < t->lengths[s]; i++) {
            if (t->numbers[s * 32 + i] >= t->next) return 0;
            if (i > 0 && t->numbers[s * 32 + i] < t->numbers[s * 32 + i - 1]) return 0;
        }
    }
    return 1;
}

static int reserve(struct tracker *t, uint64_t shard, uint64_t ordinal, uint64_t used, uint64_t capacity, int sealed, uint64_t length) {
    if (!sound(t)) return 28;
    if (shard > 15) return 14;
    if (t->next == UINT64_MAX) return 16;
    if (t->lengths[shard] == 32) return 15;
    if (used % 16 || length % 16 || length == 0) return 5;
    if (capacity > 268435456) return 3;
    if (sealed || used > capacity || length > capacity - used) return 13;
    t->slots[shard] = (struct slot){t->next++, ordinal, used};
    return 0;
}

static void push(struct tracker *t, uint64_t shard, uint64_t number, int8_t delta) {
    uint64_t at = shard * 32 + t->lengths[shard]++;
    t->numbers[at] = number;
    t->deltas[at] = delta;
}

static void insert(struct tracker *t, uint64_t shard, uint64_t number, int8_t delta) {
    uint64_t base = shard * 32, at = base + t->lengths[shard]++;
    for (; at > base && t->numbers[at - 1] > number; at--) {
        t->numbers[at] = t->numbers[at - 1];
        t->deltas[at] = t->deltas[at - 1];
    }
    t->numbers[at] = number;
    t->deltas[at] = delta;
}

static int record(struct tracker *t, uint64_t shard, int8_t delta) {
    if (!sound(t)) return 28;
    if (shard > 15) return 14;
    if (t->next == UINT64_MAX) return 16;
    if (t->lengths[shard] + (t->slots[shard].number != 0) >= 32) return 15;
    push(t, shard, t->next++, delta);
    return 0;
}

static int complete(struct tracker *t, uint64_t shard, uint64_t number, int8_t delta) {
    if (!sound(t)) return 28;
    if (shard > 15) return 14;
    if (number == 0 || t->slots[shard].number != number) return -1;
    t->slots[shard].number = 0;
    if (delta != 0) insert(t, shard, number, delta);
    return 0;
}

static int checkpoint(const struct tracker *t, uint64_t ordinal, uint64_t used, uint64_t *place, uint64_t *limit, int64_t *sum, int *pending) {
    if (!sound(t)) return 28;
    int any = 0;
    uint64_t o = ordinal, p = used, l = UINT64_MAX;
    for (int s = 0; s < 16; s++) {
        const struct slot *x = &t->slots[s];
        if (x->number == 0) continue;
        if (!any || x->ordinal < o || (x->ordinal == o && x->offset < p)) { o = x->ordinal; p = x->offset; }
        if (x->number < l) l = x->number;
        any = 1;
    }
    *sum = 0;
    *pending = any;
    for (int s = 0; s < 16; s++) {
        if (t->lengths[s]) *pending = 1;
        for (uint64_t i = 0; i < t->lengths[s] && t->numbers[s * 32 + i] < l; i++) *sum += t->deltas[s * 32 + i];
    }
    *place = p;
    *limit = l;
    return 0;
}

static int drain(struct tracker *t, uint64_t limit, int64_t *sum) {
    if (!sound(t)) return 28;
    *sum = 0;
    for (int s = 0; s < 16; s++) {
        uint64_t gone = 0, n = t->lengths[s];
        for (; gone < n && t->numbers[s * 32 + gone] < limit; gone++) *sum += t->deltas[s * 32 + gone];
        memmove(&t->numbers[s * 32], &t->numbers[s * 32 + gone], (n - gone) * sizeof t->numbers[0]);
        memmove(&t->deltas[s * 32], &t->deltas[s * 32 + gone], n - gone);
        t->lengths[s] = n - gone;
    }
    return 0;
}

static void busy(struct tracker *t) {
    memset(t, 0, sizeof *t);
    t->next = 1;
    for (int i = 0; i < 128; i++) record(t, i / 16, 1);
    for (int s = 8; s < 16; s++) reserve(t, s, 7, 0, 4096, 0, 16);
}

static struct tracker state;

static uint64_t c_pairs(uint64_t rounds) {
    busy(&state);
    for (uint64_t i = 0; i < rounds; i++) {
        reserve(&state, 3, 7, 0, 4096, 0, 16);
        complete(&state, 3, state.slots[3].number, 0);
    }
    return state.next;
}

static uint64_t c_drains(uint64_t rounds) {
    int64_t sum;
    memset(&state, 0, sizeof state);
    state.next = 1;
    for (uint64_t i = 0; i < rounds; i++) {
        record(&state, 3, 1);
        drain(&state, UINT64_MAX, &sum);
    }
    return state.next;
}

static uint64_t c_checkpoints(uint64_t rounds) {
    uint64_t total = 0, place, limit;
    int64_t sum;
    int pending;
    busy(&state);
    for (uint64_t i = 0; i < rounds; i++) {
        state.slots[8].offset = i;
        if (checkpoint(&state, 7, 0, &place, &limit, &sum, &pending) == 0) total += place + limit;
    }
    return total;
}

static double seconds(void) {
    struct timespec now;
    clock_gettime(CLOCK_MONOTONIC, &now);
    return now.tv_sec + now.tv_nsec * 1e-9;
}

// The best of five runs, less the cost of building the state.
static double cost(uint64_t (*run)(uint64_t), uint64_t rounds, uint64_t *answer) {
    double best = 1e9;
    for (int k = 0; k < 5; k++) {
        double a = seconds();
        run(0);
        double b = seconds();
        *answer = run(rounds);
        double c = seconds();
        if ((c - b) - (b - a) < best) best = (c - b) - (b - a);
    }
    return best / rounds * 1e9;
}

static void line(const char *what, uint64_t (*proved)(uint64_t), uint64_t (*plain)(uint64_t), uint64_t rounds) {
    uint64_t x, y;
    double p = cost(proved, rounds, &x), c = cost(plain, rounds, &y);
    printf("%-20s proved %8.0f ns   C in place %8.0f ns   %s\n", what, p, c, x == y ? "same answers" : "DIFFERENT ANSWERS");
}

int main(int argc, char **argv) {
    uint64_t rounds = argc > 1 ? strtoull(argv[1], 0, 10) : 200000;
    line("reserve and complete", rattle_pairs, c_pairs, rounds);
    line("record and drain", rattle_drains, c_drains, rounds);
    line("checkpoint", rattle_checkpoints, c_checkpoints, rounds);
    return 0;
}
