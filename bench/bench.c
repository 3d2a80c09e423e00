/* Times the proved check beside the transcription in C, on the same sound tables and in one run, and prints their ratio. */
#define _POSIX_C_SOURCE 199309L
#include "sound.h"
#include <stdio.h>
#include <stdlib.h>
#include <string.h>
#include <time.h>

typedef uint64_t check(uint64_t, uint64_t, const uint64_t *, size_t, const uint64_t *, size_t, const uint64_t *, size_t,
                       const uint64_t *, size_t, uint64_t);

typedef struct {
    uint64_t heaps, spans, used;
    size_t bits_length, records_length, entries_length, heads_length;
    uint64_t *bits, *records, *entries, *heads;
} table;

/* splitmix64, so that every run times the same tables */
static uint64_t state;

static uint64_t word(void) {
    uint64_t x = state += 0x9E3779B97F4A7C15;
    x = (x ^ x >> 30) * 0xBF58476D1CE4E5B9;
    x = (x ^ x >> 27) * 0x94D049BB133111EB;
    return x ^ x >> 31;
}

static uint64_t below(uint64_t bound) {
    return word() % bound;
}

static uint64_t *cells(size_t length) {
    uint64_t *made = calloc(length, sizeof *made);
    if (made == NULL)
        abort();
    return made;
}

static int is_set(const uint64_t *words, uint64_t q) {
    return words[q / 64] >> q % 64 & 1;
}

/* Fills span s: some slots of it, all or none; its place in a list; and here and there slots that are pending. */
static void fill_span(table *t, uint64_t s, uint64_t heap, uint64_t class) {
    uint64_t *words = t->bits + s * BITMAP_CELLS, *record = t->records + s * RECORD_CELLS;
    uint64_t *heads = t->heads + (heap * CLASSES + class) * HEAD_CELLS;
    uint64_t slots = slots_per_span(slot_sizes[class]), chance = below(100), occupied = 0;
    uint64_t kind = chance < 60 ? PARTIAL : chance < 90 ? FULL : EMPTY, density = 1 + below(99);
    for (uint64_t q = 0; q < MOST_SLOTS; q++) {
        int taken = q >= slots || kind == FULL || (kind == PARTIAL && (q == 0 || (q > 1 && below(100) < density)));
        if (taken)
            words[LOCAL_WORDS + q / 64] |= (uint64_t)1 << q % 64;
        occupied += taken && q < slots;
    }
    if (occupied > 0 && below(4) == 0)
        for (uint64_t tries = 1 + below(16); tries > 0; tries--) {
            uint64_t q = below(slots);
            if (is_set(words + LOCAL_WORDS, q))
                words[REMOTE_WORDS + q / 64] |= (uint64_t)1 << q % 64;
        }
    for (uint64_t i = 0; i < 64; i++) {
        words[LOCAL_SUMMARY] |= (uint64_t)(words[LOCAL_WORDS + i] == UINT64_MAX) << i;
        words[REMOTE_SUMMARY] |= (uint64_t)(words[REMOTE_WORDS + i] != 0) << i;
    }
    record[CLASS] = class;
    record[OWNER] = heap;
    record[OCCUPIED] = occupied;
    uint64_t list = kind == EMPTY && heads[RESERVE] == 0 ? RESERVE : kind;
    record[NEXT] = heads[list];
    if (heads[list] != 0)
        t->records[(heads[list] - 1) * RECORD_CELLS + PREVIOUS] = s + 1;
    heads[list] = s + 1;
}

/* Fills a magazine with slots of the partial and full spans of its class and heap, as far as they go. */
static void fill_magazine(table *t, uint64_t heap, uint64_t class, uint64_t *entries) {
    uint64_t *heads = t->heads + (heap * CLASSES + class) * HEAD_CELLS;
    uint64_t slots = slots_per_span(slot_sizes[class]), capacity = capacity_for(slot_sizes[class]);
    for (uint64_t list = PARTIAL; list <= FULL; list++)
        for (uint64_t link = heads[list]; link != 0; link = t->records[(link - 1) * RECORD_CELLS + NEXT]) {
            const uint64_t *words = t->bits + (link - 1) * BITMAP_CELLS;
            for (uint64_t q = 0; q < slots && heads[COUNT] < capacity; q++)
                if (is_set(words + LOCAL_WORDS, q) && !is_set(words + REMOTE_WORDS, q))
                    entries[heads[COUNT]++] = (link - 1) * MOST_SLOTS + q;
        }
}

/* A table with every span used, over all classes and heaps. */
static table full_table(uint64_t heaps, uint64_t spans) {
    table t = {.heaps = heaps,
               .spans = spans,
               .used = spans,
               .bits_length = spans * BITMAP_CELLS,
               .records_length = spans * RECORD_CELLS,
               .entries_length = heaps * ENTRIES_A_HEAP,
               .heads_length = heaps * CLASSES * HEAD_CELLS};
    t.bits = cells(t.bits_length);
    t.records = cells(t.records_length);
    t.entries = cells(t.entries_length);
    t.heads = cells(t.heads_length);
    for (uint64_t s = 0; s < spans; s++)
        fill_span(&t, s, s % heaps, (s / heaps * 37 + s % heaps * 5) % CLASSES);
    uint64_t *entries = t.entries;
    for (uint64_t h = 0; h < heaps; h++)
        for (uint64_t c = 0; c < CLASSES; c++) {
            fill_magazine(&t, h, c, entries);
            entries += capacity_for(slot_sizes[c]);
        }
    return t;
}

static uint64_t asked(check *f, const table *t) {
    return f(t->heaps, t->spans, t->bits, t->bits_length, t->records, t->records_length, t->entries, t->entries_length,
             t->heads, t->heads_length, t->used);
}

enum { DAMAGES = 500 };

/* Both answer alike on the table and on damages of it, so that neither is fast by leaving something out. */
static void expect_same_answers(table *t) {
    if (asked(sound_in_c, t) != 0 || asked(laggersten_leaf_sound, t) != 0) {
        fprintf(stderr, "a table that was made sound is not\n");
        exit(1);
    }
    uint64_t *parts[] = {t->bits, t->records, t->entries, t->heads};
    size_t lengths[] = {t->bits_length, t->records_length, t->entries_length, t->heads_length}, unsound = 0;
    for (int tries = 0; tries < DAMAGES; tries++) {
        size_t part = below(4);
        uint64_t *cell = parts[part] + below(lengths[part]), kept = *cell;
        *cell = below(2) ? kept + 1 : kept ^ (uint64_t)1 << below(64);
        uint64_t c = asked(sound_in_c, t), proved = asked(laggersten_leaf_sound, t);
        *cell = kept;
        if (c != proved) {
            fprintf(stderr, "the answers differ: C %d, proved %d\n", (int)c, (int)proved);
            exit(1);
        }
        unsound += c == 2;
    }
    printf("%4d spans, %2d heaps: both find the table sound, and the same %d of %d damages unsound\n", (int)t->spans,
           (int)t->heaps, (int)unsound, DAMAGES);
}

/* Processor time, since the wall clock also counts what other programs take. */
static double now(void) {
    struct timespec at;
    clock_gettime(CLOCK_PROCESS_CPUTIME_ID, &at);
    return (double)at.tv_sec * 1e9 + (double)at.tv_nsec;
}

/* Nanoseconds of one check, over a stretch of calls. */
static double stretch(check *f, const table *t, int calls) {
    double begun = now();
    uint64_t answers = 0;
    for (int i = 0; i < calls; i++)
        answers |= asked(f, t);
    double took = now() - begun;
    if (answers != 0)
        abort();
    return took / calls;
}

static int by_size(const void *a, const void *b) {
    double x = *(const double *)a, y = *(const double *)b;
    return (x > y) - (x < y);
}

enum { SHAPES = 3 };

static const struct {
    uint64_t heaps, spans;
} shapes[SHAPES] = {{16, 1024}, {16, 32}, {1, 32}};

static double median(double *taken, int count) {
    qsort(taken, (size_t)count, sizeof *taken, by_size);
    return taken[count / 2];
}

int main(int count, char **words) {
    int repetitions = count > 1 ? atoi(words[1]) : 21;
    if (repetitions < 1) {
        fprintf(stderr, "usage: bench [REPETITIONS]\n");
        return 2;
    }
    table tables[SHAPES];
    double *c[SHAPES], *proved[SHAPES];
    for (int i = 0; i < SHAPES; i++) {
        state = 5;
        tables[i] = full_table(shapes[i].heaps, shapes[i].spans);
        expect_same_answers(&tables[i]);
        c[i] = calloc((size_t)repetitions, sizeof(double));
        proved[i] = calloc((size_t)repetitions, sizeof(double));
        if (c[i] == NULL || proved[i] == NULL)
            abort();
    }
    /* All stretches are taken in turn, so that a slower spell of the machine meets every table and both checks. */
    for (int turn = 0; turn < repetitions; turn++)
        for (int i = 0; i < SHAPES; i++) {
            int calls = (int)(20000 / shapes[i].spans);
            c[i][turn] = stretch(sound_in_c, &tables[i], calls);
            proved[i][turn] = stretch(laggersten_leaf_sound, &tables[i], calls);
        }
    double a_span[SHAPES];
    for (int i = 0; i < SHAPES; i++) {
        double in_c = median(c[i], repetitions), ours = median(proved[i], repetitions);
        a_span[i] = ours / (double)shapes[i].spans;
        printf("%4d spans, %2d heaps: C %8.2f us, proved %8.2f us, %6.1f ns a span; proved / C %.2f\n",
               (int)shapes[i].spans, (int)shapes[i].heaps, in_c / 1e3, ours / 1e3, a_span[i], ours / in_c);
    }
    for (int i = 1; i < SHAPES; i++)
        printf("time a span at 1024 spans and 16 heaps / at 32 spans and %d heaps: %.2f\n", (int)shapes[i].heaps,
               a_span[0] / a_span[i]);
    return 0;
}
