/* The soundness test of a lent table, written in C as one would: the yardstick for the proved check. It leaves at the first fault. */
#include "sound.h"

const uint64_t slot_sizes[CLASSES] = {
    16,   32,   48,   64,   80,   96,   112,  128,   160,   192,   224,   256,   320,   384,   448,   512,
    640,  768,  896,  1024, 1280, 1536, 1792, 2048,  2560,  3072,  3584,  4096,  5120,  6144,  7168,  8192,
    10240, 12288, 14336, 16384, 20480, 24576, 28672, 32768, 40960, 49152, 57344, 65536, 81920, 98304, 114688, 131072};

uint64_t slots_per_span(uint64_t slot) {
    uint64_t slots = 131072 / slot;
    return slots < 8 ? 8 : slots > MOST_SLOTS ? MOST_SLOTS : slots;
}

uint64_t capacity_for(uint64_t slot) {
    uint64_t capacity = 4096 / slot;
    return capacity < 8 ? 8 : capacity > 64 ? 64 : capacity;
}

/* Plain x86-64 has no instruction for it, and the compiler's own routine is a call: this one is faster. */
static uint64_t count_ones(uint64_t x) {
    x -= x >> 1 & 0x5555555555555555;
    x = (x & 0x3333333333333333) + (x >> 2 & 0x3333333333333333);
    x = (x + (x >> 4)) & 0x0F0F0F0F0F0F0F0F;
    return x * 0x0101010101010101 >> 56;
}

/* The bits of word i that are past the last slot. */
static uint64_t past_the_end(uint64_t slots, uint64_t i) {
    if (slots <= 64 * i)
        return UINT64_MAX;
    if (slots >= 64 * i + 64)
        return 0;
    return UINT64_MAX << slots % 64;
}

static int spans_sound(uint64_t heaps, const uint64_t *bits, const uint64_t *records, uint64_t used) {
    for (uint64_t s = 0; s < used; s++) {
        const uint64_t *words = bits + s * BITMAP_CELLS;
        const uint64_t *record = records + s * RECORD_CELLS;
        if (record[CLASS] >= CLASSES || record[OWNER] >= heaps)
            return 0;
        uint64_t slots = slots_per_span(slot_sizes[record[CLASS]]);
        uint64_t sum = 0;
        for (uint64_t i = 0; i < 64; i++) {
            uint64_t x = words[LOCAL_WORDS + i], p = words[REMOTE_WORDS + i], past = past_the_end(slots, i);
            if ((words[LOCAL_SUMMARY] >> i & 1) != (x == UINT64_MAX))
                return 0;
            if ((words[REMOTE_SUMMARY] >> i & 1) != (p != 0))
                return 0;
            if ((x & past) != past || (p & past) != 0 || (p & x) != p)
                return 0;
            sum += count_ones(x);
        }
        if (sum - (MOST_SLOTS - slots) != record[OCCUPIED])
            return 0;
    }
    return 1;
}

/* The spans of one list, or used + 1 where it is wrong; counts are from low on and below high. */
static uint64_t spans_in_list(const uint64_t *records, uint64_t head, uint64_t class, uint64_t owner, uint64_t low,
                              uint64_t high, uint64_t used) {
    uint64_t met = 0;
    for (uint64_t before = 0, link = head; link != 0; met++) {
        if (met == used || link > used)
            return used + 1;
        const uint64_t *record = records + (link - 1) * RECORD_CELLS;
        if (record[PREVIOUS] != before || record[CLASS] != class || record[OWNER] != owner || record[OCCUPIED] < low ||
            record[OCCUPIED] >= high)
            return used + 1;
        before = link;
        link = record[NEXT];
    }
    return met;
}

static int magazine_sound(const uint64_t *bits, const uint64_t *records, const uint64_t *entries, uint64_t count,
                          uint64_t class, uint64_t owner, uint64_t slots, uint64_t used) {
    for (uint64_t j = 0; j < count; j++) {
        uint64_t s = entries[j] / MOST_SLOTS, q = entries[j] % MOST_SLOTS;
        if (s >= used || q >= slots)
            return 0;
        const uint64_t *words = bits + s * BITMAP_CELLS;
        const uint64_t *record = records + s * RECORD_CELLS;
        if (record[CLASS] != class || record[OWNER] != owner)
            return 0;
        if ((words[LOCAL_WORDS + q / 64] >> q % 64 & 1) == 0 || (words[REMOTE_WORDS + q / 64] >> q % 64 & 1) == 1)
            return 0;
        for (uint64_t i = 0; i < j; i++)
            if (entries[i] == entries[j])
                return 0;
    }
    return 1;
}

uint64_t sound_in_c(uint64_t heaps, uint64_t spans, const uint64_t *bits, size_t bits_length, const uint64_t *records,
                    size_t records_length, const uint64_t *entries, size_t entries_length, const uint64_t *heads,
                    size_t heads_length, uint64_t used) {
    if (heaps < 1 || heaps > 16 || spans < 1 || spans > 1024 || bits_length != spans * BITMAP_CELLS ||
        records_length != spans * RECORD_CELLS || entries_length != heaps * ENTRIES_A_HEAP ||
        heads_length != heaps * CLASSES * HEAD_CELLS)
        return 1;
    if (used > spans || !spans_sound(heaps, bits, records, used))
        return 2;
    uint64_t total = 0;
    for (uint64_t h = 0; h < heaps; h++) {
        for (uint64_t c = 0; c < CLASSES; c++) {
            uint64_t slots = slots_per_span(slot_sizes[c]), capacity = capacity_for(slot_sizes[c]);
            uint64_t partial = spans_in_list(records, heads[PARTIAL], c, h, 1, slots, used);
            uint64_t full = spans_in_list(records, heads[FULL], c, h, slots, slots + 1, used);
            uint64_t empty = spans_in_list(records, heads[EMPTY], c, h, 0, 1, used);
            uint64_t reserve = spans_in_list(records, heads[RESERVE], c, h, 0, 1, used);
            if (partial > used || full > used || empty > used || reserve > 1)
                return 2;
            if (heads[RESERVE] != 0 && heads[RESERVE] == heads[EMPTY])
                return 2;
            total += partial + full + empty + reserve;
            if (heads[COUNT] > capacity || !magazine_sound(bits, records, entries, heads[COUNT], c, h, slots, used))
                return 2;
            entries += capacity;
            heads += HEAD_CELLS;
        }
    }
    return total == used ? 0 : 2;
}
