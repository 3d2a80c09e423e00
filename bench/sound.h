/* The lent table as C sees it (docs/TABLES.md), and the two checks of it that are timed. */
#ifndef SOUND_H
#define SOUND_H

#include <stddef.h>
#include <stdint.h>

enum { CLASSES = 48, BITMAP_CELLS = 130, RECORD_CELLS = 5, HEAD_CELLS = 5, ENTRIES_A_HEAP = 792, MOST_SLOTS = 4096 };
enum { CLASS, OWNER, OCCUPIED, PREVIOUS, NEXT };
enum { PARTIAL, FULL, EMPTY, RESERVE, COUNT };
enum { LOCAL_SUMMARY = 0, LOCAL_WORDS = 1, REMOTE_SUMMARY = 65, REMOTE_WORDS = 66 };

extern const uint64_t slot_sizes[CLASSES];
uint64_t slots_per_span(uint64_t slot);
uint64_t capacity_for(uint64_t slot);

/* The transcription in C: 0 sound, 2 unsound, 1 where a number or a length is not as stated. */
uint64_t sound_in_c(uint64_t heaps, uint64_t spans, const uint64_t *bits, size_t bits_length, const uint64_t *records,
                    size_t records_length, const uint64_t *entries, size_t entries_length, const uint64_t *heads,
                    size_t heads_length, uint64_t used);

/* The proved check: crates/check_leaf. A slice is its start and its length. */
uint64_t laggersten_leaf_sound(uint64_t heaps, uint64_t spans, const uint64_t *bits, size_t bits_length,
                               const uint64_t *records, size_t records_length, const uint64_t *entries,
                               size_t entries_length, const uint64_t *heads, size_t heads_length, uint64_t used);

#endif
