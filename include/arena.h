/* The arena, for C: an allocator over one lent buffer. Link target/staticlib/libexports.a, which tools/library makes for x86-64, or
 * target/native/libexports.a, which tools/native makes for Arm.
 *
 * What crosses, and in which layout (little-endian):
 *
 *   ArenaShape   16 bytes by value. What setup fixed. Keep it beside the header and hand it back to every call.
 *   ArenaHeader  24 bytes in the caller's own memory, read and written in place. What the calls change.
 *   ArenaAnswer  20 bytes by value. A code of ArenaCode, and what that code carries; 0 where it carries less.
 *   ArenaBegun   20 bytes by value. What setup answers.
 *   buf, len     The arena's buffer: always the whole of it, from its first byte, with its length. `const` where no byte is written.
 *
 * What the safety of memory asks: no pointer is null, also where len is 0; header is aligned to 4 and lies outside of the buffer; for as long
 * as a call lasts nobody else touches either. No more than that: every call takes any shape, any header, any bytes and any numbers, ends with
 * an answer and stays inside of the buffer. A refusal changes nothing, neither the header nor a byte of the buffer.
 *
 * What keeping leases apart asks. A block is held from its grant until it is given back or a rewind puts the top below its end. Held blocks
 * share no byte with each other or with free room, and a held block is always taken back, if from a fresh writable arena on callers
 *
 *   - write only in the usable bytes of blocks that they hold,
 *   - and give back only blocks that they hold, each once, by the memory range that the answer named.
 *
 * Otherwise leases may come to share bytes:
 *
 *   - A block given back twice is refused while its room is free: with 7 where that lies in the list, with 6 where the top has fallen. Room that
 *     was too small for the list, or any under ARENA_NONE, is counted as discarded once more. But once the room is granted anew, the second
 *     give-back frees the new holder's bytes.
 *   - A write outside of one's usable bytes changes another's lease or a node of the free list. Calls that need a list that is no longer sound
 *     refuse with 4; one that was changed and still is sound may hand out room that is held.
 *
 * Alignment is counted from the buffer's start: a block's usable offset is a multiple of it. Its address is one only if the buffer's is.
 */
#ifndef ARENA_H
#define ARENA_H

#include <assert.h>
#include <stdbool.h>
#include <stddef.h>
#include <stdint.h>

#ifdef __cplusplus
extern "C" {
#endif

/* What becomes of room that is given back below the top, by code. */
enum ArenaPolicy {
    ARENA_NONE = 0,       /* it is lost: only what is given back at the top is used again */
    ARENA_OPTIMISTIC = 1, /* it is listed; a request takes the largest segment, or none */
    ARENA_PESSIMISTIC = 2 /* it is listed; a request takes the smallest segment that is large enough */
};

/* What an answer says. 1 to 9 are refusals. */
enum ArenaCode {
    ARENA_READ_ONLY = 1,           /* the arena is read-only, and the call would change it */
    ARENA_UNKNOWN_FREELIST = 2,    /* setup's policy code is none of 0, 1, 2 */
    ARENA_BAD_SETUP = 3,           /* the buffer is longer than 1,073,741,824 bytes, or ends before the data offset; or setup's unify or
                                      read_only is over 1 */
    ARENA_DAMAGED = 4,             /* the head is not sound, or the shape's unify, read_only or policy is no code; or, in a call that
                                      needs the list, the arena is not sound */
    ARENA_BAD_LAYOUT = 5,          /* a size or an extra over 1,073,741,824, an alignment that is no power of two from 1 to 4,096, or a
                                      size that is no multiple of it */
    ARENA_OUT_OF_BOUNDS = 6,       /* the range given back starts below the data offset or ends above allocated. first: the offset given;
                                      second: allocated */
    ARENA_OVERLAP = 7,             /* the bytes given back meet a free segment's */
    ARENA_CUTS_FREE_LIST = 8,      /* the new top lies below the end of a free segment */
    ARENA_INSUFFICIENT_SPACE = 9,  /* first: requested; second: available */

    ARENA_GRANTED = 100,           /* first, second: the memory's offset and size; third, fourth: the usable part's offset and size */
    ARENA_NOTHING = 101,           /* a request for no bytes */
    ARENA_GIVEN_BACK = 102,        /* first: 1, or 0 where the range is too small to be a segment and was counted as discarded */
    ARENA_SUM = 103,               /* first: the sum */
    ARENA_DONE = 104               /* done; from setup: ready, and the shape is filled in */
};

/* What setup fixes. */
typedef struct ArenaShape {
    uint32_t cap;         /* the buffer's length */
    uint32_t reserved;    /* the bytes at its start that no call touches */
    uint32_t data_offset; /* where the data starts */
    uint8_t unify;        /* 1 where the data starts as if the header stood in the buffer, else 0 */
    uint8_t read_only;    /* 1 where every call that would change the arena is refused, else 0 */
    uint8_t policy;       /* a code of ArenaPolicy */
} ArenaShape;

/* What the calls change. An empty list has 4,294,967,295 in both halves of its sentinel. */
typedef struct ArenaHeader {
    uint32_t sentinel_next;        /* the first free segment's offset */
    uint32_t sentinel_size;        /* 4,294,967,295 in a sound arena */
    uint32_t allocated;            /* the top: no byte from this offset on is in use */
    uint32_t minimum_segment_size; /* the least data size of the free segments that are made from now on */
    uint32_t discarded;            /* the count of lost bytes, which stops at 4,294,967,295 */
    uint32_t unused;               /* neither read nor written */
} ArenaHeader;

typedef struct ArenaAnswer {
    uint32_t code;
    uint32_t first;
    uint32_t second;
    uint32_t third;
    uint32_t fourth;
} ArenaAnswer;

/* ARENA_DONE and a shape, or a refusal and a shape of zeros. */
typedef struct ArenaBegun {
    uint32_t code;
    ArenaShape shape;
} ArenaBegun;

#if defined(__cplusplus) || __STDC_VERSION__ >= 201112L
static_assert(sizeof(ArenaShape) == 16, "a shape is 16 bytes");
static_assert(offsetof(ArenaShape, unify) == 12, "three numbers stand before unify");
static_assert(offsetof(ArenaShape, read_only) == 13, "read_only stands after unify");
static_assert(offsetof(ArenaShape, policy) == 14, "policy stands after read_only");
static_assert(sizeof(ArenaHeader) == 24, "a header is 24 bytes");
static_assert(sizeof(ArenaAnswer) == 20, "an answer is 20 bytes");
static_assert(sizeof(ArenaBegun) == 20, "what setup answers is 20 bytes");
#endif

/* A fresh arena over a buffer of any contents, of which no byte is written. Refuses 2, 3. */
ArenaBegun arena_setup(ArenaHeader *header, const uint8_t *buf, size_t len, uint32_t reserved, uint8_t unify, uint8_t policy,
                       uint32_t minimum_segment_size, uint8_t read_only);

/* `size` bytes, zeroed. Refuses 1, 5, 4, 9; 101 where size is 0. */
ArenaAnswer arena_alloc_bytes(ArenaShape shape, ArenaHeader *header, uint8_t *buf, size_t len, uint32_t size);

/* Room for a value of this size and alignment. At the top its usable part is zeroed; where it comes from the list, the eight bytes of the old
   node word may remain at its start. Refuses 1, 5, 4, 9; 101 where size is 0. */
ArenaAnswer arena_alloc(ArenaShape shape, ArenaHeader *header, uint8_t *buf, size_t len, uint32_t size, uint32_t align);

/* Room for a value of this size and alignment with `extra` bytes after it. At the top nothing is zeroed. Where size is 0, `extra` bytes as by
   arena_alloc_bytes. Refuses 1, 5, 4, 9. */
ArenaAnswer arena_alloc_aligned_bytes(ArenaShape shape, ArenaHeader *header, uint8_t *buf, size_t len, uint32_t size, uint32_t align,
                                      uint32_t extra);

/* Gives a block's memory range back. Refuses 1, 4, 6, 7; else 102. */
ArenaAnswer arena_dealloc(ArenaShape shape, ArenaHeader *header, uint8_t *buf, size_t len, uint32_t offset, uint32_t size);

/* Empties the free list, and counts the sum of its data sizes as discarded. Refuses 1, 4; else 103. */
ArenaAnswer arena_discard_freelist(ArenaShape shape, ArenaHeader *header, const uint8_t *buf, size_t len);

/* Moves the top: to `by` from the start, by `by` from where it is, to `by` below the end; never below the data offset nor past the end. Where
   the sum of the top and `by` is exactly 0, the top stays. Refuses 1, 4, 8; else 104. */
ArenaAnswer arena_rewind_start(ArenaShape shape, ArenaHeader *header, const uint8_t *buf, size_t len, uint32_t by);
ArenaAnswer arena_rewind_current(ArenaShape shape, ArenaHeader *header, const uint8_t *buf, size_t len, int64_t by);
ArenaAnswer arena_rewind_end(ArenaShape shape, ArenaHeader *header, const uint8_t *buf, size_t len, uint32_t by);

/* Sets the minimum segment size; adds to discarded, which stops at 4,294,967,295. Refuse 1, 4; else 104. */
ArenaAnswer arena_set_minimum_segment_size(ArenaShape shape, ArenaHeader *header, const uint8_t *buf, size_t len, uint32_t size);
ArenaAnswer arena_increase_discarded(ArenaShape shape, ArenaHeader *header, const uint8_t *buf, size_t len, uint32_t size);

/* Whether the arena is sound. No where the shape's unify, read_only or policy is no code. */
bool arena_sound(ArenaShape shape, const ArenaHeader *header, const uint8_t *buf, size_t len);

/* The room above the top, 0 where the top lies above the capacity. Of the shape it reads cap alone. */
uint32_t arena_remaining(ArenaShape shape, const ArenaHeader *header);

#ifdef __cplusplus
}
#endif

#endif
