/* A small day over one lent buffer: two leases, a lease given back twice, a full arena. Every refusal is a value.
 *
 * From the repository's root, after `tools/library`:
 *
 *   cc -std=c11 -Wall -Wextra -Werror -pedantic -Iinclude examples/c/day.c target/staticlib/libexports.a -o target/day
 *   target/day | diff examples/c/day.stdout -
 */
#include <inttypes.h>
#include <stdio.h>
#include <string.h>

#include "arena.h"

/* An arena as a caller keeps it: what setup fixed, what the calls change, and the buffer lent. */
typedef struct Arena {
    ArenaShape shape;
    ArenaHeader header;
    uint8_t *buf;
    size_t len;
} Arena;

static uint8_t buffer[200];

static const char *name(uint32_t code) {
    switch (code) {
    case ARENA_READ_ONLY: return "ReadOnly";
    case ARENA_UNKNOWN_FREELIST: return "UnknownFreelist";
    case ARENA_BAD_SETUP: return "BadSetup";
    case ARENA_DAMAGED: return "Damaged";
    case ARENA_BAD_LAYOUT: return "BadLayout";
    case ARENA_OUT_OF_BOUNDS: return "OutOfBounds";
    case ARENA_OVERLAP: return "Overlap";
    case ARENA_CUTS_FREE_LIST: return "CutsFreeList";
    case ARENA_INSUFFICIENT_SPACE: return "InsufficientSpace";
    default: return "no refusal";
    }
}

static void show_refusal(ArenaAnswer answer) {
    printf("refused, %" PRIu32 " %s", answer.code, name(answer.code));
    if (answer.code == ARENA_OUT_OF_BOUNDS) {
        printf(": offset %" PRIu32 ", allocated %" PRIu32, answer.first, answer.second);
    }
    if (answer.code == ARENA_INSUFFICIENT_SPACE) {
        printf(": requested %" PRIu32 ", available %" PRIu32, answer.first, answer.second);
    }
    printf("\n");
}

static ArenaAnswer take(Arena *arena, uint32_t size) {
    ArenaAnswer lease = arena_alloc_bytes(arena->shape, &arena->header, arena->buf, arena->len, size);
    printf("take %" PRIu32 " bytes: ", size);
    if (lease.code == ARENA_GRANTED) {
        printf("memory (%" PRIu32 ",%" PRIu32 "), usable (%" PRIu32 ",%" PRIu32 ")\n", lease.first, lease.second,
               lease.third, lease.fourth);
    } else {
        show_refusal(lease);
    }
    return lease;
}

/* Only a granted lease names a part of the buffer; the text is cut to that part. */
static void note(Arena *arena, ArenaAnswer lease, const char *text) {
    if (lease.code != ARENA_GRANTED) {
        return;
    }
    size_t length = strlen(text);
    memcpy(arena->buf + lease.third, text, length < lease.fourth ? length : lease.fourth);
}

static void show_note(const Arena *arena, ArenaAnswer lease) {
    if (lease.code == ARENA_GRANTED) {
        printf("the lease at %" PRIu32 " says: %.*s\n", lease.third, (int)lease.fourth,
               (const char *)arena->buf + lease.third);
    }
}

static void give_back(Arena *arena, ArenaAnswer lease) {
    ArenaAnswer answer =
        arena_dealloc(arena->shape, &arena->header, arena->buf, arena->len, lease.first, lease.second);
    printf("give back (%" PRIu32 ",%" PRIu32 "): ", lease.first, lease.second);
    if (answer.code == ARENA_GIVEN_BACK) {
        printf("%s\n", answer.first ? "true" : "false");
    } else {
        show_refusal(answer);
    }
}

static void show_counters(const Arena *arena) {
    printf("allocated %" PRIu32 ", remaining %" PRIu32 ", discarded %" PRIu32 ", minimum segment size %" PRIu32 "\n",
           arena->header.allocated, arena_remaining(arena->shape, &arena->header), arena->header.discarded,
           arena->header.minimum_segment_size);
    printf("sound: %s\n", arena_sound(arena->shape, &arena->header, arena->buf, arena->len) ? "yes" : "no");
}

int main(void) {
    Arena arena = {.buf = buffer, .len = sizeof buffer};
    ArenaBegun begun = arena_setup(&arena.header, arena.buf, arena.len, 7, 0, ARENA_OPTIMISTIC, 20, 0);
    if (begun.code != ARENA_DONE) {
        printf("setup refused, %" PRIu32 " %s\n", begun.code, name(begun.code));
        return 1;
    }
    arena.shape = begun.shape;
    printf("set up: capacity %" PRIu32 ", data from %" PRIu32 "\n", arena.shape.cap, arena.shape.data_offset);

    ArenaAnswer hive_one = take(&arena, 40);
    ArenaAnswer hive_two = take(&arena, 152);
    note(&arena, hive_one, "Hive 1: renewed until 29 February");
    note(&arena, hive_two, "Hive 2: let until the acacia is over");

    give_back(&arena, hive_one);
    give_back(&arena, hive_one);
    take(&arena, 53);
    show_note(&arena, hive_two);
    show_counters(&arena);
    return 0;
}
