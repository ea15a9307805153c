// One tick of the satellite's on-board program, in three hands, and what they share.
// Each answers 0, or the number of a refusal times 2^32 plus its place; a refused call changes nothing.
#ifndef TICK_H
#define TICK_H

#include <stddef.h>
#include <stdint.h>

enum { WORDS = 294, COPIES = 3, READINGS = 16, FRAME = 12, REPORT = 8, PLACES = 64, ROOM = 32, RULES = 16 };

// The words of memory in their order, as crates/layout/specs/Map.antt has them.
typedef struct {
    uint64_t release, place, number;
} Activity;

typedef struct {
    uint64_t watches, limit, upward, needs, safes, place, number;
} Rule;

typedef struct {
    uint64_t time, expected, safe_mode, rejected, missed;
    uint64_t parameters[PLACES];
    uint64_t waiting;
    Activity activities[ROOM];
    Rule rules[RULES];
    uint64_t counts[RULES];
} Satellite;

typedef union {
    Satellite satellite;
    uint64_t words[WORDS];
} Memory;

_Static_assert(sizeof(Memory) == WORDS * sizeof(uint64_t), "the satellite is its words");

typedef uint64_t Tick(uint64_t *memory, size_t memory_length, const uint16_t *readings, size_t readings_length,
                      const uint64_t *frame, size_t frame_length, uint64_t *report, size_t report_length);

Tick plain_tick; // tick_plain.c: straightforward
Tick fast_tick;  // tick_fast.c: as fast as its author could make it
Tick board_tick; // crates/board: proved
uint64_t board_launch(uint64_t *memory, size_t memory_length);

#endif
