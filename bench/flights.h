// Flights to fly, and the three hands that fly them.
#ifndef FLIGHTS_H
#define FLIGHTS_H

#include "tick.h"

enum { NUMBERS = COPIES * WORDS };

// What a tick is lent.
typedef struct {
    uint64_t memory[NUMBERS];
    uint16_t readings[READINGS];
    uint64_t frame[FRAME];
    size_t frame_length;
    uint64_t report[REPORT];
} Lent;

static inline uint64_t tick(Tick *by, Lent *lent) {
    return by(lent->memory, NUMBERS, lent->readings, READINGS, lent->frame, lent->frame_length, lent->report, REPORT);
}

uint64_t any(uint64_t below);
void write_thrice(uint64_t *memory, const Memory *m);
void close_frame(uint64_t *frame);

// A frame and an upset for a flight that is under way.
void any_frame(Lent *lent);
void any_upset(Lent *lent);

// A satellite, and what a tick of it is lent: a whole frame that is not the expected one.
void busy(Memory *m);
void about_to_act(Memory *m);
void about_to_release(Memory *m);
void about_to_release_one(Memory *m);
void about_to_do_all(Memory *m);
void about_to_act_and_release_one(Memory *m);
void prepare(Lent *lent, void (*satellite)(Memory *m));

#endif
