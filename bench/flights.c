// Flights to fly: frames, upsets and satellites that are the same in every run.
#include "flights.h"

#include <string.h>

// Numbers that look random and are the same in every run.
static uint64_t state = 88172645463325252ull;

uint64_t any(uint64_t below) {
    state ^= state << 13;
    state ^= state >> 7;
    state ^= state << 17;
    return state % below;
}

void write_thrice(uint64_t *memory, const Memory *m) {
    for (int copy = 0; copy < COPIES; copy++) memcpy(memory + copy * WORDS, m->words, sizeof m->words);
}

void close_frame(uint64_t *frame) {
    uint64_t sum = 0;
    for (int i = 0; i < FRAME - 1; i++) sum += (uint64_t)(i + 1) * frame[i];
    frame[FRAME - 1] = sum % 65521;
}

// A frame that mostly carries the expected command, whose arguments mostly can be done.
void any_frame(Lent *lent) {
    const Satellite *s = (const Satellite *)lent->memory;
    uint64_t *f = lent->frame;
    lent->frame_length = any(4) ? FRAME : 0;
    memset(f, 0, sizeof lent->frame);
    f[0] = any(8) ? s->expected : any(1000);
    f[1] = any(16) ? (uint64_t[]){0, 1, 1, 1, 4, 5, 5, 5}[any(8)] : any(9);
    if (f[1] == 5) {
        uint64_t rule[] = {any(17), any(65), any(60), any(3), any(4), any(8) == 0, 14 + any(52), any(1000)};
        memcpy(f + 2, rule, sizeof rule);
    } else if (f[1] == 1) {
        uint64_t activity[] = {s->time + any(40), 14 + any(52), any(1000)};
        memcpy(f + 2, activity, sizeof activity);
    } else {
        f[2] = 14 + any(52);
        f[3] = any(1000);
    }
    close_frame(f);
    if (!any(16)) f[any(FRAME)] += any(2) ? 1ull << 32 : 1;
}

// Upsets: mostly such as are voted away, sometimes in two copies of a word.
void any_upset(Lent *lent) {
    uint64_t word = any(WORDS), value = any(2) ? state : any(70);
    lent->memory[any(COPIES) * WORDS + word] = value;
    if (!any(16)) lent->memory[any(COPIES) * WORDS + word] = value;
}

// A satellite that is awake, with 16 rules on and 32 activities that wait.
void busy(Memory *m) {
    Satellite *s = &m->satellite;
    memset(m, 0, sizeof *m);
    s->time = 1000;
    s->waiting = ROOM;
    for (int i = 0; i < ROOM; i++) s->activities[i] = (Activity){1000000000000 + (uint64_t)i, 16 + (uint64_t)i, (uint64_t)i};
    for (int k = 0; k < RULES; k++) s->rules[k] = (Rule){(uint64_t)k, 200 + (uint64_t)k, 1, 3, 0, 20 + (uint64_t)k, (uint64_t)k};
}

// Sixteen rules stand one tick before they act.
void about_to_act(Memory *m) {
    Satellite *s = &m->satellite;
    busy(m);
    for (int k = 0; k < RULES; k++) {
        s->rules[k].limit = 0;
        s->counts[k] = 2;
    }
}

// The first so many activities stand one tick before their time; the others wait on.
static void next_tick_releases(Memory *m, int due) {
    for (int i = 0; i < due; i++) m->satellite.activities[i].release = m->satellite.time + 1;
}

void about_to_release(Memory *m) {
    busy(m);
    next_tick_releases(m, ROOM);
}

void about_to_release_one(Memory *m) {
    busy(m);
    next_tick_releases(m, 1);
}

// Rules and activities at once.
void about_to_do_all(Memory *m) {
    about_to_act(m);
    next_tick_releases(m, ROOM);
}

void about_to_act_and_release_one(Memory *m) {
    about_to_act(m);
    next_tick_releases(m, 1);
}

void prepare(Lent *lent, void (*satellite)(Memory *m)) {
    Memory m;
    memset(lent, 0, sizeof *lent);
    satellite(&m);
    write_thrice(lent->memory, &m);
    lent->frame_length = FRAME;
    lent->frame[0] = 7; // not the number of the expected command
    close_frame(lent->frame);
    for (int i = 0; i < READINGS; i++) lent->readings[i] = (uint16_t)(100 + i);
}
