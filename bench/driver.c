// Flies the same flights through three ticks, compares all that they leave, and prints how long each takes.
#define _POSIX_C_SOURCE 200809L
#include <inttypes.h>
#include <stdbool.h>
#include <stdio.h>
#include <stdlib.h>
#include <string.h>
#include <time.h>

#include "flights.h"

enum { HANDS = 3, ROUNDS = 41, LAPS = 4000, STEP = 96 };

typedef struct {
    const char *name;
    Tick *tick;
} Hand;

static const Hand hands[HANDS] = {{"plain C", plain_tick}, {"fast C", fast_tick}, {"Rattle", board_tick}};

static double seconds(void) {
    struct timespec t;
    clock_gettime(CLOCK_MONOTONIC, &t);
    return (double)t.tv_sec + 1e-9 * (double)t.tv_nsec;
}

// ---- the same flights through all three

static size_t fly_and_compare(size_t ticks) {
    static Lent lent[HANDS];
    size_t refused = 0;
    Lent *first = &lent[0];
    memset(lent, 0, sizeof lent);
    board_launch(first->memory, NUMBERS);
    for (size_t n = 0; n < ticks; n++) {
        for (int i = 0; i < READINGS; i++) first->readings[i] = (uint16_t)any(64);
        any_frame(first);
        for (uint64_t upsets = any(4); upsets > 0; upsets--) any_upset(first);
        Lent found = *first;
        uint64_t answers[HANDS];
        for (int h = 0; h < HANDS; h++) {
            lent[h] = found;
            answers[h] = tick(hands[h].tick, &lent[h]);
        }
        for (int h = 1; h < HANDS; h++) {
            if (answers[h] != answers[0] || memcmp(&lent[h], &lent[0], sizeof lent[0])) {
                printf("tick %zu: %s and %s differ (answers %" PRIx64 " and %" PRIx64 ")\n", n, hands[0].name,
                       hands[h].name, answers[0], answers[h]);
                exit(1);
            }
        }
        if (answers[0] != 0) {
            refused++;
            board_launch(first->memory, NUMBERS);
        }
    }
    return refused;
}

// ---- the same refusals: each length, and each word at fault

static void refuse_and_compare(void) {
    static Lent lent;
    for (int i = 0; i < 5; i++) {
        size_t lengths[] = {NUMBERS, READINGS, FRAME, REPORT};
        if (i < 4) lengths[i]--;
        for (int h = 0; h < HANDS; h++) {
            board_launch(lent.memory, NUMBERS);
            uint64_t answer = hands[h].tick(lent.memory, lengths[0], lent.readings, lengths[1], lent.frame, lengths[2],
                                            lent.report, lengths[3]);
            if (answer != (i < 4 ? (1ull << 32 | (uint64_t)i) : 0)) {
                printf("%s answers %" PRIx64 " for length %d\n", hands[h].name, answer, i);
                exit(1);
            }
        }
    }
    for (int word = 0; word < WORDS; word++) {
        for (int h = 0; h < HANDS; h++) {
            board_launch(lent.memory, NUMBERS);
            for (int copy = 0; copy < COPIES; copy++) lent.memory[copy * WORDS + word] = (1ull << 62) + 1;
            uint64_t answer = tick(hands[h].tick, &lent);
            if (answer != (2ull << 32 | (uint64_t)word)) {
                printf("%s answers %" PRIx64 " for word %d\n", hands[h].name, answer, word);
                exit(1);
            }
        }
    }
}

// ---- how long a tick takes

typedef struct {
    const char *name;
    void (*satellite)(Memory *m);
    bool again; // the satellite is prepared anew before each tick
} Case;

static const Case cases[] = {
    {"quiet tick", busy, false},
    {"16 rules act", about_to_act, true},
    {"32 activities due", about_to_release, true},
};

// Nanoseconds for a lap's tick, with the copy that prepares it if there is one.
static double lap(const Hand *hand, const Case *c, Lent *lent, const uint64_t *prepared) {
    double start = seconds();
    for (int n = 0; n < LAPS; n++) {
        if (c->again) memcpy(lent->memory, prepared, sizeof lent->memory);
        if (tick(hand->tick, lent) != 0) {
            printf("%s refuses: %s\n", hand->name, c->name);
            exit(1);
        }
    }
    return (seconds() - start) / LAPS * 1e9;
}

// A lap that only prepares, to be taken off.
static double idle_lap(Lent *lent, const uint64_t *prepared) {
    double start = seconds();
    for (int n = 0; n < LAPS; n++) {
        memcpy(lent->memory, prepared, sizeof lent->memory);
        __asm__ volatile("" : : "r"(lent->memory) : "memory");
    }
    return (seconds() - start) / LAPS * 1e9;
}

static void least(double *best, double ns) {
    if (ns < *best) *best = ns;
}

static void time_case(const Case *c) {
    // each round lends another place: how long a tick takes, in C too, hangs on where its memory lies beside the stack
    static _Alignas(64) unsigned char room[sizeof(Lent) + ROUNDS * STEP];
    static uint64_t prepared[NUMBERS];
    double best[HANDS] = {1e9, 1e9, 1e9}, idle = 1e9;
    for (int round = 0; round < ROUNDS; round++) {
        Lent *lent = (Lent *)(room + round * STEP);
        prepare(lent, c->satellite);
        memcpy(prepared, lent->memory, sizeof prepared);
        // the hands take turns, so that what else the machine does meets all of them
        if (c->again) least(&idle, idle_lap(lent, prepared));
        for (int h = 0; h < HANDS; h++) least(&best[h], lap(&hands[h], c, lent, prepared));
    }
    if (c->again)
        for (int h = 0; h < HANDS; h++) best[h] -= idle;
    printf("%-18s %9.1f %9.1f %9.1f %11.2f %10.2f\n", c->name, best[0], best[1], best[2], best[2] / best[0],
           best[2] / best[1]);
}

static void year(void) {
    static Lent lent;
    const size_t ticks = 31536000;
    board_launch(lent.memory, NUMBERS);
    double start = seconds();
    for (size_t n = 0; n < ticks; n++) {
        if (tick(board_tick, &lent) != 0) {
            printf("refused in tick %zu\n", n);
            exit(1);
        }
    }
    printf("a year of one-second ticks (%zu), from launch, through the proved library: %.1f s; the last report says tick %" PRIu64 "\n",
           ticks, seconds() - start, lent.report[0]);
}

int main(int argc, char **argv) {
    if (argc > 1 && !strcmp(argv[1], "year")) {
        year();
        return 0;
    }
    size_t ticks = 400000, refused = fly_and_compare(ticks);
    refuse_and_compare();
    printf("%zu random ticks with upsets and frames (%zu refused for memory) and all refusals: every word of memory and report is the same\n",
           ticks, refused);
    printf("%-18s %9s %9s %9s %11s %10s\n", "ns per tick", hands[0].name, hands[1].name, hands[2].name, "to plain C",
           "to fast C");
    for (size_t i = 0; i < sizeof cases / sizeof cases[0]; i++) time_case(&cases[i]);
    return 0;
}
