// The tick in straightforward C: each step is a loop over what it is about.
#include <stdbool.h>
#include <string.h>

#include "tick.h"

static const uint64_t largest = 1ull << 62;

static bool may_put(uint64_t place) { return 16 <= place && place <= 63; }

static uint64_t refused(uint64_t number, uint64_t place) { return number << 32 | place; }

static void vote(uint64_t *words, const uint64_t *memory) {
    for (size_t k = 0; k < WORDS; k++) {
        uint64_t a = memory[k], b = memory[WORDS + k], c = memory[2 * WORDS + k];
        words[k] = b == c ? b : a;
    }
}

// The lowest word that no lawful flight leaves, or WORDS.
static size_t fault(const Memory *memory) {
    const uint64_t *words = memory->words;
    const Satellite *s = &memory->satellite;
    size_t k = 0;
    for (; &words[k] != &s->waiting; k++)
        if (words[k] > largest) return k;
    if (words[k++] > ROOM) return k - 1;
    for (size_t i = 0; i < ROOM; i++, k += 3) {
        const Activity *a = &s->activities[i];
        bool waits = i < s->waiting;
        if (a->release > largest || (waits && a->release <= s->time)) return k;
        if (a->place > largest || (waits && !may_put(a->place))) return k + 1;
        if (a->number > largest) return k + 2;
    }
    for (size_t i = 0; i < RULES; i++, k += 7) {
        const Rule *r = &s->rules[i];
        if (r->watches >= PLACES) return k;
        for (size_t j = 1; j < 7; j++) {
            if (words[k + j] > largest) return k + j;
            if (j == 5 && r->needs >= 1 && r->safes != 1 && !may_put(r->place)) return k + j;
        }
    }
    for (; k < WORDS; k++)
        if (words[k] > largest) return k;
    return WORDS;
}

// Marks are set by 1 and by nothing else, and where no activity waits there are noughts.
static void tidy(Satellite *s) {
    s->safe_mode = s->safe_mode == 1;
    for (size_t i = 0; i < RULES; i++) {
        s->rules[i].upward = s->rules[i].upward == 1;
        s->rules[i].safes = s->rules[i].safes == 1;
    }
}

static void begin(Satellite *s, const uint16_t *readings) {
    s->time++;
    for (size_t i = 0; i < READINGS; i++) s->parameters[i] = readings[i];
}

static void watch(Satellite *s) {
    for (size_t i = 0; i < RULES; i++) {
        const Rule *r = &s->rules[i];
        uint64_t value = s->parameters[r->watches];
        bool past = r->upward ? value >= r->limit : value <= r->limit;
        s->counts[i] = past ? s->counts[i] + 1 : 0;
        if (r->needs >= 1 && s->counts[i] == r->needs) {
            if (r->safes)
                s->safe_mode = 1;
            else
                s->parameters[r->place] = r->number;
        }
    }
}

static void release(Satellite *s) {
    size_t stays = 0;
    for (size_t i = 0; i < s->waiting; i++) {
        Activity a = s->activities[i];
        if (a.release != s->time)
            s->activities[stays++] = a;
        else if (s->safe_mode)
            s->missed++;
        else
            s->parameters[a.place] = a.number;
    }
    s->waiting = stays;
    for (; stays < ROOM; stays++) s->activities[stays] = (Activity){0, 0, 0};
}

static bool whole(const uint64_t *frame, size_t length) {
    if (length != FRAME) return false;
    uint64_t sum = 0;
    for (size_t i = 0; i < FRAME; i++)
        if (frame[i] > 0xffffffff) return false;
    for (size_t i = 0; i < FRAME - 1; i++) sum += (i + 1) * frame[i];
    return frame[FRAME - 1] == sum % 65521;
}

// Does the command of a whole frame if it can be done.
static bool done(Satellite *s, const uint64_t *frame) {
    const uint64_t *a = frame + 2;
    switch (frame[1]) {
    case 0:
        if (!may_put(a[0])) return false;
        s->parameters[a[0]] = a[1];
        return true;
    case 1:
        if (!may_put(a[1]) || a[0] <= s->time || s->waiting >= ROOM) return false;
        s->activities[s->waiting++] = (Activity){a[0], a[1], a[2]};
        return true;
    case 2:
        s->waiting = 0;
        memset(s->activities, 0, sizeof s->activities);
        return true;
    case 3:
        s->safe_mode = 1;
        return true;
    case 4:
        s->safe_mode = 0;
        return true;
    case 5:
        if (a[0] >= RULES || a[1] >= PLACES || !(a[5] == 1 || may_put(a[6]))) return false;
        s->rules[a[0]] = (Rule){a[1], a[2], a[3] == 1, a[4], a[5] == 1, a[6], a[7]};
        s->counts[a[0]] = 0;
        return true;
    default:
        return false;
    }
}

static void obey(Satellite *s, const uint64_t *frame, size_t length) {
    if (!whole(frame, length) || frame[0] != s->expected) return;
    if (!done(s, frame)) s->rejected++;
    s->expected++;
}

uint64_t plain_tick(uint64_t *memory, size_t memory_length, const uint16_t *readings, size_t readings_length,
                    const uint64_t *frame, size_t frame_length, uint64_t *report, size_t report_length) {
    if (memory_length != COPIES * WORDS) return refused(1, 0);
    if (readings_length != READINGS) return refused(1, 1);
    if (frame_length != 0 && frame_length != FRAME) return refused(1, 2);
    if (report_length != REPORT) return refused(1, 3);
    Memory m;
    vote(m.words, memory);
    size_t word = fault(&m);
    if (word < WORDS) return refused(2, word);
    Satellite *s = &m.satellite;
    tidy(s);
    begin(s, readings);
    watch(s);
    release(s);
    obey(s, frame, frame_length);
    for (size_t copy = 0; copy < COPIES; copy++) memcpy(memory + copy * WORDS, m.words, sizeof m.words);
    uint64_t numbers[REPORT] = {s->time,   s->expected, s->safe_mode,     s->rejected,
                                s->missed, s->waiting,  s->parameters[0], s->parameters[1]};
    memcpy(report, numbers, sizeof numbers);
    return 0;
}
