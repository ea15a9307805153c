// The tick in C as fast as its author could make it: few passes over the words, no branch where nothing is wrong,
// and loops that a compiler turns into vector code. What is rare (an upset, a fault) takes the long way.
#include <stdbool.h>
#include <string.h>

#include "tick.h"

static const uint64_t largest = 1ull << 62;

static inline bool may_put(uint64_t place) { return place - 16 < 48; }

static inline uint64_t refused(uint64_t number, uint64_t place) { return number << 32 | place; }

// Where the second and the third copy agree, they win the vote. The words as the second copy has them, whether
// the third differs anywhere, and all words or-ed together.
static inline uint64_t read_words(uint64_t *restrict words, const uint64_t *restrict memory, uint64_t *all) {
    uint64_t differs = 0, any = 0;
    for (size_t k = 0; k < WORDS; k++) {
        uint64_t b = memory[WORDS + k], c = memory[2 * WORDS + k];
        differs |= b ^ c;
        any |= b;
        words[k] = b;
    }
    *all = any;
    return differs;
}

static __attribute__((noinline)) uint64_t vote(uint64_t *restrict words, const uint64_t *restrict memory) {
    uint64_t all = 0;
    for (size_t k = 0; k < WORDS; k++) {
        uint64_t a = memory[k], b = memory[WORDS + k], c = memory[2 * WORDS + k];
        words[k] = b == c ? b : a;
        all |= words[k];
    }
    return all;
}

// Whether surely no word is at fault, `all` being all words or-ed together.
static inline bool surely_sane(const Satellite *s, uint64_t all) {
    bool wrong = all > largest || s->waiting > ROOM;
    if (wrong) return false;
    for (size_t i = 0; i < s->waiting; i++)
        wrong |= (s->activities[i].release <= s->time) | !may_put(s->activities[i].place);
    for (size_t i = 0; i < RULES; i++) {
        const Rule *r = &s->rules[i];
        wrong |= (r->watches >= PLACES) | ((r->needs != 0) & (r->safes != 1) & !may_put(r->place));
    }
    return !wrong;
}

static bool at_fault(const Memory *m, size_t k) {
    const Satellite *s = &m->satellite;
    const uint64_t *w = m->words;
    if (w[k] > largest) return true;
    if (k == 69) return w[k] > ROOM;
    if (k < 70) return false;
    if (k < 166) {
        if ((k - 70) / 3 >= s->waiting) return false;
        return (k - 70) % 3 == 0 ? w[k] <= s->time : (k - 70) % 3 == 1 && !may_put(w[k]);
    }
    if (k < 278) return (k - 166) % 7 == 0 ? w[k] >= PLACES : (k - 166) % 7 == 5 && w[k - 2] >= 1 && w[k - 1] != 1 && !may_put(w[k]);
    return false;
}

static __attribute__((noinline)) size_t lowest_fault(const Memory *m) {
    size_t k = 0;
    while (k < WORDS && !at_fault(m, k)) k++;
    return k;
}

static inline void watch(Satellite *s) {
    for (size_t i = 0; i < RULES; i++) {
        Rule *r = &s->rules[i];
        uint64_t value = s->parameters[r->watches], upward = r->upward == 1, safes = r->safes == 1;
        uint64_t past = upward ? value >= r->limit : value <= r->limit;
        uint64_t count = (s->counts[i] + 1) & -past;
        s->counts[i] = count;
        r->upward = upward;
        r->safes = safes;
        if (r->needs != 0 && count == r->needs) {
            if (safes)
                s->safe_mode = 1;
            else
                s->parameters[r->place] = r->number;
        }
    }
}

static inline void release(Satellite *s) {
    size_t waiting = s->waiting, first = 0;
    uint64_t time = s->time;
    while (first < waiting && s->activities[first].release != time) first++;
    size_t stays = first;
    for (size_t i = first; i < waiting; i++) {
        Activity a = s->activities[i];
        if (a.release != time)
            s->activities[stays++] = a;
        else if (s->safe_mode)
            s->missed++;
        else
            s->parameters[a.place] = a.number;
    }
    s->waiting = stays;
    memset(&s->activities[stays], 0, (ROOM - stays) * sizeof(Activity));
}

static inline bool whole(const uint64_t *f) {
    uint64_t all = 0, sum = 0;
    for (size_t i = 0; i < FRAME; i++) all |= f[i];
    if (all >> 32) return false;
    for (size_t i = 0; i < FRAME - 1; i++) sum += (i + 1) * f[i];
    return f[FRAME - 1] == sum % 65521;
}

static bool done(Satellite *s, const uint64_t *frame) {
    const uint64_t *a = frame + 2;
    switch (frame[1]) {
    case 0:
        if (!may_put(a[0])) return false;
        s->parameters[a[0]] = a[1];
        return true;
    case 1:
        if (!may_put(a[1]) || a[0] <= s->time || s->waiting >= ROOM) return false;
        s->activities[s->waiting++] = (Activity){a[0], a[1], a[2]};
        return true;
    case 2:
        s->waiting = 0;
        memset(s->activities, 0, sizeof s->activities);
        return true;
    case 3:
        s->safe_mode = 1;
        return true;
    case 4:
        s->safe_mode = 0;
        return true;
    case 5:
        if (a[0] >= RULES || a[1] >= PLACES || !(a[5] == 1 || may_put(a[6]))) return false;
        s->rules[a[0]] = (Rule){a[1], a[2], a[3] == 1, a[4], a[5] == 1, a[6], a[7]};
        s->counts[a[0]] = 0;
        return true;
    default:
        return false;
    }
}

uint64_t fast_tick(uint64_t *memory, size_t memory_length, const uint16_t *readings, size_t readings_length,
                   const uint64_t *frame, size_t frame_length, uint64_t *report, size_t report_length) {
    if (memory_length != COPIES * WORDS) return refused(1, 0);
    if (readings_length != READINGS) return refused(1, 1);
    if (frame_length != 0 && frame_length != FRAME) return refused(1, 2);
    if (report_length != REPORT) return refused(1, 3);
    Memory m;
    uint64_t all;
    if (read_words(m.words, memory, &all)) all = vote(m.words, memory);
    Satellite *s = &m.satellite;
    if (!surely_sane(s, all)) {
        size_t word = lowest_fault(&m);
        if (word < WORDS) return refused(2, word);
    }
    s->time++;
    s->safe_mode = s->safe_mode == 1;
    for (size_t i = 0; i < READINGS; i++) s->parameters[i] = readings[i];
    watch(s);
    release(s);
    // the number is looked at before the check, which has a division
    if (frame_length == FRAME && frame[0] == s->expected && whole(frame)) {
        if (!done(s, frame)) s->rejected++;
        s->expected++;
    }
    for (size_t copy = 0; copy < COPIES; copy++) memcpy(memory + copy * WORDS, m.words, sizeof m.words);
    uint64_t numbers[REPORT] = {s->time,   s->expected, s->safe_mode,     s->rejected,
                                s->missed, s->waiting,  s->parameters[0], s->parameters[1]};
    memcpy(report, numbers, sizeof numbers);
    return 0;
}
