/* Runs of the static library for tests/bench/instructions to count, of the cases that its words name:
 *
 *     instructions [KIND STAGES ORDERED WINDOW CAPACITY RUNS] ...
 *
 * A patch has so many stages, and the order names the first ORDERED of them. Kinds, parameters, pools and noise are those of src/stages.rs
 * and src/sides.rs. What is printed is where in memory a run begins, and the two functions of C that the library calls. */
#include "grynnadot.h"

#include <stdio.h>
#include <stdlib.h>
#include <string.h>

enum { INTERNAL = 16, EXTERNAL = 8, MOST_SAMPLES = 4096, BUFFER_SIZE = 1023 };

/* The lent values, by slot; those from FREQUENCY on are filled in. */
enum { LEVEL, CUTOFF, FEEDBACK, RESONANCE, QUALITY, PHASE, LIMIT, RIGHT_LEVEL, LEFT_GAIN, RIGHT_GAIN, FREQUENCY, VALUES = FREQUENCY + 8 };
static double values[VALUES] = {0.7, 5000.0, 0.98, 1500.0, 2.0, 0.25, 0.5, 0.9, 0.8, 0.6};

typedef struct {
    const char *name;
    size_t number, choice, count, slots[3];
} kind;

static const kind kinds[] = {
    {"Pass", GRYNNADOT_PASS, 0, 0, {0}},
    {"Pow3", GRYNNADOT_POW3, 0, 0, {0}},
    {"Clip", GRYNNADOT_CLIP, 0, 1, {LIMIT}},
    {"RingModulator", GRYNNADOT_RING_MODULATOR, 0, 0, {0}},
    {"Pan", GRYNNADOT_PAN, 0, 3, {RIGHT_LEVEL, LEFT_GAIN, RIGHT_GAIN}},
    {"LowPass", GRYNNADOT_LOW_PASS, 0, 1, {CUTOFF}},
    {"HighPass", GRYNNADOT_HIGH_PASS, 0, 1, {CUTOFF}},
    {"LowPass2", GRYNNADOT_LOW_PASS_2, 0, 2, {RESONANCE, QUALITY}},
    {"Sin", GRYNNADOT_OSCILLATOR, GRYNNADOT_SIN, 2, {FREQUENCY, PHASE}},
    {"Sawtooth", GRYNNADOT_OSCILLATOR, GRYNNADOT_SAWTOOTH, 2, {FREQUENCY, PHASE}},
    {"Waveguide", GRYNNADOT_WAVEGUIDE, 0, 3, {FREQUENCY, CUTOFF, FEEDBACK}},
};

/* Sample width in seconds. */
static const double WIDTH = 1.0 / 44100.0;

static double internal[INTERNAL * MOST_SAMPLES];
static double external[EXTERNAL * MOST_SAMPLES];
static double rings[INTERNAL * (BUFFER_SIZE + 1)];
static const double zeros[MOST_SAMPLES];
static const uint8_t order[INTERNAL] = {0, 1, 2, 3, 4, 5, 6, 7, 8, 9, 10, 11, 12, 13, 14, 15};

static const kind *named(const char *name) {
    for (size_t i = 0; i < sizeof kinds / sizeof *kinds; i++) {
        if (strcmp(kinds[i].name, name) == 0) {
            return &kinds[i];
        }
    }
    exit(2);
}

static grynnadot_parameter parameter(const kind *of, size_t i, size_t k) {
    if (i >= of->count) {
        return (grynnadot_parameter){.mark = GRYNNADOT_ABSENT};
    }
    const size_t slot = of->slots[i] == FREQUENCY ? FREQUENCY + k % 8 : of->slots[i];
    return (grynnadot_parameter){.mark = GRYNNADOT_SLOT, .slot = slot};
}

/* The k-th stage of a kind, from that buffer. A buffer is twice its index, plus one if external. */
static grynnadot_stage stage(const kind *of, size_t k, size_t input) {
    return (grynnadot_stage){
        .kind = of->number,
        .choice = of->choice,
        .buffer_size = BUFFER_SIZE,
        .first_input = input,
        .second_input = 2 * ((k + 1) % EXTERNAL) + 1,
        .output = 2 * k,
        .second_output = 2 * ((8 + k) % INTERNAL),
        .out_level = {.mark = GRYNNADOT_SLOT, .slot = LEVEL},
        .first = parameter(of, 0, k),
        .second = parameter(of, 1, k),
        .third = parameter(of, 2, k),
    };
}

/* So many stages of a kind; or "strings", eight waveguides and a LowPass2 after each. */
static grynnadot_patch patch_of(const char *name, size_t count) {
    grynnadot_patch patch = {.count = count};
    const bool strings = strcmp(name, "strings") == 0;
    for (size_t k = 0; k < count; k++) {
        patch.stages[k] = strings && k >= 8 ? stage(named("LowPass2"), k, 2 * (k - 8))
                                            : stage(named(strings ? "Waveguide" : name), k, 2 * (k % EXTERNAL) + 1);
    }
    return patch;
}

static void fill_in(void) {
    double frequency = 82.4;
    for (int k = 0; k < 8; k++) {
        values[FREQUENCY + k] = frequency;
        frequency *= 1.26;
    }
    uint64_t seed = 1;
    for (size_t i = 0; i < EXTERNAL * MOST_SAMPLES; i++) {
        seed = seed * 6364136223846793005u + 1442695040888963407u;
        external[i] = 0.05 * ((double)(seed >> 11) / (double)(1ull << 52) - 1.0);
    }
}

typedef struct {
    size_t stages, ordered, n, capacity, runs;
} wanted;

/* Windows of n samples, one after the other, each of which finds the internal buffers stale. */
static void render(const grynnadot_patch *patch, wanted want) {
    const size_t internal_count = INTERNAL * want.capacity;
    const size_t external_count = EXTERNAL * want.capacity;
    const size_t rings_count = want.stages * (BUFFER_SIZE + 1);
    grynnadot_pools pools = {
        .internal = {.count = INTERNAL, .capacity = want.capacity},
        .external = {.count = EXTERNAL, .capacity = want.capacity},
    };
    memset(pools.internal.stale, true, sizeof pools.internal.stale);
    memset(rings, 0, sizeof rings);
    grynnadot_states states = grynnadot_new_states();
    for (size_t i = 0; i < want.runs; i++) {
        const grynnadot_ran ran = grynnadot_run(*patch, order, want.ordered, pools, states, want.n, WIDTH, internal, internal_count,
                                                external, external_count, zeros, want.capacity, rings, rings_count, values, VALUES);
        if (ran.answer.number != 0) {
            exit(1);
        }
        states = ran.states;
    }
}

static size_t count_of(const char *word) {
    return strtoul(word, NULL, 10);
}

int main(int count, char **words) {
    printf("grynnadot_run %p memcpy %p memset %p\n", (void *)grynnadot_run, (void *)memcpy, (void *)memset);
    fill_in();
    for (char **word = words + 1; word + 5 < words + count; word += 6) {
        const wanted want = {count_of(word[1]), count_of(word[2]), count_of(word[3]), count_of(word[4]), count_of(word[5])};
        const grynnadot_patch patch = patch_of(word[0], want.stages);
        render(&patch, want);
    }
    return 0;
}
