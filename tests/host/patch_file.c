/* patch_file FILE SECONDS [SLOT=FIRST..LAST ...]
 *
 * Renders a patch file with the static library: all stages in file order, in windows of 512 samples at 44,100 samples a second, with 8
 * internal buffers and 2 external ones; an hour at the most. Each slot that is named moves from its first value to its last, one value to a
 * window. External buffer 0, or internal buffer 0 where no stage has an external output, goes to standard output, each sample as the eight
 * bytes of an f64, low byte first. Where a stage writes external buffer 1, there are two channels: external buffers 0 and 1, left and right,
 * sample by sample. What is refused is told on standard error, and the status is then 1. A string that ceases to reach its note is told
 * there too, and sounds on. */
#include "grynnadot.h"

#include <stdio.h>
#include <stdlib.h>
#include <string.h>

enum { RATE = 44100, WINDOW = 512, BUFFERS = 8, CHANNELS = 2, SLOTS = 64, STAGES = 32, RING = 32768 };

/* External buffers 0 and 1 by their numbers. */
enum { LEFT = 1, RIGHT = 3 };

static double internal[BUFFERS * WINDOW];
static double external[CHANNELS * WINDOW];
static const double zeros[WINDOW];
static double rings[STAGES * RING];

typedef struct {
    double first[SLOTS];
    double last[SLOTS];
    size_t count;
} movement;

typedef struct {
    grynnadot_patch patch;
    grynnadot_pools pools;
    grynnadot_states states;
    uint8_t reach[STAGES];
} engine;

/* Of a file that is longer than the lent bytes the first ones are enough: no patch has so many, and something is refused in them. */
static grynnadot_read read_file(const char *name) {
    static uint8_t bytes[4096];
    FILE *file = fopen(name, "rb");
    if (file == NULL) {
        perror(name);
        exit(1);
    }
    const size_t count = fread(bytes, 1, sizeof bytes, file);
    fclose(file);
    return grynnadot_read_patch(bytes, count);
}

static bool add_slot(movement *moved, const char *word) {
    const char *first = strchr(word, '=');
    const char *last = strstr(word, "..");
    const size_t slot = strtoul(word, NULL, 10);
    if (first == NULL || last == NULL || slot >= SLOTS) {
        return false;
    }
    moved->first[slot] = strtod(first + 1, NULL);
    moved->last[slot] = strtod(last + 2, NULL);
    moved->count = slot < moved->count ? moved->count : slot + 1;
    return true;
}

/* The samples of all rings; no more than there are, for the run refuses a patch that wants more. */
static size_t rings_count(const grynnadot_patch *patch) {
    size_t count = 0;
    for (size_t k = 0; k < patch->count; k++) {
        if (patch->stages[k].kind == GRYNNADOT_WAVEGUIDE) {
            count += patch->stages[k].buffer_size + 1;
        }
    }
    return count < STAGES * RING ? count : STAGES * RING;
}

static bool writes(const grynnadot_patch *patch, size_t buffer) {
    for (size_t k = 0; k < patch->count; k++) {
        const grynnadot_stage *stage = &patch->stages[k];
        if (stage->output == buffer || (stage->kind == GRYNNADOT_PAN && stage->second_output == buffer)) {
            return true;
        }
    }
    return false;
}

/* Puts what is heard of a window into `sound`, and answers how many samples that are: of two channels twice n. */
static size_t heard(const engine *engine, size_t n, double *sound) {
    const size_t channels = writes(&engine->patch, RIGHT) ? 2 : 1;
    const bool outside = channels == 2 || writes(&engine->patch, LEFT);
    const grynnadot_pool *pool = outside ? &engine->pools.external : &engine->pools.internal;
    const double *samples = outside ? external : internal;
    for (size_t k = 0; k < channels * n; k++) {
        const size_t channel = k % channels;
        sound[k] = pool->stale[channel] ? 0.0 : samples[channel * WINDOW + k / channels];
    }
    return channels * n;
}

/* Tells which strings do not reach their notes any longer, or otherwise than in the window before. */
static void tell_reach(engine *engine, const uint8_t *reach) {
    static const char *const told[] = {"within", "below", "above", "not a number"};
    for (size_t k = 0; k < STAGES; k++) {
        if (reach[k] != engine->reach[k] && reach[k] != GRYNNADOT_WITHIN) {
            fprintf(stderr, "stage %zu: out of reach of its ring, %s\n", k, told[reach[k]]);
        }
        engine->reach[k] = reach[k];
    }
}

/* A window of n samples; the external buffers have no outer engine, and so the host marks them stale. */
static grynnadot_answer render(engine *engine, const double *values, size_t values_count, size_t n) {
    uint8_t order[STAGES];
    for (uint8_t k = 0; k < STAGES; k++) {
        order[k] = k;
    }
    engine->pools.external.stale[0] = engine->pools.external.stale[1] = true;
    const grynnadot_pools pools =
        grynnadot_prepare(engine->pools, internal, BUFFERS * WINDOW, external, CHANNELS * WINDOW, zeros, WINDOW, n).pools;
    const grynnadot_ran ran =
        grynnadot_run(engine->patch, order, engine->patch.count, pools, engine->states, n, 1.0 / RATE, internal, BUFFERS * WINDOW, external,
                      CHANNELS * WINDOW, zeros, WINDOW, rings, rings_count(&engine->patch), values, values_count);
    engine->pools = ran.pools;
    engine->states = ran.states;
    tell_reach(engine, ran.reach);
    return ran.answer;
}

static int render_all(engine *engine, const movement *moved, size_t samples) {
    for (size_t start = 0; start < samples; start += WINDOW) {
        const size_t n = samples - start < WINDOW ? samples - start : WINDOW;
        double values[SLOTS];
        for (size_t slot = 0; slot < moved->count; slot++) {
            values[slot] = moved->first[slot] + (moved->last[slot] - moved->first[slot]) * start / samples;
        }
        const grynnadot_answer answer = render(engine, values, moved->count, n);
        if (answer.number != 0) {
            fprintf(stderr, "run refused: %zu, stage %zu\n", answer.number, answer.stage);
            return 1;
        }
        double sound[CHANNELS * WINDOW];
        const size_t count = heard(engine, n, sound);
        if (fwrite(sound, sizeof(double), count, stdout) != count) {
            perror("standard output");
            return 1;
        }
    }
    return 0;
}

int main(int words, char **word) {
    movement moved = {.count = 0};
    const double seconds = words >= 3 ? strtod(word[2], NULL) : -1.0;
    bool understood = 0.0 <= seconds && seconds <= 3600.0;
    for (int k = 3; k < words; k++) {
        understood = add_slot(&moved, word[k]) && understood;
    }
    if (!understood) {
        fprintf(stderr, "patch_file FILE SECONDS [SLOT=FIRST..LAST ...]\n");
        return 1;
    }
    const grynnadot_read read = read_file(word[1]);
    if (read.number != 0) {
        fprintf(stderr, "refused: %zu at %zu\n", read.number, read.offset);
        return 1;
    }
    engine engine = {.patch = read.patch, .states = grynnadot_new_states()};
    engine.pools.internal = grynnadot_new_pool(BUFFERS, WINDOW, internal, BUFFERS * WINDOW).pool;
    engine.pools.external = grynnadot_new_pool(CHANNELS, WINDOW, external, CHANNELS * WINDOW).pool;
    return render_all(&engine, &moved, (size_t)(seconds * RATE));
}
