/* One window of a sawtooth through the static library, as the program `rendersaw` renders it: frequency 1, eight samples of an eighth of a
 * second, into internal buffer 0. Then a stage of an unknown kind, which is refused. Then a ring's cursor, which is lent and changed where it
 * stands, or refused and left as it was. Then a sound that is placed between left and right, or refused. Last strings that reach their
 * notes or do not. */
#include "grynnadot.h"

#include <math.h>
#include <stdio.h>
#include <string.h>

/* As large as the library takes them. */
_Static_assert(sizeof(grynnadot_patch) == 5128, "patch");
_Static_assert(sizeof(grynnadot_read) == 5144, "read");
_Static_assert(sizeof(grynnadot_pools) == 72, "pools");
_Static_assert(sizeof(grynnadot_states) == 2816, "states");
_Static_assert(sizeof(grynnadot_ran) == 2944, "ran");
_Static_assert(offsetof(grynnadot_ran, reach) == 2912, "reach");
_Static_assert(sizeof(grynnadot_cursor) == 8, "cursor");

enum { WINDOW = 8 };

static double internal[2 * WINDOW];
static double external[WINDOW];
static const double zeros[WINDOW];
static const uint8_t order[] = {0};

static grynnadot_ran render(grynnadot_patch patch) {
    grynnadot_pools pools = {.internal = grynnadot_new_pool(1, WINDOW, internal, WINDOW).pool};
    pools = grynnadot_prepare(pools, internal, WINDOW, NULL, 0, zeros, WINDOW, WINDOW).pools;
    return grynnadot_run(patch, order, 1, pools, grynnadot_new_states(), WINDOW, 0.125, internal, WINDOW, NULL, 0, zeros, WINDOW, NULL, 0,
                         NULL, 0);
}

/* Whether a cursor at that position stands at `after`, once it was to advance round a ring of that length, with that number answered. */
static bool advances(size_t position, size_t ring_length, size_t number, size_t after) {
    grynnadot_cursor cursor = {.position = position};
    const grynnadot_verdict verdict = grynnadot_advance(&cursor, ring_length);
    return verdict.number == number && verdict.stage == 32 && cursor.position == after;
}

static bool cursor_advances(void) {
    return advances(0, 3, 0, 1) && advances(2, 3, 0, 0) && advances(0, 1, 0, 0) && advances(32767, 32768, 0, 0);
}

/* At the length and past it, round no slot, and round one slot too many. */
static bool refusals_leave_the_cursor(void) {
    return advances(3, 3, 4, 3) && advances(SIZE_MAX, 3, 4, SIZE_MAX) && advances(0, 0, 4, 0) && advances(5, 0, 4, 5) &&
           advances(7, 32769, 4, 7);
}

/* A run of Pan by these outputs and levels: of internal 0, which has 1 to 8, with the gains 2 and 3. Internal 1 is stale, external 0 has 100
 * throughout. */
static grynnadot_ran pan(size_t left, size_t right, grynnadot_parameter left_level, grynnadot_parameter right_level, size_t n) {
    for (int i = 0; i < WINDOW; i++) {
        internal[i] = i + 1;
        external[i] = 100;
    }
    grynnadot_patch patch = {.count = 1};
    patch.stages[0] = (grynnadot_stage){
        .kind = GRYNNADOT_PAN,
        .output = left,
        .second_output = right,
        .out_level = left_level,
        .first = right_level,
        .second = {.mark = GRYNNADOT_NUMBER, .number = 2.0},
        .third = {.mark = GRYNNADOT_NUMBER, .number = 3.0},
    };
    const grynnadot_pools pools = {
        .internal = {.count = 2, .capacity = WINDOW, .stale = {[1] = true}},
        .external = {.count = 1, .capacity = WINDOW},
    };
    return grynnadot_run(patch, order, 1, pools, grynnadot_new_states(), n, 0.125, internal, 2 * WINDOW, external, WINDOW, zeros, WINDOW,
                         NULL, 0, NULL, 0);
}

static const grynnadot_parameter absent = {.mark = GRYNNADOT_ABSENT};
static const grynnadot_parameter quarter = {.mark = GRYNNADOT_NUMBER, .number = 0.25};
static const grynnadot_parameter half = {.mark = GRYNNADOT_NUMBER, .number = 0.5};

/* Whether Pan, by these levels, stores left_times the sound in internal 1 and adds right_times the sound to external 0. */
static bool placed(grynnadot_parameter left_level, grynnadot_parameter right_level, double left_times, double right_times) {
    const grynnadot_ran ran = pan(2, 1, left_level, right_level, WINDOW);
    bool heard = ran.answer.number == 0 && ran.answer.stage == 32 && ran.answer.activity == 2 && !ran.pools.internal.stale[1];
    for (int i = 0; i < WINDOW; i++) {
        heard = heard && internal[WINDOW + i] == (i + 1) * left_times && external[i] == 100 + (i + 1) * right_times;
    }
    return heard;
}

static bool sound_is_placed(void) {
    return placed(absent, absent, 2.0, 3.0) && placed(quarter, half, 0.5, 1.5);
}

/* Whether Pan is refused with that number, and leaves the mark of internal 1 and the samples of external 0. */
static bool refused_with(size_t number, size_t left, size_t right, grynnadot_parameter left_level, size_t n) {
    const grynnadot_ran ran = pan(left, right, left_level, half, n);
    bool untouched = ran.answer.number == number && ran.answer.stage == 0 && ran.answer.activity == 0 && ran.pools.internal.stale[1];
    for (int i = 0; i < WINDOW; i++) {
        untouched = untouched && external[i] == 100;
    }
    return untouched;
}

/* The same buffer twice, also in an empty window; one that is not there before that, and one level alone after it; last either output as
 * the input, which is not stale. */
static bool pan_is_refused(void) {
    return refused_with(8, 2, 2, half, WINDOW) && refused_with(8, 1, 1, half, 0) && refused_with(5, 4, 4, half, WINDOW) &&
           refused_with(8, 2, 2, absent, WINDOW) && refused_with(6, 2, 1, absent, WINDOW) && refused_with(7, 0, 1, half, WINDOW) &&
           refused_with(7, 1, 0, half, WINDOW);
}

enum { STRINGS = 6, SLOTS = 402 + 301 + 301 + 1 + 301 + 301 };

/* A string at 44,100 samples a second, bright enough that its low-pass takes no time. */
static grynnadot_stage string(size_t buffer_size, double frequency) {
    return (grynnadot_stage){
        .kind = GRYNNADOT_WAVEGUIDE,
        .buffer_size = buffer_size,
        .output = 2,
        .first = {.mark = GRYNNADOT_NUMBER, .number = frequency},
        .second = {.mark = GRYNNADOT_NUMBER, .number = 44100.0},
        .third = {.mark = GRYNNADOT_NUMBER, .number = 0.9},
    };
}

/* Whether a window of n samples of these strings answers that number, and tells that of each stage. 110 Hz asks for 400.9 samples, 148 Hz
 * for 298; a frequency below 0 asks for fewer than none. */
static bool tells(const uint8_t *strings, size_t count, size_t n, size_t number, const uint8_t reach[32]) {
    static double rings[SLOTS];
    const grynnadot_patch patch = {
        .count = STRINGS,
        .stages = {string(401, 110.0), string(300, 148.0), string(300, 110.0), string(0, 110.0), string(300, -110.0), string(300, NAN)},
    };
    const grynnadot_pools pools = {.internal = {.count = 2, .capacity = WINDOW, .stale = {[1] = true}}};
    const grynnadot_ran ran = grynnadot_run(patch, strings, count, pools, grynnadot_new_states(), n, 1.0 / 44100.0, internal, 2 * WINDOW,
                                            NULL, 0, zeros, WINDOW, rings, SLOTS, NULL, 0);
    return ran.answer.number == number && memcmp(ran.reach, reach, 32) == 0;
}

/* Of all strings, the last first; of one of them; in an empty window; and refused, since one is named twice. */
static bool reach_is_told(void) {
    const uint8_t all[STRINGS] = {5, 4, 3, 2, 1, 0};
    const uint8_t twice[] = {2, 2};
    const uint8_t told[32] = {[2] = GRYNNADOT_ABOVE, [3] = GRYNNADOT_ABOVE, [4] = GRYNNADOT_BELOW, [5] = GRYNNADOT_NOT_A_NUMBER};
    const uint8_t one[32] = {[2] = GRYNNADOT_ABOVE};
    const uint8_t nothing[32] = {GRYNNADOT_WITHIN};
    return tells(all, STRINGS, WINDOW, 0, told) && tells(twice, 1, WINDOW, 0, one) && tells(all, STRINGS, 0, 0, nothing) &&
           tells(twice, 2, WINDOW, 3, nothing);
}

int main(void) {
    grynnadot_patch patch = {.count = 1};
    patch.stages[0] = (grynnadot_stage){
        .kind = GRYNNADOT_OSCILLATOR,
        .choice = GRYNNADOT_SAWTOOTH,
        .first = {.mark = GRYNNADOT_NUMBER, .number = 1.0},
    };
    const grynnadot_ran ran = render(patch);
    if (ran.answer.number != 0 || ran.answer.stage != 32 || ran.answer.activity != 1 || ran.pools.internal.stale[0]) {
        return 1;
    }
    printf("internal 0 window %d\n", WINDOW);
    for (int i = 0; i < WINDOW; i++) {
        uint64_t bits;
        memcpy(&bits, &internal[i], sizeof bits);
        printf("%016llx\n", (unsigned long long)bits);
    }
    patch.stages[0].kind = GRYNNADOT_PAN + 1;
    const grynnadot_ran refused = render(patch);
    if (refused.answer.number != 22 || refused.answer.stage != 0 || !refused.pools.internal.stale[0] ||
        refused.reach[0] != GRYNNADOT_WITHIN) {
        return 2;
    }
    if (!cursor_advances() || !refusals_leave_the_cursor()) {
        return 3;
    }
    if (!sound_is_placed() || !pan_is_refused()) {
        return 4;
    }
    return reach_is_told() ? 0 : 5;
}
