/* The engine as a static library: what `rt lib` makes of `host`, for C on x86-64-v2. Of C it calls memcpy and memset alone.
 *
 * Records go by value and come back by value: what comes back is what to pass next time. A ring's cursor alone is changed where it stands.
 * Samples, zeros, rings, values, the order and a file's bytes are lent, each as a pointer and a count of elements. A pointer is used during
 * the call and never after it; nothing is kept between calls and nothing is allocated, so that engines with slices of their own may run at
 * the same time. The records are large (a patch has 5,128 bytes, the states 2,816) and stand on the stack.
 *
 * Every input gets an answer, and what each function answers is proved for any input; see crates/host/specs. A refusal says why by its
 * number and changes nothing: the records come back as they were passed, and no lent sample is touched. One thing is left to the caller: to
 * lend what it says it lends, `count` elements that may be read, or written where the pointer is not const, and that overlap no others. The
 * pointer may be NULL where the count is 0; that of a cursor never is.
 *
 * Times are in seconds, frequencies in turns per second, phases in turns. Samples may become infinite or NaN, as arithmetic has it; the
 * sign and the payload of a NaN mean nothing. */
#ifndef GRYNNADOT_H
#define GRYNNADOT_H

#include <stdbool.h>
#include <stddef.h>
#include <stdint.h>

/* ---- answers */

/* 0, done; or why it was refused, the first of these that holds (22 before all others, then 1 to 4; then 5, 8, 6, 7, stage by stage):
 *      1  a count of buffers or stages or a capacity is over its bound, a pool's samples are not count * capacity, or the zeros are not
 *         exactly as many +0.0 as the internal capacity
 *      2  the window is longer than the internal capacity, or than the external one where there are external buffers
 *      3  the order names a stage that is not there, names one twice, or is longer than 32
 *      4  a buffer_size is over 32,767, the rings do not fit into their samples, or a position is not below the length of its ring
 *      5  there is no such buffer
 *      6  a parameter's slot is past the lent values, or a parameter is absent that may not be
 *      7  an output is also an input, is not stale when it is written, and the window is not empty
 *      8  both outputs are the same buffer, whether or not the window is empty
 *     22  a stage's kind, choice, modulation or mark is unknown
 * The stage is the number of the stage at fault for 5 to 8 and 22 of a run, and 32 in every other case. */
typedef struct {
    size_t number;
    size_t stage;
} grynnadot_verdict;

/* With the activity: of a write that of its output's pool, 1 internal or 2 external; of a run the greatest of all its outputs'. It is 0,
 * exhausted, where the order is empty or the call was refused. 3, observer, ranks above these and is never answered. */
typedef struct {
    size_t number;
    size_t stage;
    uint8_t activity;
} grynnadot_answer;

/* ---- pools: at most 16 buffers of at most 4,096 samples each, end to end in one lent slice of count * capacity samples */

/* A stale buffer reads as zeros, and the next write stores in it; in any other a write adds. */
typedef struct {
    size_t count;
    size_t capacity;
    bool stale[16];
} grynnadot_pool;

/* The external buffers are the internal ones of an outer engine, whose record and samples are passed here; what comes back of that record
 * goes back to the outer engine. Without one: all zero, with no samples. `reset` is the host's to set and to read: the engine only clears
 * it, in grynnadot_prepare. */
typedef struct {
    grynnadot_pool internal;
    grynnadot_pool external;
    bool reset;
} grynnadot_pools;

typedef struct {
    grynnadot_verdict verdict;
    grynnadot_pool pool;
} grynnadot_made;

typedef struct {
    grynnadot_verdict verdict;
    grynnadot_pools pools;
} grynnadot_prepared;

typedef struct {
    grynnadot_answer answer;
    grynnadot_pools pools;
} grynnadot_wrote;

/* A new pool: fills `samples` with zeros, and no buffer is stale. Refused with 1: the record is then that of an empty pool. */
grynnadot_made grynnadot_new_pool(size_t count, size_t capacity, double *samples, size_t samples_count);

/* In all that follows `internal` and `external` are the samples of the two pools, `zeros` as many +0.0 as the internal capacity (they may
 * be one constant for all calls), and n is the length of the window in samples: from 0 to the capacity. */

/* Before each window: every internal buffer becomes stale, and `reset` false. No sample is touched. Refused with 1 or 2. */
grynnadot_prepared grynnadot_prepare(grynnadot_pools pools, const double *internal, size_t internal_count, const double *external,
                                     size_t external_count, const double *zeros, size_t zeros_count, size_t n);

/* A buffer is a number: twice its index, plus one if external. Whether its first n samples can be read: they are at
 * index * capacity of its pool where it is not stale, and zeros where it is. Refused with 1, 2 or 5. */
grynnadot_verdict grynnadot_check_read(grynnadot_pools pools, const double *internal, size_t internal_count, const double *external,
                                       size_t external_count, const double *zeros, size_t zeros_count, size_t buffer, size_t n);

/* Single writes of n lent values (another number of them gives 2), of one buffer, and of the product of two: stored where the output is
 * stale, added where it is not, each value first times the level, which is 1.0 where has_level is false. Samples from n on stay, and the
 * output is no longer stale. Refused with 1, 2, 5 or 7. */
grynnadot_wrote grynnadot_read_0_write_1(grynnadot_pools pools, double *internal, size_t internal_count, double *external,
                                         size_t external_count, const double *zeros, size_t zeros_count, size_t output, bool has_level,
                                         double level, size_t n, const double *values, size_t values_count);
grynnadot_wrote grynnadot_read_1_write_1(grynnadot_pools pools, double *internal, size_t internal_count, double *external,
                                         size_t external_count, const double *zeros, size_t zeros_count, size_t input, size_t output,
                                         bool has_level, double level, size_t n);
grynnadot_wrote grynnadot_read_2_write_1(grynnadot_pools pools, double *internal, size_t internal_count, double *external,
                                         size_t external_count, const double *zeros, size_t zeros_count, size_t first, size_t second,
                                         size_t output, bool has_level, double level, size_t n);

/* ---- patches: at most 32 stages */

enum { GRYNNADOT_ABSENT, GRYNNADOT_NUMBER, GRYNNADOT_SLOT, GRYNNADOT_WINDOW_SECONDS };

/* Nothing, the number, the value in that slot of the lent values, or the window's seconds, by its mark. Only levels and an oscillator's
 * phase may be absent: they are then 1.0 and 0.0. Pan's two levels are absent together or not at all. The engine reads the number's eight
 * bytes as they are: any NaN is NaN. */
typedef struct {
    size_t mark;
    size_t slot;
    double number;
} grynnadot_parameter;

/* The kinds, each with what its parameters first, second and third are. Each has one input, but for the plain oscillator, which has none,
 * and the ring modulator, which has two. Each has one output, whose level is out_level, but for Pan, which has two: left, in `output` with
 * out_level, and right, in `second_output`. Pan writes to either side its input times the gain, and that times the level; what it hears is
 * settled before it writes. */
enum {
    GRYNNADOT_PASS,
    GRYNNADOT_POW3,
    GRYNNADOT_CLIP,                 /* limit */
    GRYNNADOT_LOW_PASS,             /* cutoff */
    GRYNNADOT_LOW_PASS_2,           /* resonance, quality */
    GRYNNADOT_HIGH_PASS,            /* cutoff */
    GRYNNADOT_HIGH_PASS_2,          /* resonance, quality */
    GRYNNADOT_BAND_PASS,            /* center, quality */
    GRYNNADOT_NOTCH,                /* center, quality */
    GRYNNADOT_ALL_PASS,             /* corner, quality */
    GRYNNADOT_OSCILLATOR,           /* frequency, phase; choice: the waveform */
    GRYNNADOT_MODULATED_OSCILLATOR, /* frequency, phase; choice: the waveform; modulation: 0 by phase, 1 by frequency */
    GRYNNADOT_WAVEGUIDE,            /* frequency, cutoff, feedback; choice: 0 positive, 1 negative reflectance; buffer_size to 32,767 */
    GRYNNADOT_RING_MODULATOR,
    GRYNNADOT_PAN                   /* right level, left gain, right gain */
};

/* The waveforms. */
enum { GRYNNADOT_SIN, GRYNNADOT_SIN3, GRYNNADOT_TRIANGLE, GRYNNADOT_SQUARE, GRYNNADOT_SAWTOOTH };

/* Inputs and outputs are buffers by their numbers. What the kind does not have is not looked at. */
typedef struct {
    size_t kind;
    size_t choice;
    size_t modulation;
    size_t buffer_size;
    size_t first_input;
    size_t second_input;
    size_t output;
    size_t second_output;
    grynnadot_parameter out_level;
    grynnadot_parameter first;
    grynnadot_parameter second;
    grynnadot_parameter third;
} grynnadot_stage;

/* Stages from `count` on are not looked at. */
typedef struct {
    size_t count;
    grynnadot_stage stages[32];
} grynnadot_patch;

/* ---- patch files: a patch as an editor hands it over, in bytes; docs/PATCH-FILES.md has their form */

/* 0 with offset 0 and the patch; or why the bytes were refused, at the first fault in reading order:
 *     20  the bytes end early
 *     21  the version is not 1
 *     22  a stage's kind, a choice or a parameter's mark is unknown
 *     23  a number is too large, or longer than five bytes
 *     24  bytes are left over
 *     25  there are more than 32 stages
 * The offset is then where the number, the eight bytes or the leftover at fault begins, and the patch is the empty one, all zero. */
typedef struct {
    size_t number;
    size_t offset;
    grynnadot_patch patch;
} grynnadot_read;

/* The patch of a file whose bytes are lent. It goes to grynnadot_run as it is, which judges buffers, sizes, slots and absences:
 *
 *     const grynnadot_read read = grynnadot_read_patch(bytes, bytes_count);
 *     if (read.number != 0) fprintf(stderr, "refused: %zu at %zu\n", read.number, read.offset);
 *     else ran = grynnadot_run(read.patch, order, read.patch.count, pools, ...); */
grynnadot_read grynnadot_read_patch(const uint8_t *bytes, size_t bytes_count);

/* ---- what a stage remembers from window to window: room for every kind, of which a run changes its own kind's part only */

typedef struct {
    struct {
        double phase, saved;
    } oscillator;
    struct {
        double low, high, last_input;
    } one_pole;
    struct {
        double y1, y2, x1, x2;
    } biquad;
    struct {
        double low_pass;
        size_t position;
    } waveguide;
} grynnadot_state;

typedef struct {
    grynnadot_state stages[32];
} grynnadot_states;

/* Whether a string reached its note. It asks its ring to go back by
 *
 *     factor / (width * frequency) - damping / (1 - damping)
 *
 * samples: factor is 1 for positive and 0.5 for negative reflectance, damping is 1 - 2 pi * cutoff * width, or 0 where that is negative.
 * A ring can go back by 0 to buffer_size, 0 and buffer_size among them. What to do where it is not within:
 *      above             the note is too low for the ring and sounds too high, at buffer_size samples: give the string a buffer_size of at
 *                        least the samples above, up to 32,767
 *      below             the low-pass alone takes longer than the note, and the oldest sample sounds, buffer_size + 1 back: raise the
 *                        cutoff or lower the note; no ring helps
 *      not a number      frequency, cutoff or width are none, or give 0/0 or the like; the oldest sample sounds */
enum { GRYNNADOT_WITHIN, GRYNNADOT_BELOW, GRYNNADOT_ABOVE, GRYNNADOT_NOT_A_NUMBER };

/* `reach` tells it of each stage by its number, as of the last sample of the window. It is 0, within, for every stage that is no waveguide
 * or is not in the order, where the window is empty, and where the run was refused. A string that does not reach its note is not refused. */
typedef struct {
    grynnadot_answer answer;
    grynnadot_pools pools;
    grynnadot_states states;
    uint8_t reach[32];
} grynnadot_ran;

/* New states: all zero. */
grynnadot_states grynnadot_new_states(void);

/* A run of n samples, each `width` seconds wide, of the stages that `order` names, in that order: numbers below the patch's count, none of
 * them twice. `rings` has a ring of buffer_size + 1 samples for each waveguide of the patch, ordered or not, end to end by stage number;
 * more samples may follow. A ring keeps its string's sound from window to window: zeros are silence. `values` are what slots stand for. The
 * pools' records and the states that come back are those for the next window. Refused with 22 or 1 to 8, before the first sample. */
grynnadot_ran grynnadot_run(grynnadot_patch patch, const uint8_t *order, size_t order_count, grynnadot_pools pools,
                            grynnadot_states states, size_t n, double width, double *internal, size_t internal_count, double *external,
                            size_t external_count, const double *zeros, size_t zeros_count, double *rings, size_t rings_count,
                            const double *values, size_t values_count);

/* ---- a ring's cursor, where the host has it */

/* The slot of the ring that is written. */
typedef struct {
    size_t position;
} grynnadot_cursor;

/* Moves the cursor one slot round a ring of that length: from the last slot to 0. Answers 0; or 4 where the length is 0 or over 32,768, or
 * the position is not below it, and the cursor is then left as it is. The stage is 32 in either case. */
grynnadot_verdict grynnadot_advance(grynnadot_cursor *cursor, size_t ring_length);

#endif
