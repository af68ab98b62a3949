/* levels
 *
 * The report of the program levels (document 02, request Six) as a plain loop in C, for tests/bench/levels to measure the program by: raw
 * f64 from standard input, 65,536 bytes at a time, six figures on standard output. It refuses nothing: what it is given has whole samples. */
#include <inttypes.h>
#include <stdint.h>
#include <stdio.h>
#include <unistd.h>

enum { SAMPLES = 8192 };

static const uint64_t SIGN = UINT64_C(1) << 63;
static const uint64_t INFINITE = UINT64_C(0x7ff) << 52;
static const uint64_t ONE = UINT64_C(0x3ff) << 52;

typedef struct {
    uint64_t samples, nans, infinities, above_one, sign_changes, largest;
    int last; /* 1 or -1, the sign that was met last; 0 before there is one */
} report;

static void add(report *all, uint64_t bits) {
    const uint64_t magnitude = bits % SIGN;
    all->samples++;
    if (magnitude > INFINITE) {
        all->nans++;
        return;
    }
    all->above_one += magnitude > ONE;
    if (magnitude == INFINITE) {
        all->infinities++;
    } else if (magnitude > all->largest) {
        all->largest = magnitude;
    }
    if (magnitude != 0) {
        const int sign = bits < SIGN ? 1 : -1;
        all->sign_changes += sign == -all->last;
        all->last = sign;
    }
}

/* Fills the buffer, and answers how many samples came; less than all where the input ends. */
static size_t fill(uint64_t *samples) {
    size_t count = 0;
    while (count < SAMPLES * sizeof *samples) {
        const ssize_t more = read(STDIN_FILENO, (char *)samples + count, SAMPLES * sizeof *samples - count);
        if (more <= 0) {
            break;
        }
        count += (size_t)more;
    }
    return count / sizeof *samples;
}

int main(void) {
    static uint64_t samples[SAMPLES];
    report all = {0};
    size_t count;
    do {
        count = fill(samples);
        for (size_t k = 0; k < count; k++) {
            add(&all, samples[k]);
        }
    } while (count == SAMPLES);
    printf("%" PRIu64 "\n%" PRIu64 "\n%" PRIu64 "\n%" PRIu64 "\n%" PRIu64 "\n%016" PRIx64 "\n", all.samples, all.nans, all.infinities, all.above_one,
           all.sign_changes, all.largest);
}
