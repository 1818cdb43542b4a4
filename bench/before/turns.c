/* Times two builds of the library in turns, in one program: this tree's, and another, whose functions are named before_vg_... Both get the
 * same input, and must give the same bits. See the script `run`. */
#define _POSIX_C_SOURCE 199309L
#include "vatgorge.h"
#include <stdio.h>
#include <stdlib.h>
#include <string.h>
#include <time.h>

/* ---- the two libraries */

#define FUNCTIONS(NAME) NAME(make) NAME(condition) NAME(hop) NAME(log) NAME(undo_dc) NAME(undo_iq) NAME(guard)
#define BEFORE(f) extern __typeof__(vg_##f) before_vg_##f;
FUNCTIONS(BEFORE)

#define FIELD(f) __typeof__(vg_##f) *f;
struct library {
    FUNCTIONS(FIELD)
};
#define BEFORE_FIELD(f) before_vg_##f,
static const struct library before = {FUNCTIONS(BEFORE_FIELD)};
#define AFTER_FIELD(f) vg_##f,
static const struct library after = {FUNCTIONS(AFTER_FIELD)};

/* ---- the input: noise about an offset, with a click in 2,000 samples; and the same 64 times as loud */

enum { MILLION = 1000000, SPANS = 256, REPAIRS = 4096, CHANNELS = 2048, MOST_ROUNDS = 1001 };

static uint64_t input[MILLION], loud[MILLION], samples[MILLION], restored[MILLION];
static uint64_t spans[VG_SPAN_STORE_WORDS(SPANS)], repairs[VG_REPAIR_STORE_WORDS(REPAIRS)];
static double monitor[VG_MONITOR_STORE_WORDS(CHANNELS)];

static uint64_t drawn = 0x9e3779b97f4a7c15;

static uint64_t draw(void) {
    drawn ^= drawn << 13;
    drawn ^= drawn >> 7;
    drawn ^= drawn << 17;
    return drawn;
}

/* from -1 to 1 */
static float unit(void) { return (float)(draw() >> 40) / (float)(1 << 23) - 1.0f; }

static uint64_t word(float re, float im) {
    float parts[2] = {re, im};
    uint64_t w;
    memcpy(&w, parts, sizeof w);
    return w;
}

static uint64_t bits(double x) {
    uint64_t w;
    memcpy(&w, &x, sizeof w);
    return w;
}

static uint64_t scaled(uint64_t w, float by) {
    float parts[2];
    memcpy(parts, &w, sizeof w);
    return word(by * parts[0], by * parts[1]);
}

static uint64_t drawn_sample(void) {
    if (draw() % 2000 == 0) return word(6.0f + unit(), -6.0f + unit());
    return word(0.1f * unit() + 0.05f, 0.1f * unit() - 0.03f);
}

/* ---- what is timed */

struct row {
    const char *name;
    void (*run)(const struct library *, const struct row *);
    size_t n, block; /* n samples in calls of block, which divides n in the undos and the guard; or n hops of block channels */
    uint64_t impulse, dc, iq;
    int is_loud;
};

static void taken(uint64_t number) {
    if (number != 0) {
        printf("refused by %llu\n", (unsigned long long)number);
        exit(1);
    }
}

static struct vg_state made(const struct library *l, const struct row *r, size_t channels) {
    struct vg_config config = {r->impulse, r->dc, r->iq, 48000.0, 7.1e6, channels, 1, 1.02, 1.5, 7.1e6, SPANS, REPAIRS, VG_FIRST_EDITION};
    struct vg_state state;
    taken(l->make(&config, &state, spans, sizeof spans / 8, repairs, sizeof repairs / 8, monitor, VG_MONITOR_STORE_WORDS(channels)));
    return state;
}

static void stages(const struct library *l, const struct row *r) {
    struct vg_state state = made(l, r, 8);
    struct vg_condition_out out = {0, 0};
    size_t at = 0, end = 0;
    while (end < r->n) {
        end = end + r->block < r->n ? end + r->block : r->n;
        taken(l->condition(&state, samples + at, end - at, spans, sizeof spans / 8, repairs, sizeof repairs / 8, &out));
        at += out.ready;
    }
    /* the level too, which is all that an observing stage works out */
    struct vg_log_out log;
    l->log(&state, &log);
    samples[MILLION - 2] = bits(log.dc_re);
    samples[MILLION - 1] = bits(log.dc_im);
}

static void hops(const struct library *l, const struct row *r) {
    struct vg_state state = made(l, r, r->block);
    struct vg_hop_out out;
    size_t words = VG_MONITOR_STORE_WORDS(r->block);
    for (size_t k = 0; k < r->n; k++)
        taken(l->hop(&state, input, r->block, k * (r->block / 4), spans, sizeof spans / 8, monitor, words, &out));
    memcpy(samples, monitor, 8 * words);
}

static void undo_dc(const struct library *l, const struct row *r) {
    uint64_t place;
    for (size_t at = 0; at < r->n; at += r->block) taken(l->undo_dc(samples + at, r->block, 48000.0, restored + at, r->block, &place));
    memcpy(samples, restored, 8 * r->n);
}

static void undo_iq(const struct library *l, const struct row *r) {
    uint64_t place;
    for (size_t at = 0; at < r->n; at += r->block) taken(l->undo_iq(samples + at, r->block, -0.0098, 0.0129, &place));
}

static void guard(const struct library *l, const struct row *r) {
    for (size_t at = 0; at < r->n; at += r->block) l->guard(samples + at, r->block);
}

static const struct row rows[] = {
    {"impulse", stages, 131072, 1024, VG_APPLY, VG_OFF, VG_OFF, 0},
    {"dc", stages, 131072, 1024, VG_OFF, VG_APPLY, VG_OFF, 0},
    {"iq", stages, 131072, 1024, VG_OFF, VG_OFF, VG_APPLY, 0},
    {"all", stages, 131072, 1024, VG_APPLY, VG_APPLY, VG_APPLY, 0},
    {"dc observe", stages, 131072, 1024, VG_OFF, VG_OBSERVE, VG_OFF, 0},
    {"dc, loud", stages, 131072, 1024, VG_OFF, VG_APPLY, VG_OFF, 1},
    {"all, loud", stages, 131072, 1024, VG_APPLY, VG_APPLY, VG_APPLY, 1},
    {"dc undo", undo_dc, 131072, 1024, 0, 0, 0, 0},
    {"iq undo", undo_iq, 131072, 1024, 0, 0, 0, 0},
    {"guard", guard, 131072, 1024, 0, 0, 0, 0},
    {"impulse", stages, 20000, 1, VG_APPLY, VG_OFF, VG_OFF, 0},
    {"dc", stages, 20000, 1, VG_OFF, VG_APPLY, VG_OFF, 0},
    {"iq", stages, 20000, 1, VG_OFF, VG_OFF, VG_APPLY, 0},
    {"all", stages, 20000, 1, VG_APPLY, VG_APPLY, VG_APPLY, 0},
    {"hop", hops, 400, 512, VG_OFF, VG_OFF, VG_OBSERVE, 0},
    {"hop", hops, 100, 2048, VG_OFF, VG_OFF, VG_OBSERVE, 0},
    {"dc undo", undo_dc, MILLION, MILLION, 0, 0, 0, 0},
    {"iq undo", undo_iq, MILLION, MILLION, 0, 0, 0, 0},
    {"guard", guard, MILLION, MILLION, 0, 0, 0, 0},
};

/* ---- times */

/* This thread's processor time in nanoseconds. */
static double now(void) {
    struct timespec t;
    clock_gettime(CLOCK_THREAD_CPUTIME_ID, &t);
    return (double)t.tv_sec * 1e9 + (double)t.tv_nsec;
}

static double timed(const struct row *r, const struct library *l) {
    memcpy(samples, r->is_loud ? loud : input, 8 * (r->run == hops ? 0 : r->n));
    double start = now();
    r->run(l, r);
    return (now() - start) / (double)r->n;
}

static uint64_t written(void) {
    uint64_t sum = 0;
    for (size_t k = 0; k < MILLION; k++) sum = sum * 31 + samples[k];
    return sum;
}

static int ascending(const void *a, const void *b) {
    double x = *(const double *)a, y = *(const double *)b;
    return (x > y) - (x < y);
}

static double times[2][MOST_ROUNDS];

/* Whether both gave the same bits. */
static int show(const struct row *r, int rounds) {
    uint64_t sums[2] = {0, 0};
    for (int k = 0; k < rounds; k++) {
        times[0][k] = timed(r, &before);
        if (k == 0) sums[0] = written();
        times[1][k] = timed(r, &after);
        if (k == 0) sums[1] = written();
    }
    qsort(times[0], (size_t)rounds, sizeof(double), ascending);
    qsort(times[1], (size_t)rounds, sizeof(double), ascending);
    double a = times[0][rounds / 7], b = times[1][rounds / 7];
    printf("%-10s%9zu %10.2f %10.2f %6.3f%s\n", r->name, r->block, a, b, b / a, sums[0] == sums[1] ? "" : "   other bits");
    return sums[0] == sums[1];
}

int main(int count, char **arguments) {
    int rounds = count > 1 ? atoi(arguments[1]) : 61, same = 1;
    if (rounds < 1 || rounds > MOST_ROUNDS) return 2;
    for (size_t k = 0; k < MILLION; k++) {
        input[k] = drawn_sample();
        loud[k] = scaled(input[k], 64.0f);
    }
    printf("%-10s%9s %10s %10s %6s    nanoseconds a sample, or a hop\n", "", "a call", "before", "after", "ratio");
    for (size_t k = 0; k < sizeof rows / sizeof rows[0]; k++) same &= show(&rows[k], rounds);
    return same ? 0 : 1;
}
