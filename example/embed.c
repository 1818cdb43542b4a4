// A worked example: sixty samples with one click, mended in two calls, the log read, and the click lifted out again.
#include "vatgorge.h"
#include <inttypes.h>
#include <stdio.h>
#include <stdlib.h>
#include <string.h>

enum { SPANS = 4, REPAIRS = 4, CHANNELS = 8 };

// The state and the stores, which the caller owns and lends.
static struct vg_state state;
static uint64_t spans[VG_SPAN_STORE_WORDS(SPANS)];
static uint64_t repairs[VG_REPAIR_STORE_WORDS(REPAIRS)];
static double monitor[VG_MONITOR_STORE_WORDS(CHANNELS)];

// The sample (re, 0), as a word.
static uint64_t real(float re) {
    uint32_t bits;
    memcpy(&bits, &re, sizeof bits);
    return bits;
}

static void fill(uint64_t *samples, size_t length) {
    for (size_t i = 0; i < length; i++) samples[i] = real(1.0f);
}

static void accept(uint64_t number) {
    if (number == VG_ACCEPTED) return;
    fprintf(stderr, "refused by number %" PRIu64 "\n", number);
    exit(1);
}

static void call(uint64_t *samples, size_t length) {
    struct vg_condition_out out;
    accept(vg_condition(&state, samples, length, spans, VG_SPAN_STORE_WORDS(SPANS), repairs, VG_REPAIR_STORE_WORDS(REPAIRS), &out));
    printf("ready %" PRIu64 "\n", out.ready);
}

int main(void) {
    // at 48 kHz; the impulse stage mends, the others are off
    struct vg_config config = {.impulse = VG_APPLY, .fs = 48000.0, .centre = 7.1e6, .n = CHANNELS, .spans = SPANS, .repairs = REPAIRS,
                               .edition = VG_FIRST_EDITION};
    accept(vg_make(&config, &state, spans, VG_SPAN_STORE_WORDS(SPANS), repairs, VG_REPAIR_STORE_WORDS(REPAIRS), monitor,
                   VG_MONITOR_STORE_WORDS(CHANNELS)));

    // thirty samples, a click at 20: nine are released and 21 held
    uint64_t first[30];
    fill(first, 30);
    first[20] = real(100.0f);
    call(first, 30);

    // thirty more, behind the places of the held ones: samples 9 to 38 are released
    uint64_t second[51];
    fill(second, 51);
    call(second, 51);
    printf("sample 20 is %016" PRIx64 "\n", second[11]);

    struct vg_log_out log;
    vg_log(&state, &log);
    printf("seen %" PRIu64 "\nreleased %" PRIu64 "\nheld %" PRIu64 "\n", log.seen, log.released, log.held);
    struct vg_span_out click;
    accept(vg_span(&state, spans, VG_SPAN_STORE_WORDS(SPANS), VG_IMPULSE, VG_REPAIRED, 0, &click));
    printf("mended at %" PRIu64 "\n", click.start);

    // the repair lifted out again
    accept(vg_undo_repairs(&state, repairs, VG_REPAIR_STORE_WORDS(REPAIRS), second, 51, 9));
    printf("sample 20 was %016" PRIx64 "\n", second[11]);
}
