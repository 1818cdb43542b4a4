// Calls every function of the library with fit and unfit lengths and numbers, and compares the answer and every lent word.
// It is C and C++: compare/c/run compiles it as both.
#include "vatgorge.h"
#include <inttypes.h>
#include <math.h>
#include <stdio.h>
#include <string.h>

// ---- what is lent

// The chain that most checks use, and a recording's.
enum { SPANS = 4, REPAIRS = 4, CHANNELS = 16 };
enum { SPAN_WORDS = VG_SPAN_STORE_WORDS(SPANS), REPAIR_WORDS = VG_REPAIR_STORE_WORDS(REPAIRS), MONITOR_WORDS = VG_MONITOR_STORE_WORDS(CHANNELS) };
enum { REPLAY_SPAN_WORDS = VG_SPAN_STORE_WORDS(256), REPLAY_REPAIR_WORDS = VG_REPAIR_STORE_WORDS(1024), REPLAY_MONITOR_WORDS = VG_MONITOR_STORE_WORDS(8) };
enum { HELD = 21, HEADER = 49 };

// Everything that is lent, with a word to spare behind each part. There is no padding: it is compared as bytes.
static struct lent {
    struct vg_config config;
    uint64_t behind_config;
    struct vg_state state;
    uint64_t behind_state;
    uint64_t samples[128], undone[128];
    uint64_t channels[CHANNELS + 8];
    uint64_t spans[REPLAY_SPAN_WORDS + 8], repairs[REPLAY_REPAIR_WORDS + 8];
    double monitor[MONITOR_WORDS + 8];
    struct vg_condition_out call;
    uint64_t behind_call;
    struct vg_hop_out hop;
    uint64_t behind_hop;
    struct vg_log_out log;
    uint64_t behind_log;
    struct vg_span_out span;
    uint64_t behind_span;
    uint64_t place, behind_place;
    uint8_t header[HEADER + 7], block[16];
} lent, was;

static long checks, failures;

static void same(int line, const char *text, uint64_t got, uint64_t want) {
    checks++;
    if (got == want) return;
    failures++;
    printf("FAILED  check.c:%d: %s is %" PRIu64 ", not %" PRIu64 "\n", line, text, got, want);
    fflush(stdout);
}

static void left(int line, const char *text) {
    const unsigned char *a = (const unsigned char *)&lent, *b = (const unsigned char *)&was;
    size_t i = 0;
    checks++;
    if (memcmp(a, b, sizeof lent) == 0) return;
    failures++;
    while (a[i] == b[i]) i++;
    printf("FAILED  check.c:%d: %s changes byte %zu of what is lent\n", line, text, i);
    fflush(stdout);
}

// What is lent as it stands before an operation, with values that no operation writes where its values go.
static void stand(void) {
    memset(&lent.call, 0x5a, sizeof lent.call);
    memset(&lent.hop, 0x5a, sizeof lent.hop);
    memset(&lent.span, 0x5a, sizeof lent.span);
    memset(&lent.place, 0x5a, sizeof lent.place);
    memcpy(&was, &lent, sizeof was);
}

#define SAME(got, want) same(__LINE__, #got, got, want)
#define TRUE(fact) same(__LINE__, #fact, (fact) ? 1u : 0u, 1)
// The answer, and nothing more yet.
#define ANSWERS(number, call) (stand(), same(__LINE__, #call, call, number))
// A part that the last operation may write, and then that it has written no other.
#define WRITES(part) memcpy(&was.part, &lent.part, sizeof was.part)
#define LEFT() left(__LINE__, "the last operation")
// The answer, and every lent word is as it was.
#define REFUSES(number, call) (ANSWERS(number, call), left(__LINE__, #call))

// ---- the operations on what is lent

static uint64_t make(size_t spans, size_t repairs, size_t monitor) {
    return vg_make(&lent.config, &lent.state, lent.spans, spans, lent.repairs, repairs, lent.monitor, monitor);
}

static uint64_t condition(size_t length, size_t spans, size_t repairs) {
    return vg_condition(&lent.state, lent.samples, length, lent.spans, spans, lent.repairs, repairs, &lent.call);
}

static uint64_t hop(size_t length, uint64_t start, size_t spans, size_t monitor) {
    return vg_hop(&lent.state, lent.channels, length, start, lent.spans, spans, lent.monitor, monitor, &lent.hop);
}

static uint64_t span(size_t spans, uint64_t stage, uint64_t mark, size_t i) {
    return vg_span(&lent.state, lent.spans, spans, stage, mark, i, &lent.span);
}

static uint64_t undo_repairs(size_t repairs, size_t length, uint64_t first) {
    return vg_undo_repairs(&lent.state, lent.repairs, repairs, lent.samples, length, first);
}

static uint64_t undo_dc(size_t length, double fs, size_t undone) {
    return vg_undo_dc(lent.samples, length, fs, lent.undone, undone, &lent.place);
}

static uint64_t undo_iq(size_t length, double re, double im) { return vg_undo_iq(lent.samples, length, re, im, &lent.place); }

static uint64_t start(size_t header, size_t spans, size_t repairs, size_t monitor) {
    return vg_start(lent.header, header, &lent.state, lent.spans, spans, lent.repairs, repairs, lent.monitor, monitor);
}

// ---- inputs

static uint64_t sample(float re, float im) {
    float parts[2];
    uint64_t word;
    parts[0] = re;
    parts[1] = im;
    memcpy(&word, parts, sizeof word);
    return word;
}

static void fill(uint64_t *samples, size_t length) {
    size_t i;
    for (i = 0; i < length; i++) samples[i] = sample(1.0f, 0.0f);
}

// Parts that no function takes as a sample, and one that only vg_guard and vg_condition refuse.
static const float unfit[] = {NAN, INFINITY, -INFINITY, 1.1e18f, -1.1e18f};
static const float loud = 1.1e17f;
enum { UNFIT = sizeof unfit / sizeof unfit[0] };

// Words that are no zeros everywhere, and a configuration.
static void begin(uint64_t impulse, uint64_t dc, uint64_t iq) {
    memset(&lent, 0x5a, sizeof lent);
    lent.config.impulse = impulse;
    lent.config.dc = dc;
    lent.config.iq = iq;
    lent.config.fs = 48000.0;
    lent.config.centre = 7.1e6;
    lent.config.n = CHANNELS;
    lent.config.calibrated = 1;
    lent.config.gain = 2.0;
    lent.config.phase = 0.0;
    lent.config.calibration_centre = 7.1e6;
    lent.config.spans = SPANS;
    lent.config.repairs = REPAIRS;
    lent.config.edition = VG_FIRST_EDITION;
}

static void fresh(uint64_t impulse, uint64_t dc, uint64_t iq) {
    begin(impulse, dc, iq);
    SAME(make(SPAN_WORDS, REPAIR_WORDS, MONITOR_WORDS), VG_ACCEPTED);
}

// The worked example's sixty samples: sample 20 is mended, and 21 are held.
static void sixty(void) {
    fresh(VG_APPLY, VG_OFF, VG_OFF);
    fill(lent.samples, 30);
    lent.samples[20] = sample(100.0f, 0.0f);
    SAME(condition(30, SPAN_WORDS, REPAIR_WORDS), VG_ACCEPTED);
    SAME(lent.call.ready, 9);
    fill(lent.samples, 51);
    SAME(condition(51, SPAN_WORDS, REPAIR_WORDS), VG_ACCEPTED);
    SAME(lent.call.ready, 30);
}

// ---- the checks, a function for each of the library's

static void sizes(void) {
    SAME(vg_state_words(), VG_STATE_WORDS);
    SAME(vg_config_words(), VG_CONFIG_WORDS);
    SAME(vg_condition_words(), VG_CONDITION_WORDS);
    SAME(vg_hop_words(), VG_HOP_WORDS);
    SAME(vg_span_words(), VG_SPAN_WORDS);
    SAME(vg_log_words(), VG_LOG_WORDS);
    SAME(vg_span_store_words(), VG_SPAN_STORE_WORDS(1));
    SAME(vg_repair_store_words(), VG_REPAIR_STORE_WORDS(1));
    SAME(vg_monitor_store_words(), VG_MONITOR_STORE_WORDS(1));
    SAME(vg_nothing(), VG_NOTHING);
}

// A mode as the library writes it, with this one in the place of off.
static uint64_t mode(uint64_t m, uint64_t off) {
    if (m == VG_OFF) return off;
    return m < VG_APPLY ? m : 2;
}

static void configurations(void) {
    uint64_t i, d, q;
    for (i = 0; i < 4; i++)
        for (d = 0; d < 4; d++)
            for (q = 0; q < 4; q++) {
                begin(i, d, q);
                REFUSES(i + d + q == 0, vg_is_off(&lent.config));
                memcpy(&was, &lent, sizeof was);
                was.config.impulse = mode(i, VG_OBSERVE);
                was.config.dc = mode(d, VG_OBSERVE);
                was.config.iq = mode(q, VG_OFF);
                vg_observing(&lent.config);
                LEFT();
            }
    begin(VG_OFF, VG_OFF, VG_OFF);
    lent.config.calibrated = 0;
    memcpy(&was, &lent, sizeof was);
    was.config.impulse = was.config.dc = VG_OBSERVE;
    was.config.gain = was.config.phase = was.config.calibration_centre = 0.0;
    vg_observing(&lent.config);
    LEFT();
    lent.config.fs = NAN;
    lent.config.calibrated = UINT64_MAX;
    vg_observing(&lent.config);
    TRUE(isnan(lent.config.fs));
    SAME(lent.config.calibrated, 1);
    for (i = 0; i < 5; i++) {
        begin(VG_APPLY, VG_APPLY, VG_APPLY);
        lent.config.edition = i < 4 ? i : UINT64_MAX;
        memcpy(&was, &lent, sizeof was);
        was.config.edition = i == VG_SECOND_EDITION ? VG_SECOND_EDITION : VG_FIRST_EDITION;
        vg_observing(&lent.config);
        LEFT();
    }
}

static void validating(void) {
    SAME(vg_validate(0.5, -45.0, 1.0), VG_ACCEPTED);
    SAME(vg_validate(2.0, 45.0, 1e300), VG_ACCEPTED);
    SAME(vg_validate(0.49, 99.0, -1.0), VG_BAD_GAIN);
    SAME(vg_validate(2.01, 0.0, 1.0), VG_BAD_GAIN);
    SAME(vg_validate(NAN, 0.0, 1.0), VG_BAD_GAIN);
    SAME(vg_validate(1.0, -45.1, -1.0), VG_BAD_PHASE);
    SAME(vg_validate(1.0, 45.1, 1.0), VG_BAD_PHASE);
    SAME(vg_validate(1.0, NAN, 1.0), VG_BAD_PHASE);
    SAME(vg_validate(1.0, 0.0, 0.0), VG_BAD_CENTRE);
    SAME(vg_validate(1.0, 0.0, -1.0), VG_BAD_CENTRE);
    SAME(vg_validate(1.0, 0.0, INFINITY), VG_BAD_CENTRE);
    SAME(vg_validate(1.0, 0.0, NAN), VG_BAD_CENTRE);
}

/* The words of the stores are to become 0. */
static void zeroed(size_t span_words, size_t repair_words, size_t monitor_words) {
    memset(was.spans, 0, 8 * span_words);
    memset(was.repairs, 0, 8 * repair_words);
    memset(was.monitor, 0, 8 * monitor_words);
}

static void making(void) {
    static const double rates[] = {0.0, 0.999, 10000000.5, -48000.0, INFINITY, NAN};
    struct vg_state applying;
    size_t k;
    begin(VG_APPLY, VG_APPLY, VG_APPLY);
    ANSWERS(VG_ACCEPTED, make(SPAN_WORDS, REPAIR_WORDS, MONITOR_WORDS));
    WRITES(state);
    zeroed(SPAN_WORDS, REPAIR_WORDS, MONITOR_WORDS);
    LEFT();
    applying = lent.state;
    begin(3, UINT64_MAX, 77);
    SAME(make(SPAN_WORDS, REPAIR_WORDS, MONITOR_WORDS), VG_ACCEPTED);
    TRUE(memcmp(&applying, &lent.state, sizeof applying) == 0);

    begin(VG_APPLY, VG_OFF, VG_OFF);
    for (k = 0; k <= SPAN_WORDS + 8; k++)
        if (k != SPAN_WORDS) REFUSES(VG_BAD_LENGTH, make(k, REPAIR_WORDS, MONITOR_WORDS));
    for (k = 0; k <= REPAIR_WORDS + 8; k++)
        if (k != REPAIR_WORDS) REFUSES(VG_BAD_LENGTH, make(SPAN_WORDS, k, MONITOR_WORDS));
    for (k = 0; k <= MONITOR_WORDS + 8; k++)
        if (k != MONITOR_WORDS) REFUSES(VG_BAD_LENGTH, make(SPAN_WORDS, REPAIR_WORDS, k));
    lent.config.repairs = 0;
    REFUSES(VG_BAD_CAPACITY, make(0, 0, 0));
    lent.config.repairs = 4097;
    REFUSES(VG_BAD_CAPACITY, make(SPAN_WORDS, REPAIR_WORDS, MONITOR_WORDS));
    lent.config.repairs = REPAIRS;
    lent.config.spans = 0;
    REFUSES(VG_BAD_CAPACITY, make(0, REPAIR_WORDS, MONITOR_WORDS));
    lent.config.spans = UINT64_MAX;
    REFUSES(VG_BAD_CAPACITY, make(SPAN_WORDS, REPAIR_WORDS, MONITOR_WORDS));
    lent.config.n = 2049;
    REFUSES(VG_BAD_SIZE, make(SPAN_WORDS, REPAIR_WORDS, MONITOR_WORDS));
    lent.config.n = UINT64_MAX;
    REFUSES(VG_BAD_SIZE, make(SPAN_WORDS, REPAIR_WORDS, MONITOR_WORDS));
    for (k = 0; k < sizeof rates / sizeof rates[0]; k++) {
        lent.config.fs = rates[k];
        REFUSES(VG_BAD_RATE, make(SPAN_WORDS, REPAIR_WORDS, MONITOR_WORDS));
    }
    lent.config.impulse = VG_OFF;
    REFUSES(VG_NOTHING, make(SPAN_WORDS, REPAIR_WORDS, MONITOR_WORDS));
    REFUSES(VG_NOTHING, make(0, 0, 0));
}

// What a call may write, of a slice of which so many places are ready.
static void written_by_call(uint64_t ready) {
    WRITES(state);
    WRITES(call.ready);
    TRUE(ready <= sizeof lent.samples / 8);
    memcpy(was.samples, lent.samples, ready <= sizeof lent.samples / 8 ? 8 * (size_t)ready : 0);
    memcpy(was.spans, lent.spans, 8 * SPAN_WORDS);
    memcpy(was.repairs, lent.repairs, 8 * REPAIR_WORDS);
    LEFT();
}

static void calls(void) {
    size_t k, part;
    // each length of a slice, on a fresh chain and behind 21 held samples
    for (k = 0; k <= 60; k++) {
        fresh(VG_APPLY, VG_APPLY, VG_APPLY);
        fill(lent.samples, 60);
        ANSWERS(VG_ACCEPTED, condition(k, SPAN_WORDS, REPAIR_WORDS));
        SAME(lent.call.ready, k < HELD ? 0 : k - HELD);
        written_by_call(lent.call.ready);
    }
    for (k = 0; k <= 60; k++) {
        sixty();
        if (k < HELD) {
            REFUSES(VG_SHORT, condition(k, SPAN_WORDS, REPAIR_WORDS));
            continue;
        }
        // the places of the held ones may have anything
        memset(lent.samples, 0xff, 8 * HELD);
        fill(lent.samples + HELD, 60 - HELD);
        ANSWERS(VG_ACCEPTED, condition(k, SPAN_WORDS, REPAIR_WORDS));
        SAME(lent.call.ready, k - HELD);
        written_by_call(k - HELD);
    }
    // lengths of the stores
    sixty();
    for (k = 0; k <= SPAN_WORDS + 8; k++)
        if (k != SPAN_WORDS) REFUSES(VG_BAD_LENGTH, condition(51, k, REPAIR_WORDS));
    for (k = 0; k <= REPAIR_WORDS + 8; k++)
        if (k != REPAIR_WORDS) REFUSES(VG_BAD_LENGTH, condition(51, SPAN_WORDS, k));
    REFUSES(VG_BAD_LENGTH, condition(0, 0, 0));
    // a sample that is not usable, at each new place
    for (part = 0; part < 2 * (UNFIT + 1); part++)
        for (k = HELD; k < 51; k++) {
            float x = part / 2 < UNFIT ? unfit[part / 2] : loud;
            fill(lent.samples, 51);
            lent.samples[50] = sample(NAN, NAN);
            lent.samples[k] = part % 2 ? sample(1.0f, x) : sample(x, 1.0f);
            ANSWERS(VG_UNUSABLE, condition(51, SPAN_WORDS, REPAIR_WORDS));
            SAME(lent.call.place, k);
            was.call.place = k;
            LEFT();
        }
    // words of the span store
    fill(lent.samples, 51);
    lent.spans[0] = UINT64_C(1) << 49;
    REFUSES(VG_BAD_STATE, condition(51, SPAN_WORDS, REPAIR_WORDS));
    REFUSES(VG_BAD_STATE, condition(0, SPAN_WORDS, REPAIR_WORDS));
    REFUSES(VG_BAD_LENGTH, condition(51, SPAN_WORDS + 1, REPAIR_WORDS));
    lent.spans[0] = 20;
    SAME(condition(51, SPAN_WORDS, REPAIR_WORDS), VG_ACCEPTED);
    // 2^48 samples: the words that count the 57 samples are set on
    fresh(VG_OFF, VG_OBSERVE, VG_OFF);
    fill(lent.samples, 60);
    SAME(condition(57, SPAN_WORDS, REPAIR_WORDS), VG_ACCEPTED);
    SAME(lent.call.ready, 57);
    for (k = 0; k < VG_STATE_WORDS; k++)
        if (lent.state.words[k] == 57) lent.state.words[k] = (UINT64_C(1) << 48) - 40;
    lent.samples[0] = sample(NAN, 0.0f);
    REFUSES(VG_TOO_MANY, condition(41, SPAN_WORDS, REPAIR_WORDS));
    lent.samples[0] = sample(1.0f, 0.0f);
    SAME(condition(40, SPAN_WORDS, REPAIR_WORDS), VG_ACCEPTED);
    vg_log(&lent.state, &lent.log);
    SAME(lent.log.seen, UINT64_C(1) << 48);
    REFUSES(VG_TOO_MANY, condition(1, SPAN_WORDS, REPAIR_WORDS));
}

// At one sample a second a window is full with its second hop. Channel 4 is strong, and 12 is its mirror.
static void listening(uint64_t iq) {
    size_t k;
    begin(VG_OFF, VG_OFF, iq);
    lent.config.fs = 1.0;
    SAME(make(SPAN_WORDS, REPAIR_WORDS, MONITOR_WORDS), VG_ACCEPTED);
    for (k = 0; k < CHANNELS + 8; k++) lent.channels[k] = sample(1.0f, 0.0f);
    lent.channels[4] = sample(1000.0f, 0.0f);
    lent.channels[12] = sample(100.0f, 0.0f);
}

static void hops(void) {
    size_t k, part;
    listening(VG_OBSERVE);
    ANSWERS(VG_ACCEPTED, hop(CHANNELS, 0, SPAN_WORDS, MONITOR_WORDS));
    WRITES(state);
    memcpy(was.monitor, lent.monitor, 8 * MONITOR_WORDS);
    was.hop.reported = 0;
    LEFT();
    // refused
    for (k = 0; k <= SPAN_WORDS + 8; k++)
        if (k != SPAN_WORDS) REFUSES(VG_BAD_LENGTH, hop(CHANNELS, 4, k, MONITOR_WORDS));
    for (k = 0; k <= MONITOR_WORDS + 8; k++)
        if (k != MONITOR_WORDS) REFUSES(VG_BAD_LENGTH, hop(CHANNELS, 4, SPAN_WORDS, k));
    for (k = 0; k <= CHANNELS + 8; k++)
        if (k != CHANNELS) REFUSES(VG_NOTHING, hop(k, 4, SPAN_WORDS, MONITOR_WORDS));
    REFUSES(VG_BAD_LENGTH, hop(0, 0, 0, 0));
    for (k = 0; k < 4; k++) REFUSES(VG_BAD_START, hop(CHANNELS, k, SPAN_WORDS, MONITOR_WORDS));
    REFUSES(VG_BAD_START, hop(CHANNELS, (UINT64_C(1) << 48) + 1, SPAN_WORDS, MONITOR_WORDS));
    REFUSES(VG_BAD_START, hop(CHANNELS, UINT64_MAX, SPAN_WORDS, MONITOR_WORDS));
    for (part = 0; part < 2 * UNFIT; part++)
        for (k = 0; k < CHANNELS; k++) {
            uint64_t kept = lent.channels[k], last = lent.channels[CHANNELS - 1];
            lent.channels[CHANNELS - 1] = sample(NAN, NAN);
            lent.channels[k] = part % 2 ? sample(1.0f, unfit[part / 2]) : sample(unfit[part / 2], 1.0f);
            ANSWERS(VG_UNUSABLE, hop(CHANNELS, 4, SPAN_WORDS, MONITOR_WORDS));
            SAME(lent.hop.place, k);
            was.hop.place = k;
            LEFT();
            REFUSES(VG_BAD_START, hop(CHANNELS, 3, SPAN_WORDS, MONITOR_WORDS));
            lent.channels[CHANNELS - 1] = last;
            lent.channels[k] = kept;
        }
    for (k = 0; k < 3 * CHANNELS; k++) {
        double kept = lent.monitor[k];
        lent.monitor[k] = 1.1e60;
        REFUSES(VG_BAD_STATE, hop(CHANNELS, 4, SPAN_WORDS, MONITOR_WORDS));
        lent.monitor[k] = NAN;
        REFUSES(VG_BAD_STATE, hop(CHANNELS, 4, SPAN_WORDS, MONITOR_WORDS));
        REFUSES(VG_BAD_LENGTH, hop(CHANNELS, 4, SPAN_WORDS, MONITOR_WORDS + 1));
        lent.monitor[k] = kept;
    }
    // the report, and its mark
    ANSWERS(VG_ACCEPTED, hop(CHANNELS, 4, SPAN_WORDS, MONITOR_WORDS));
    WRITES(state);
    memcpy(was.spans, lent.spans, 8 * SPAN_WORDS);
    memset(was.monitor, 0, 8 * MONITOR_WORDS);
    was.hop.reported = 1;
    was.hop.start = 0;
    was.hop.end = 8;
    was.hop.suspected = 1;
    was.hop.coherence = 1.0;
    was.hop.floor = 2.0;
    was.hop.strongest = 2e6;
    was.hop.mirror = 2e4;
    LEFT();
    SAME(span(SPAN_WORDS, VG_IQ, VG_UNCERTAIN, 0), VG_ACCEPTED);
    SAME(lent.span.start, 0);
    SAME(lent.span.length, 8);
    // a channel that a call would refuse, and nothing
    lent.channels[0] = sample(loud, loud);
    SAME(hop(CHANNELS, 8, SPAN_WORDS, MONITOR_WORDS), VG_ACCEPTED);
    listening(VG_APPLY);
    SAME(hop(CHANNELS, UINT64_C(1) << 48, SPAN_WORDS, MONITOR_WORDS), VG_ACCEPTED);
    fresh(VG_APPLY, VG_OFF, VG_OFF);
    REFUSES(VG_NOTHING, hop(CHANNELS, UINT64_MAX, SPAN_WORDS, MONITOR_WORDS));
    REFUSES(VG_BAD_LENGTH, hop(CHANNELS, 0, SPAN_WORDS, 0));
    begin(VG_OFF, VG_OFF, VG_OBSERVE);
    lent.config.n = 7;
    SAME(make(SPAN_WORDS, REPAIR_WORDS, VG_MONITOR_STORE_WORDS(7)), VG_ACCEPTED);
    REFUSES(VG_NOTHING, hop(7, 0, SPAN_WORDS, VG_MONITOR_STORE_WORDS(7)));
}

static void logs(void) {
    size_t k;
    // the worked example's
    sixty();
    memset(&lent.log, 0x5a, sizeof lent.log);
    memcpy(&was, &lent, sizeof was);
    memset(&was.log, 0, sizeof was.log);
    was.log.seen = 60;
    was.log.released = 39;
    was.log.held = HELD;
    was.log.repairs.count = 1;
    was.log.rings[VG_RING(VG_IMPULSE, VG_REPAIRED)].count = 1;
    was.log.counts[VG_RING(VG_IMPULSE, VG_REPAIRED)] = 1;
    vg_log(&lent.state, &lent.log);
    LEFT();
    // a sample of the DC stage, and a coefficient
    fresh(VG_OFF, VG_APPLY, VG_APPLY);
    lent.samples[0] = sample(2.0f, 0.0f);
    SAME(condition(1, SPAN_WORDS, REPAIR_WORDS), VG_ACCEPTED);
    memcpy(&was, &lent, sizeof was);
    memset(&was.log, 0, sizeof was.log);
    was.log.seen = was.log.released = 1;
    was.log.dc_runs = 1;
    was.log.dc_re = 1.0;
    was.log.dc_clamped = 1;
    was.log.iq = VG_IQ_CORRECTING;
    was.log.iq_re = -3.0 / 9.0;
    was.log.rings[VG_RING(VG_DC, VG_CORRECTED)].count = was.log.counts[VG_RING(VG_DC, VG_CORRECTED)] = 1;
    was.log.rings[VG_RING(VG_IQ, VG_CORRECTED)].count = was.log.counts[VG_RING(VG_IQ, VG_CORRECTED)] = 1;
    vg_log(&lent.state, &lent.log);
    LEFT();
    // clamped updates: of an observing stage too, and of all calls; by the norm, which is 1 where the power is just above it
    fresh(VG_OFF, VG_OBSERVE, VG_OFF);
    for (k = 0; k < 3; k++) {
        lent.samples[0] = sample(k % 2 == 0 ? 4.0f : -4.0f, 0.0f);
        SAME(condition(1, SPAN_WORDS, REPAIR_WORDS), VG_ACCEPTED);
        vg_log(&lent.state, &lent.log);
        SAME(lent.log.dc_clamped, k + 1);
    }
    fresh(VG_OFF, VG_APPLY, VG_OFF);
    lent.samples[0] = sample(1.0f, 1.0f / 67108864.0f);
    SAME(condition(1, SPAN_WORDS, REPAIR_WORDS), VG_ACCEPTED);
    vg_log(&lent.state, &lent.log);
    SAME(lent.log.dc_clamped, 0);
    // what else IQ settles
    fresh(VG_OFF, VG_OFF, VG_OBSERVE);
    vg_log(&lent.state, &lent.log);
    SAME(lent.log.iq, VG_IQ_OBSERVING);
    begin(VG_OFF, VG_OFF, VG_APPLY);
    lent.config.centre += 1.5;
    SAME(make(SPAN_WORDS, REPAIR_WORDS, MONITOR_WORDS), VG_ACCEPTED);
    vg_log(&lent.state, &lent.log);
    SAME(lent.log.iq, VG_IQ_WITHHELD);
    // any words
    for (k = 0; k < 256; k++) {
        memset(&lent.state, (int)k, sizeof lent.state);
        memcpy(&was, &lent, sizeof was);
        vg_log(&lent.state, &lent.log);
        WRITES(log);
        LEFT();
    }
}

// Eight clicks, two samples each: a ring holds the newest four.
static void spans(void) {
    uint64_t stage, mark;
    size_t k;
    fresh(VG_OBSERVE, VG_OFF, VG_OFF);
    for (k = 0; k < 8; k++) {
        fill(lent.samples, 64);
        lent.samples[30] = lent.samples[31] = sample(100.0f, 0.0f);
        SAME(condition(64, SPAN_WORDS, REPAIR_WORDS), VG_ACCEPTED);
        SAME(lent.call.ready, 64);
    }
    vg_log(&lent.state, &lent.log);
    SAME(lent.log.counts[VG_RING(VG_IMPULSE, VG_FLAGGED)], 16);
    SAME(lent.log.rings[VG_RING(VG_IMPULSE, VG_FLAGGED)].count, 4);
    SAME(lent.log.rings[VG_RING(VG_IMPULSE, VG_FLAGGED)].dropped, 4);
    SAME(lent.log.dropped, 4);
    for (k = 0; k < 4; k++) {
        ANSWERS(VG_ACCEPTED, span(SPAN_WORDS, VG_IMPULSE, VG_FLAGGED, k));
        was.span.start = 64 * (k + 4) + 30;
        was.span.length = 2;
        LEFT();
    }
    REFUSES(VG_NOTHING, span(SPAN_WORDS, VG_IMPULSE, VG_FLAGGED, 4));
    REFUSES(VG_NOTHING, span(SPAN_WORDS, VG_IMPULSE, VG_FLAGGED, SIZE_MAX));
    for (stage = 0; stage < 5; stage++)
        for (mark = 0; mark < 6; mark++)
            if (stage != VG_IMPULSE || mark != VG_FLAGGED) REFUSES(VG_NOTHING, span(SPAN_WORDS, stage, mark, 0));
    for (k = 0; k <= SPAN_WORDS + 8; k++)
        if (k != SPAN_WORDS) REFUSES(VG_NOTHING, span(k, VG_IMPULSE, VG_FLAGGED, 0));
    // numbers above the last
    begin(VG_OFF, VG_OFF, VG_APPLY);
    lent.config.calibrated = 0;
    SAME(make(SPAN_WORDS, REPAIR_WORDS, MONITOR_WORDS), VG_ACCEPTED);
    fill(lent.samples, 5);
    SAME(condition(5, SPAN_WORDS, REPAIR_WORDS), VG_ACCEPTED);
    SAME(span(SPAN_WORDS, UINT64_MAX, UINT64_MAX, 0), VG_ACCEPTED);
    SAME(lent.span.start, 0);
    SAME(lent.span.length, 5);
}

static void repair_undo(void) {
    size_t k;
    sixty();
    SAME(lent.samples[11], sample(1.0f, 0.0f));
    for (k = 0; k <= REPAIR_WORDS + 8; k++)
        if (k != REPAIR_WORDS) REFUSES(VG_BAD_LENGTH, undo_repairs(k, 51, 9));
    // records of no length, of one that is too great, and of a start that is
    for (k = 0; k < 3; k++) {
        uint64_t start = lent.repairs[0], length = lent.repairs[1];
        if (k < 2) lent.repairs[1] = k == 0 ? 0 : 5;
        if (k == 2) lent.repairs[0] = (UINT64_C(1) << 48) + 1;
        REFUSES(VG_BAD_STATE, undo_repairs(REPAIR_WORDS, 51, 9));
        REFUSES(VG_BAD_LENGTH, undo_repairs(REPAIR_WORDS - 1, 51, 9));
        lent.repairs[0] = start;
        lent.repairs[1] = length;
    }
    // slices without sample 20, and with it
    REFUSES(VG_ACCEPTED, undo_repairs(REPAIR_WORDS, 0, 20));
    REFUSES(VG_ACCEPTED, undo_repairs(REPAIR_WORDS, 51, 21));
    REFUSES(VG_ACCEPTED, undo_repairs(REPAIR_WORDS, 51, UINT64_MAX));
    REFUSES(VG_ACCEPTED, undo_repairs(REPAIR_WORDS, 11, 9));
    ANSWERS(VG_ACCEPTED, undo_repairs(REPAIR_WORDS, 12, 9));
    was.samples[11] = sample(100.0f, 0.0f);
    LEFT();
}

// An undo with an unfit part at each place: 7 and that place; and what is told before 7, which leaves all.
#define EACH_UNFIT(undo, sooner, refused)                                                                            \
    for (part = 0; part < 2 * UNFIT; part++)                                                                           \
        for (k = 0; k < 32; k++) {                                                                                     \
            fill(lent.samples, 32);                                                                                    \
            lent.samples[31] = sample(NAN, NAN);                                                                       \
            lent.samples[k] = part % 2 ? sample(1.0f, unfit[part / 2]) : sample(unfit[part / 2], 1.0f);                \
            ANSWERS(VG_UNUSABLE, undo);                                                                                \
            SAME(lent.place, k);                                                                                       \
            was.place = k;                                                                                             \
            LEFT();                                                                                                    \
            REFUSES(sooner, refused);                                                                                  \
        }

static void dc_undo(void) {
    size_t k, part;
    begin(VG_OFF, VG_OFF, VG_OFF);
    // document 01's case: the stage writes 0.5 and 0 for 0.5 twice
    lent.samples[0] = sample(0.5f, 0.0f);
    lent.samples[1] = sample(0.0f, 0.0f);
    ANSWERS(VG_ACCEPTED, undo_dc(2, 48000.0, 2));
    was.undone[0] = was.undone[1] = sample(0.5f, 0.0f);
    LEFT();
    REFUSES(VG_ACCEPTED, undo_dc(0, 48000.0, 0));
    fill(lent.samples, 32);
    for (k = 0; k <= 40; k++)
        if (k != 32) REFUSES(VG_BAD_LENGTH, undo_dc(32, 48000.0, k));
    REFUSES(VG_BAD_RATE, undo_dc(32, 0.5, 31));
    REFUSES(VG_BAD_RATE, undo_dc(32, 10000001.0, 32));
    REFUSES(VG_BAD_RATE, undo_dc(32, NAN, 32));
    EACH_UNFIT(undo_dc(32, 48000.0, 32), VG_BAD_LENGTH, undo_dc(32, 48000.0, 33));
}

static void iq_undo(void) {
    static const double unfit_parts[] = {1.0, -1.0, 1e200, INFINITY, NAN};
    size_t k, part;
    uint64_t corrected;
    // what the stage corrects is there again
    fresh(VG_OFF, VG_OFF, VG_APPLY);
    fill(lent.samples, 32);
    SAME(condition(32, SPAN_WORDS, REPAIR_WORDS), VG_ACCEPTED);
    corrected = lent.samples[0];
    SAME(corrected, sample(4.0f / 3.0f, 0.0f));
    vg_log(&lent.state, &lent.log);
    ANSWERS(VG_ACCEPTED, undo_iq(32, lent.log.iq_re, lent.log.iq_im));
    fill(was.samples, 32);
    LEFT();
    REFUSES(VG_ACCEPTED, undo_iq(0, 0.5, 0.5));
    for (k = 0; k < sizeof unfit_parts / sizeof unfit_parts[0]; k++) {
        REFUSES(VG_BAD_COEFFICIENT, undo_iq(32, unfit_parts[k], 0.0));
        REFUSES(VG_BAD_COEFFICIENT, undo_iq(0, 0.0, unfit_parts[k]));
    }
    EACH_UNFIT(undo_iq(32, 0.5, 0.5), VG_BAD_COEFFICIENT, undo_iq(32, 1.0, 0.0));
}

static void guarding(void) {
    size_t k, part;
    begin(VG_OFF, VG_OFF, VG_OFF);
    fill(lent.samples, 32);
    REFUSES(0, vg_guard(lent.samples, 0));
    REFUSES(0, vg_guard(lent.samples, 32));
    for (part = 0; part < 2 * (UNFIT + 1); part++)
        for (k = 0; k < 32; k++) {
            float x = part / 2 < UNFIT ? unfit[part / 2] : loud;
            fill(lent.samples, 33);
            lent.samples[k] = part % 2 ? sample(1.0f, x) : sample(x, 1.0f);
            lent.samples[32] = sample(x, x);
            ANSWERS(1, vg_guard(lent.samples, 32));
            was.samples[k] = 0;
            LEFT();
        }
}

// A header: impulse applies, DC observes, IQ is off, and there is a calibration.
static void head(void) {
    static const double numbers[] = {48000.0, 7.1e6, 1.25, -3.5, 7.2e6};
    static const uint8_t bytes[] = {'C', 'N', 'D', 1, 0, 2, 1, 0, 1};
    begin(VG_OFF, VG_OFF, VG_OFF);
    memcpy(lent.header, bytes, sizeof bytes);
    memcpy(lent.header + sizeof bytes, numbers, sizeof numbers);
}

static void headers(void) {
    size_t k;
    head();
    for (k = 0; k < HEADER; k++) REFUSES(VG_BAD_HEADER, vg_header(lent.header, k, &lent.config));
    for (k = HEADER; k <= HEADER + 7; k++) {
        memset(&lent.config, 0x5a, sizeof lent.config);
        ANSWERS(VG_ACCEPTED, vg_header(lent.header, k, &lent.config));
        was.config.impulse = VG_APPLY;
        was.config.dc = VG_OBSERVE;
        was.config.iq = VG_OFF;
        was.config.fs = 48000.0;
        was.config.centre = 7.1e6;
        was.config.n = 8;
        was.config.calibrated = 1;
        was.config.gain = 1.25;
        was.config.phase = -3.5;
        was.config.calibration_centre = 7.2e6;
        was.config.spans = 256;
        was.config.repairs = 1024;
        was.config.edition = VG_FIRST_EDITION;
        LEFT();
    }
    for (k = 0; k < 9; k++) {
        uint8_t kept = lent.header[k];
        lent.header[k] = 3;
        REFUSES(VG_BAD_HEADER, vg_header(lent.header, HEADER, &lent.config));
        REFUSES(VG_BAD_HEADER, start(HEADER, 0, 0, 0));
        lent.header[k] = kept;
    }
    // each low byte of a version, under the high bytes 0 to 3
    for (k = 0; k < 4 * 256; k++) {
        lent.header[3] = (uint8_t)(k % 256);
        lent.header[4] = (uint8_t)(k / 256);
        if (k == VG_FIRST_EDITION || k == VG_SECOND_EDITION) {
            SAME(vg_header(lent.header, HEADER, &lent.config), VG_ACCEPTED);
            SAME(lent.config.edition, k);
        } else {
            REFUSES(VG_BAD_HEADER, vg_header(lent.header, HEADER, &lent.config));
            REFUSES(VG_BAD_HEADER, start(HEADER, 0, 0, 0));
        }
    }
    head();
    lent.header[8] = 0;
    SAME(vg_header(lent.header, HEADER, &lent.config), VG_ACCEPTED);
    SAME(lent.config.calibrated, 0);
    TRUE(lent.config.gain == 0.0 && lent.config.phase == 0.0 && lent.config.calibration_centre == 0.0);
}

static void starts(void) {
    static struct vg_state started;
    double rate = 0.5;
    size_t k;
    head();
    for (k = 0; k < HEADER; k++) REFUSES(VG_BAD_HEADER, start(k, REPLAY_SPAN_WORDS, REPLAY_REPAIR_WORDS, REPLAY_MONITOR_WORDS));
    for (k = 0; k <= REPLAY_SPAN_WORDS + 8; k += k < REPLAY_SPAN_WORDS - 8 ? 97 : 1)
        if (k != REPLAY_SPAN_WORDS) REFUSES(VG_BAD_LENGTH, start(HEADER, k, REPLAY_REPAIR_WORDS, REPLAY_MONITOR_WORDS));
    for (k = 0; k <= REPLAY_REPAIR_WORDS + 8; k += k < REPLAY_REPAIR_WORDS - 8 ? 97 : 1)
        if (k != REPLAY_REPAIR_WORDS) REFUSES(VG_BAD_LENGTH, start(HEADER, REPLAY_SPAN_WORDS, k, REPLAY_MONITOR_WORDS));
    for (k = 0; k <= REPLAY_MONITOR_WORDS + 8; k++)
        if (k != REPLAY_MONITOR_WORDS) REFUSES(VG_BAD_LENGTH, start(HEADER, REPLAY_SPAN_WORDS, REPLAY_REPAIR_WORDS, k));
    ANSWERS(VG_ACCEPTED, start(HEADER, REPLAY_SPAN_WORDS, REPLAY_REPAIR_WORDS, REPLAY_MONITOR_WORDS));
    WRITES(state);
    zeroed(REPLAY_SPAN_WORDS, REPLAY_REPAIR_WORDS, REPLAY_MONITOR_WORDS);
    LEFT();
    // it is the chain that its header's configuration makes
    started = lent.state;
    SAME(vg_header(lent.header, HEADER, &lent.config), VG_ACCEPTED);
    memset(&lent.state, 0x5a, sizeof lent.state);
    SAME(make(REPLAY_SPAN_WORDS, REPLAY_REPAIR_WORDS, REPLAY_MONITOR_WORDS), VG_ACCEPTED);
    TRUE(memcmp(&started, &lent.state, sizeof started) == 0);
    memcpy(lent.header + 9, &rate, sizeof rate);
    REFUSES(VG_BAD_RATE, start(HEADER, 0, 0, 0));
    memset(lent.header + 5, VG_OFF, 3);
    REFUSES(VG_NOTHING, start(HEADER, 0, 0, 0));
}

// Blocks of 1000 with 2, 1, 1, 0 and 1 clicks, through a fresh chain: the first edition pauses one block, the second three.
static void five_blocks(size_t spans, size_t repairs, int second) {
    static const uint64_t clicks[] = {300, 600, 1500, 2500, 4500};
    uint64_t seen = 0;
    while (seen < 5021) {
        uint64_t held = seen == 0 ? 0 : HELD, more = seen < 5000 ? 100 : 21;
        size_t k;
        fill(lent.samples, held + more);
        for (k = 0; k < sizeof clicks / sizeof clicks[0]; k++)
            if (seen <= clicks[k] && clicks[k] < seen + more) lent.samples[held + clicks[k] - seen] = sample(100.0f, 0.0f);
        SAME(condition(held + more, spans, repairs), VG_ACCEPTED);
        seen += more;
    }
    vg_log(&lent.state, &lent.log);
    SAME(lent.log.counts[VG_RING(VG_IMPULSE, VG_REPAIRED)], second ? 3 : 4);
    SAME(lent.log.counts[VG_RING(VG_IMPULSE, VG_FLAGGED)], second ? 2 : 1);
    SAME(lent.log.counts[VG_RING(VG_IMPULSE, VG_UNCERTAIN)], second ? 3000 : 1000);
}

// By a configuration, and by a recording's version.
static void editions(void) {
    double rate = 1000.0;
    uint64_t edition;
    for (edition = 0; edition < 4; edition++) {
        begin(VG_APPLY, VG_OFF, VG_OFF);
        lent.config.fs = rate;
        lent.config.edition = edition;
        SAME(make(SPAN_WORDS, REPAIR_WORDS, MONITOR_WORDS), VG_ACCEPTED);
        five_blocks(SPAN_WORDS, REPAIR_WORDS, edition == VG_SECOND_EDITION);
    }
    for (edition = VG_FIRST_EDITION; edition <= VG_SECOND_EDITION; edition++) {
        head();
        lent.header[3] = (uint8_t)edition;
        memcpy(lent.header + 9, &rate, sizeof rate);
        SAME(start(HEADER, REPLAY_SPAN_WORDS, REPLAY_REPAIR_WORDS, REPLAY_MONITOR_WORDS), VG_ACCEPTED);
        five_blocks(REPLAY_SPAN_WORDS, REPLAY_REPAIR_WORDS, edition == VG_SECOND_EDITION);
    }
}

// A header alone: the log of a fresh chain, which says what became of the calibration.
static void header_alone(void) {
    static const double centres[] = {7.1e6, 7.1e6 + 1.5};
    static const uint64_t settled[] = {VG_IQ_CORRECTING, VG_IQ_WITHHELD};
    uint8_t mode;
    size_t k;
    for (k = 0; k < 2; k++)
        for (mode = VG_OFF; mode <= VG_APPLY; mode++) {
            head();
            lent.header[6] = mode;
            lent.header[7] = VG_APPLY;
            memcpy(lent.header + 41, &centres[k], sizeof centres[k]);
            SAME(start(HEADER, REPLAY_SPAN_WORDS, REPLAY_REPAIR_WORDS, REPLAY_MONITOR_WORDS), VG_ACCEPTED);
            stand();
            memset(&lent.log, 0x5a, sizeof lent.log);
            vg_log(&lent.state, &lent.log);
            memset(&was.log, 0, sizeof was.log);
            was.log.dc_runs = mode != VG_OFF;
            was.log.iq = settled[k];
            if (settled[k] == VG_IQ_CORRECTING) {
                TRUE(lent.log.iq_re != 0.0 && lent.log.iq_im != 0.0);
                was.log.iq_re = lent.log.iq_re;
                was.log.iq_im = lent.log.iq_im;
            }
            LEFT();
        }
}

static void ends(void) {
    size_t k;
    head();
    for (k = 0; k <= 16; k++) {
        ANSWERS(k % 8 == 0 ? VG_ACCEPTED : VG_BROKEN_TAIL, vg_end(lent.block, k));
        LEFT();
    }
}

// Any words at all as a state: an operation is accepted, or answers a number of its own and leaves every word.
static void any(const struct lent *spoilt) {
    uint64_t number;
    memcpy(&lent, spoilt, sizeof lent);
    stand();
    number = condition(51, SPAN_WORDS, REPAIR_WORDS);
    TRUE(number == VG_ACCEPTED || (VG_BAD_LENGTH <= number && number <= VG_TOO_MANY));
    if (number == VG_UNUSABLE) WRITES(call.place);
    if (number == VG_ACCEPTED)
        written_by_call(lent.call.ready);
    else
        LEFT();
    memcpy(&lent, spoilt, sizeof lent);
    stand();
    number = hop(CHANNELS, 64, SPAN_WORDS, MONITOR_WORDS);
    TRUE(number == VG_ACCEPTED || number == VG_NOTHING || number == VG_BAD_LENGTH || number == VG_BAD_STATE || number == VG_UNUSABLE || number == VG_BAD_START);
    if (number == VG_UNUSABLE) WRITES(hop.place);
    if (number == VG_ACCEPTED) {
        WRITES(state);
        WRITES(hop);
        memcpy(was.spans, lent.spans, 8 * SPAN_WORDS);
        memcpy(was.monitor, lent.monitor, 8 * MONITOR_WORDS);
    }
    LEFT();
    memcpy(&lent, spoilt, sizeof lent);
    stand();
    number = undo_repairs(REPAIR_WORDS, 51, 9);
    TRUE(number == VG_ACCEPTED || number == VG_BAD_LENGTH || number == VG_BAD_STATE);
    if (number == VG_ACCEPTED) memcpy(was.samples, lent.samples, 8 * 51);
    LEFT();
}

static void each_word(void) {
    static const uint64_t words[] = {0, 1, 2, 1000, UINT64_C(1) << 48, UINT64_C(1) << 63, UINT64_MAX, UINT64_C(0x7ff8000000000000)};
    static struct lent spoilt;
    size_t k, w;
    memcpy(&spoilt, &lent, sizeof spoilt);
    for (k = 0; k < VG_STATE_WORDS; k++) {
        uint64_t kept = spoilt.state.words[k];
        for (w = 0; w < sizeof words / sizeof words[0]; w++) {
            spoilt.state.words[k] = words[w];
            any(&spoilt);
        }
        spoilt.state.words[k] = kept;
    }
    memcpy(&lent, &spoilt, sizeof lent);
}

static void states(void) {
    uint64_t random = 88172645463325252u;
    size_t k, w;
    listening(VG_OBSERVE);
    fill(lent.samples, 51);
    SAME(condition(51, SPAN_WORDS, REPAIR_WORDS), VG_ACCEPTED);
    SAME(hop(CHANNELS, 0, SPAN_WORDS, MONITOR_WORDS), VG_ACCEPTED);
    each_word();
    sixty();
    each_word();
    // no state: all words alike, and at random
    for (k = 0; k < 1256; k++) {
        memset(&lent.state, (int)(k % 256), sizeof lent.state);
        for (w = 0; w < VG_STATE_WORDS && k >= 256; w++) {
            random ^= random << 13;
            random ^= random >> 7;
            random ^= random << 17;
            lent.state.words[w] = random;
        }
        REFUSES(VG_BAD_STATE, condition(51, SPAN_WORDS, REPAIR_WORDS));
        REFUSES(VG_BAD_STATE, condition(0, 0, 0));
        REFUSES(VG_BAD_STATE, hop(CHANNELS, 64, SPAN_WORDS, MONITOR_WORDS));
        REFUSES(VG_BAD_STATE, undo_repairs(REPAIR_WORDS, 51, 9));
    }
}

int main(void) {
    sizes();
    configurations();
    validating();
    making();
    calls();
    hops();
    logs();
    spans();
    repair_undo();
    dc_undo();
    iq_undo();
    guarding();
    headers();
    starts();
    editions();
    header_alone();
    ends();
    states();
    printf("%ld checks, %ld failed\n", checks, failures);
    return failures != 0;
}
