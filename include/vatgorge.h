/* Vatgorge: the input conditioner of sealed shortwave receivers, as a library for C and C++.
 *
 * Samples. A sample is a 64-bit word: the bits of re, a float, in the low half, and those of im in the high half. On a
 * little-endian machine an array of samples is an array of interleaved floats: re, im, re, im, and so on. A channel
 * of a hop is such a word too. Samples are numbered from 0, in the order in which they are received.
 *
 * Lending. The library has no memory of its own and no heap. The caller lends it the state, the stores and the structs
 * that values go to: pointers to memory that is there, aligned to 8 bytes (bytes: to 1), no two of them overlapping where one
 * is written. A length counts words (bytes, where bytes are lent); it is tested, a pointer cannot be. Everything stands in
 * what is lent, so chains do not know of each other, and each may have a thread of its own.
 *
 * Answers. An operation answers with a number: 0 if it was accepted, VG_NOTHING if there was nothing to do, or else what
 * refused it. A function names its answers in the order of its tests. Whatever is not accepted leaves every lent word as it was,
 * except that number 7 writes `place`. An accepted operation writes what its function says, and leaves all other words.
 *
 * Whatever the words, lengths and numbers are, every function ends, with one of the answers that it names. */
#ifndef VATGORGE_H
#define VATGORGE_H

#include <stddef.h>
#include <stdint.h>

#ifdef __cplusplus
#define VG_SAME(a, b, text) static_assert((a) == (b), text)
extern "C" {
#else
#define VG_SAME(a, b, text) _Static_assert((a) == (b), text)
#endif

/* ---- numbers */

enum {
    VG_ACCEPTED = 0,
    VG_BAD_RATE = 1,         /* fs is not from 1 to 10,000,000 */
    VG_BAD_SIZE = 2,         /* n is above 2048 */
    VG_BAD_CAPACITY = 3,     /* spans is not from 1 to 256, or repairs not from 1 to 4096 */
    VG_BAD_LENGTH = 4,       /* a store has not the length that its capacity asks for, or two slices differ in length */
    VG_BAD_STATE = 5,        /* a state, or words of a store, that no sequence of operations leaves */
    VG_SHORT = 6,            /* a slice is shorter than what is held */
    VG_UNUSABLE = 7,         /* a sample or channel is NaN, infinite or too large; `place` says which is the first */
    VG_TOO_MANY = 8,         /* more than 2^48 samples in all */
    VG_BAD_START = 9,        /* a hop starts after 2^48, or before the last one's end */
    VG_BAD_COEFFICIENT = 10, /* a coefficient is not finite, or its power is not below 1 - 1e-12 */
    VG_BAD_GAIN = 11,        /* a calibration's gain is not from 0.5 to 2 */
    VG_BAD_PHASE = 12,       /* its phase is not from -45 to 45 degrees */
    VG_BAD_CENTRE = 13,      /* its centre is not finite and above 0 */
    VG_BAD_HEADER = 14,      /* under 49 bytes, or a mark, version, mode or calibration byte that is none */
    VG_BROKEN_TAIL = 17,     /* a recording ends in the middle of a sample */
    VG_NOTHING = 100         /* nothing to do; at its function is said when */
};

/* ---- sizes, in words of 8 bytes */

#define VG_STATE_WORDS 172
#define VG_CONFIG_WORDS 13
#define VG_CONDITION_WORDS 2
#define VG_HOP_WORDS 9
#define VG_SPAN_WORDS 2
#define VG_LOG_WORDS 63

/* The stores: so many words for each span that a ring may hold (there are twelve rings), for each repair, and for each
 * channel of a hop (these are doubles). */
#define VG_SPAN_STORE_WORDS(spans) (24u * (spans))
#define VG_REPAIR_STORE_WORDS(repairs) (6u * (repairs))
#define VG_MONITOR_STORE_WORDS(n) (4u * (n))

/* The same as the library has them, and VG_NOTHING: for a test that header and library belong together. The stores' are for
 * one span, one repair and one channel. */
uint64_t vg_nothing(void);
uint64_t vg_state_words(void);
uint64_t vg_config_words(void);
uint64_t vg_condition_words(void);
uint64_t vg_hop_words(void);
uint64_t vg_span_words(void);
uint64_t vg_log_words(void);
uint64_t vg_span_store_words(void);
uint64_t vg_repair_store_words(void);
uint64_t vg_monitor_store_words(void);

/* ---- a configuration */

/* How a stage runs. Every other number applies, too. */
enum { VG_OFF = 0, VG_OBSERVE = 1, VG_APPLY = 2 };

/* The edition of the rule by which the impulse stage pauses. A block is a second of samples. If more than 0.001 of them are flagged as
 * clicks, nothing is mended in the next block. Under the second edition that goes on until a paused block has at most 0.0005 flagged.
 * Every other number is the first, too. */
enum { VG_FIRST_EDITION = 1, VG_SECOND_EDITION = 2 };

struct vg_config {
    uint64_t impulse, dc, iq;  /* VG_OFF, VG_OBSERVE, VG_APPLY */
    double fs;                 /* samples a second */
    double centre;             /* the receiver's centre, in Hz */
    uint64_t n;                /* channels of a hop, up to 2048; below 8 there are no hops */
    uint64_t calibrated;       /* 0: there is no calibration, and the next three are not read */
    double gain, phase;        /* the calibration; its phase in degrees */
    double calibration_centre; /* in Hz; within 1 Hz of centre, or IQ withholds its correction */
    uint64_t spans;            /* spans that each ring of the log holds, 1 to 256 */
    uint64_t repairs;          /* repairs that the log holds, 1 to 4096 */
    uint64_t edition;          /* VG_FIRST_EDITION, VG_SECOND_EDITION */
};
VG_SAME(sizeof(struct vg_config), 8 * VG_CONFIG_WORDS, "the words of a configuration");

/* 1 if no stage runs, and 0 else. */
uint64_t vg_is_off(const struct vg_config *config);

/* Lets impulse and dc observe where they were off. All words are written anew: a mode above 2 becomes 2, the edition 1 or 2,
 * calibrated 0 or 1, where it is 0 the calibration's numbers become 0, and a NaN may become another NaN. */
void vg_observing(struct vg_config *config);

/* Whether a calibration is in range: 0, or 11, 12, 13. */
uint64_t vg_validate(double gain, double phase, double centre);

/* ---- a chain */

/* A chain's state, which is for the library alone. It may be copied, stored, and given back. Any words may be given: those
 * that are no state are refused by 5. */
struct vg_state {
    uint64_t words[VG_STATE_WORDS];
};
VG_SAME(sizeof(struct vg_state), 8 * VG_STATE_WORDS, "the words of a state");

/* Makes a chain. The stores have VG_SPAN_STORE_WORDS(config->spans), VG_REPAIR_STORE_WORDS(config->repairs) and
 * VG_MONITOR_STORE_WORDS(config->n) words.
 * Answers 0, VG_NOTHING (all stages are off), 1, 2, 3, 4.
 * Accepted: the state is written, and every word of the stores becomes 0. */
uint64_t vg_make(const struct vg_config *config, struct vg_state *state, uint64_t *spans, size_t span_words,
                 uint64_t *repairs, size_t repair_words, double *monitor, size_t monitor_words);

struct vg_condition_out {
    uint64_t ready; /* samples that are released, from the slice's first place on */
    uint64_t place; /* of the first sample that is not usable */
};
VG_SAME(sizeof(struct vg_condition_out), 8 * VG_CONDITION_WORDS, "the words of a call");

/* A call. The slice has places for the held samples, and behind them the new ones. What stands in the places of the held
 * ones is never read. A sample is usable if no part is above 1.0e17 in size (vg_guard replaces those that are not).
 * Answers 0, 5, 4, 6, 8, 7.
 * Accepted: state, spans, repairs, out->ready, and the first out->ready places of the slice are written. These are the
 * released samples. The others, length - out->ready of them, are held now: the next slice begins with their places. */
uint64_t vg_condition(struct vg_state *state, uint64_t *samples, size_t length, uint64_t *spans, size_t span_words,
                      uint64_t *repairs, size_t repair_words, struct vg_condition_out *out);

struct vg_hop_out {
    uint64_t reported; /* 1 if there is a report, and 0 else */
    /* the report */
    uint64_t start, end; /* its window: the first hop's start, the last one's end */
    uint64_t suspected;  /* 1 if a mirror image is suspected, and 0 else */
    double coherence, floor, strongest, mirror;
    /* no part of it */
    uint64_t place; /* of the first channel that is not within 1e18 */
};
VG_SAME(sizeof(struct vg_hop_out), 8 * VG_HOP_WORDS, "the words of a hop");

/* A hop: n channels, of the samples from number start on; n/4 samples later it ends. A report is due when 5 seconds are full.
 * Answers 0, 5, 4, VG_NOTHING (IQ is off, or there are not n channels, or n is below 8), 9, 7.
 * Accepted: state, monitor and out->reported are written; with a report all of out but `place`, and with a suspected
 * window, while IQ observes, spans. */
uint64_t vg_hop(struct vg_state *state, const uint64_t *channels, size_t length, uint64_t start, uint64_t *spans,
                size_t span_words, double *monitor, size_t monitor_words, struct vg_hop_out *out);

/* ---- the log */

/* Stages, marks, and the ring that has a stage's spans of a mark. */
enum { VG_IMPULSE = 0, VG_DC = 1, VG_IQ = 2 };
enum { VG_REPAIRED = 0, VG_FLAGGED = 1, VG_CORRECTED = 2, VG_UNCERTAIN = 3 };
#define VG_RING(stage, mark) (4 * (stage) + (mark))

/* What became of IQ. */
enum { VG_IQ_OFF = 0, VG_IQ_OBSERVING = 1, VG_IQ_CORRECTING = 2, VG_IQ_WITHHELD = 3 };

struct vg_ring {
    uint64_t head, count; /* the place of the oldest entry, and how many there are */
    uint64_t dropped;     /* entries that were dropped to make room */
};

struct vg_log_out {
    uint64_t seen, released, held; /* samples */
    uint64_t dropped;              /* spans, of all rings */
    struct vg_ring repairs;
    uint64_t long_runs;  /* clicks that were too long to mend */
    uint64_t dc_runs;    /* 0: the DC stage is off, and there is no level */
    double dc_re, dc_im; /* the level, or 0 */
    uint64_t dc_clamped; /* samples whose update of the level was held to full scale */
    uint64_t iq;         /* VG_IQ_OFF, .. */
    double iq_re, iq_im; /* the coefficient of VG_IQ_CORRECTING, or 0 */
    struct vg_ring rings[12];
    uint64_t counts[12]; /* samples with a mark, by VG_RING */
};
VG_SAME(sizeof(struct vg_log_out), 8 * VG_LOG_WORDS, "the words of a log");

/* Writes the log of a state, whatever its words: all of out. */
void vg_log(const struct vg_state *state, struct vg_log_out *out);

struct vg_span_out {
    uint64_t start, length; /* the number of its first sample, and how many there are */
};
VG_SAME(sizeof(struct vg_span_out), 8 * VG_SPAN_WORDS, "the words of a span");

/* Span number i of a ring, the oldest first. A stage above 2 is IQ, a mark above 3 is uncertain.
 * Answers 0, or VG_NOTHING (there is no such span, or the store's length or the ring is unfit).
 * Accepted: out is written. */
uint64_t vg_span(const struct vg_state *state, const uint64_t *spans, size_t span_words, uint64_t stage, uint64_t mark,
                 size_t i, struct vg_span_out *out);

/* ---- undoing */

/* Lifts the repairs that the log holds out of a slice, whose first sample has the number first.
 * Answers 0, 5, 4.
 * Accepted: the original samples are written to their places; those outside the slice are skipped. */
uint64_t vg_undo_repairs(const struct vg_state *state, const uint64_t *repairs, size_t repair_words, uint64_t *samples,
                         size_t length, uint64_t first);

/* Undoes an applying DC stage: y is all that it wrote, from sample 0 on, at the rate fs. No part is above 1e18 in size.
 * Answers 0, 1, 4 (the lengths differ), 7.
 * Accepted: all of x is written. Number 7 writes *place.
 * A part of at most 1 in size comes back within 2^-22, if that part of the stage's level is at most 1 in size too. */
uint64_t vg_undo_dc(const uint64_t *y, size_t length, double fs, uint64_t *x, size_t x_length, uint64_t *place);

/* Undoes an IQ correction by the coefficient (re, im), in place; the log says it. No part is above 1e18 in size.
 * Answers 0, 10, 7.
 * Accepted: all samples are written. Number 7 writes *place. */
uint64_t vg_undo_iq(uint64_t *samples, size_t length, double re, double im, uint64_t *place);

/* ---- samples */

/* Replaces every sample that is not usable by 0, and answers how many there were. */
uint64_t vg_guard(uint64_t *samples, size_t length);

/* ---- recordings */

/* The configuration that a recording's header says, which is its first 49 bytes; others are not read.
 * Answers 0, 14.
 * Accepted: the configuration is written, with n = 8, 256 spans, 1,024 repairs, and the version's number as the edition. */
uint64_t vg_header(const uint8_t *bytes, size_t length, struct vg_config *config);

/* Makes the fresh chain of a recording, from its header, which is its first 49 bytes; others are not read. Its samples go through
 * vg_guard and vg_condition. The log of the fresh chain says what IQ settled, so a header alone checks a calibration. The stores
 * are those of n = 8, 256 spans and 1,024 repairs.
 * Answers 0, 14, VG_NOTHING (all stages are off), 1, 4.
 * Accepted: the state is written, and every word of the stores becomes 0. */
uint64_t vg_start(const uint8_t *header, size_t length, struct vg_state *state, uint64_t *spans, size_t span_words,
                  uint64_t *repairs, size_t repair_words, double *monitor, size_t monitor_words);

/* Whether a recording was cut off in the middle of a sample, by its last block or all its bytes behind the header; every block
 * before the last has whole samples. 17 comes before all that the start and the calls answered, except 14. A recording that was
 * cut between two samples answers 0, and so does one without samples.
 * Answers 0, 17 (behind the block's whole samples there are 1 to 7 bytes). */
uint64_t vg_end(const uint8_t *block, size_t length);

#ifdef __cplusplus
}
#endif
#undef VG_SAME

#endif
