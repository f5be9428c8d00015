/* Malikoza tells a hot knife on a robot how fast it may go, and where it is when.
 *
 * Link with libmalikoza.a (x86-64). Every entry is total: nothing traps, nothing hangs, and what cannot be answered is
 * refused by a number. The entries keep no state, a walk's is the caller's: so several threads may call them at once.
 *
 * Doubles pass in two ways:
 *   - one double as its 64-bit pattern in a uint64_t: malikoza_pattern(x) makes it, malikoza_double(p) reads it;
 *   - many doubles as a byte list: a pointer, then a length in BYTES. Each double is eight bytes, low byte first. On x86-64
 *     an array of doubles is such a list already: pass (const uint8_t *)array and sizeof array. No alignment is needed.
 *
 * WARNING: C turns a double into a whole number, and back, without a word. malikoza_sqrt(2.0) is given the number 2, which
 * is the pattern of 2^-1073, and answers the root of that; malikoza_double(malikoza_sqrt(malikoza_pattern(2.0))) is meant.
 * gcc and clang tell of it with -Wconversion, but not where the double is a constant without a fraction, as here.
 *
 * NaN: every NaN pattern, of either sign and any payload, reads as NaN; a NaN is always written 7FF8000000000000.
 *
 * An entry that can refuse returns 0, or the refusal number, of which malikoza_refusal_text has a sentence. Success writes
 * the front of the output and no more; a refusal writes nothing, neither to the output nor to what is lent beside it.
 * docs/RULES.md has every rule in full, with worked figures.
 *
 * The caller answers for what no entry can test:
 *   - a pointer is not NULL, even where its length is 0, and as many bytes as its length says stand behind it;
 *   - what an entry writes to overlaps nothing else that it is given;
 *   - the processor rounds to nearest and keeps subnormals, as it does unless a program changes that (linking with gcc's
 *     -ffast-math does);
 *   - the thread has stack enough.
 *
 * Stack, in KiB, as measured: the least thread (Linux, x86-64) on which calls returned, and such refused ones as go deeper.
 * Small calls have up to 256 stations, 1,024 samples, 32 rows. The example `stack` of host/malikoza measures it.
 *
 *                        small calls    the largest
 *   malikoza_s_to_t               40             40
 *   malikoza_recover              24             24
 *   malikoza_walk_step            24             24
 *   every other entry     at most 16, the least thread that one can ask for
 */
#ifndef MALIKOZA_H
#define MALIKOZA_H

#include <stddef.h>
#include <stdint.h>
#include <string.h>

/* CHANGELOG.md has what each version changes for a caller. */
#define MALIKOZA_VERSION "0.5.0"

#ifdef __cplusplus
extern "C" {
#endif

/* Limits. A list has 2 stations at least, or 1 sample; a walk starts with 1 station. */
enum {
    MALIKOZA_MAX_ROWS = 256,
    MALIKOZA_MAX_STATIONS = 4096,
    MALIKOZA_MAX_SAMPLES = 65536, /* the final station of a grid not counted */
    MALIKOZA_MAX_FILE = 65536     /* bytes of a cut file */
};

/* Refusals. malikoza_refusal_text has a sentence for each, docs/RULES.md the exact rule. */
enum {
    /* Recovery, in this order, after 10: */
    MALIKOZA_ROWS_LENGTH = 1,
    MALIKOZA_REQUEST_NUMBER = 2,
    MALIKOZA_PREVIOUS_STATION = 3,
    MALIKOZA_CURRENT_BOUNDS = 4,
    MALIKOZA_ROW_NUMBER = 5,
    MALIKOZA_ROW_IMPOSSIBLE = 6,
    MALIKOZA_PROJECTION_NOT_FINITE = 7,
    MALIKOZA_PROJECTION_EMPTY = 8,
    MALIKOZA_MIDDLE_FAILS = 9,

    /* Every entry that takes a list of doubles, before all others: */
    MALIKOZA_NOT_EIGHTS = 10,

    /* Stations, squared speeds, times; each entry says which it gives, in which order: */
    MALIKOZA_STATION_COUNT = 11,
    MALIKOZA_SPEED_COUNT = 12,
    MALIKOZA_STATION_NOT_FINITE = 13,
    MALIKOZA_SPEED_NOT_FINITE = 14,
    MALIKOZA_STATIONS_NOT_INCREASING = 15,
    MALIKOZA_START_NOT_FINITE = 16,
    MALIKOZA_SPEED_NEGATIVE = 17,
    MALIKOZA_STANDSTILL = 18,
    MALIKOZA_COMPUTED_TIME_NOT_FINITE = 19,
    MALIKOZA_TIME_COUNT = 20,
    MALIKOZA_TIME_NOT_FINITE = 21,
    MALIKOZA_TIMES_NOT_INCREASING = 22,
    MALIKOZA_STEP_NOT_FINITE = 23,
    MALIKOZA_STEP_NOT_POSITIVE = 24,
    MALIKOZA_NO_SAMPLES = 25,
    MALIKOZA_SAMPLE_NOT_FINITE = 26,
    MALIKOZA_SAMPLES_NOT_INCREASING = 27,
    MALIKOZA_TOO_MANY_SAMPLES = 28,
    MALIKOZA_OUTPUT_TOO_SHORT = 29,

    /* A cut file: 40 before all, 46 after all; of the others the first in reading order, and 43 before 42: */
    MALIKOZA_FILE_TOO_LONG = 40,
    MALIKOZA_FILE_NUMBER = 41,
    MALIKOZA_KIND_UNKNOWN = 42,
    MALIKOZA_KIND_NOT_RISING = 43,
    MALIKOZA_PAYLOAD_BEYOND_FILE = 44,
    MALIKOZA_PAYLOAD_FORM = 45,
    MALIKOZA_KIND_ABSENT = 46,

    /* A step of a walk, after 10 and before 1: */
    MALIKOZA_WALK_FULL = 61
};

/* A refusal in words, with its number; and words for 0, which is none. */
static inline const char *malikoza_refusal_text(uint64_t number) {
    switch (number) {
    case 0: return "no refusal: the call was answered";
    case MALIKOZA_ROWS_LENGTH: return "refusal 1: a row is three doubles, and 256 rows are the most";
    case MALIKOZA_REQUEST_NUMBER:
        return "refusal 2: tolerances must be finite and not negative, a_prev and the previous interval finite, nothing else NaN";
    case MALIKOZA_PREVIOUS_STATION:
        return "refusal 3: the previous station's bounds must be finite, and a_prev must lie between them";
    case MALIKOZA_CURRENT_BOUNDS:
        return "refusal 4: the current station's bounds must be finite, and the lower one not above the upper";
    case MALIKOZA_ROW_NUMBER:
        return "refusal 5: the numbers of every row must be finite, and so must its norm, 1/norm and tolerance";
    case MALIKOZA_ROW_IMPOSSIBLE:
        return "refusal 6: both coefficients of a row are zero and its rhs is below zero: no speed meets it";
    case MALIKOZA_PROJECTION_NOT_FINITE:
        return "refusal 7: the cap fails, and the numbers of a row are too large or too far apart to solve it for the speed";
    case MALIKOZA_PROJECTION_EMPTY:
        return "refusal 8: the rows, solved for the speed, leave nothing between the bounds";
    case MALIKOZA_MIDDLE_FAILS: return "refusal 9: no speed was found: every one that was tried fails";
    case MALIKOZA_NOT_EIGHTS:
        return "refusal 10: the length of every byte list, output included, must be a multiple of eight";
    case MALIKOZA_STATION_COUNT: return "refusal 11: 2 to 4,096 stations are needed";
    case MALIKOZA_SPEED_COUNT: return "refusal 12: as many squared speeds as stations are needed";
    case MALIKOZA_STATION_NOT_FINITE: return "refusal 13: every station must be finite";
    case MALIKOZA_SPEED_NOT_FINITE: return "refusal 14: every squared speed must be finite";
    case MALIKOZA_STATIONS_NOT_INCREASING: return "refusal 15: each station must lie beyond the one before it";
    case MALIKOZA_START_NOT_FINITE: return "refusal 16: the start time t0 must be finite";
    case MALIKOZA_SPEED_NEGATIVE: return "refusal 17: no squared speed may be below zero";
    case MALIKOZA_STANDSTILL:
        return "refusal 18: of two neighbouring squared speeds one must be above zero, or the knife stands still";
    case MALIKOZA_COMPUTED_TIME_NOT_FINITE: return "refusal 19: a time comes out too large: it is not finite";
    case MALIKOZA_TIME_COUNT: return "refusal 20: as many times as stations are needed";
    case MALIKOZA_TIME_NOT_FINITE: return "refusal 21: every time must be finite";
    case MALIKOZA_TIMES_NOT_INCREASING: return "refusal 22: each time must be later than the one before it";
    case MALIKOZA_STEP_NOT_FINITE: return "refusal 23: the step dt must be finite";
    case MALIKOZA_STEP_NOT_POSITIVE: return "refusal 24: the step dt must be above zero";
    case MALIKOZA_NO_SAMPLES: return "refusal 25: one sample at least is needed";
    case MALIKOZA_SAMPLE_NOT_FINITE: return "refusal 26: every sample must be finite";
    case MALIKOZA_SAMPLES_NOT_INCREASING: return "refusal 27: each sample must be later than the one before it";
    case MALIKOZA_TOO_MANY_SAMPLES: return "refusal 28: 65,536 samples are the most";
    case MALIKOZA_OUTPUT_TOO_SHORT: return "refusal 29: the output has too little room";
    case MALIKOZA_FILE_TOO_LONG: return "refusal 40: a cut file has 65,536 bytes at most";
    case MALIKOZA_FILE_NUMBER:
        return "refusal 41: a number in the file is cut, too long, 2^64 or more, or not in its shortest form";
    case MALIKOZA_KIND_UNKNOWN: return "refusal 42: the kind of every section must be 1, 2, 3, 4 or 5";
    case MALIKOZA_KIND_NOT_RISING:
        return "refusal 43: the kind of each section must be above that of the one before it";
    case MALIKOZA_PAYLOAD_BEYOND_FILE: return "refusal 44: a section's payload goes beyond the file";
    case MALIKOZA_PAYLOAD_FORM:
        return "refusal 45: a payload is a count, within its limit, and that many doubles, or t0, dt and a flag that is 0 or 1";
    case MALIKOZA_KIND_ABSENT: return "refusal 46: the file is sound and has no section of this kind";
    case MALIKOZA_WALK_FULL: return "refusal 61: the walk is full: 4,096 stations are the most";
    default: return "a refusal that this version does not know";
    }
}

/* The pattern of a double, as the entries take it. */
static inline uint64_t malikoza_pattern(double x) {
    uint64_t pattern;
    memcpy(&pattern, &x, sizeof pattern);
    return pattern;
}

/* The double that a pattern stands for. */
static inline double malikoza_double(uint64_t pattern) {
    double x;
    memcpy(&x, &pattern, sizeof x);
    return x;
}

/* Number leaves. They take and return patterns (malikoza_whole_part returns a number), write nothing and refuse nothing.
 * "Nearest" is the closest double, ties to even; an exact size of 2^1024 - 2^970 or more gives infinity. */

/* The double nearest to the square root of x; a zero and plus infinity give themselves, other negatives and NaN give NaN. */
uint64_t malikoza_sqrt(uint64_t x);

/* The double nearest to xy + z, rounded once; zeros, infinities and NaN as IEEE 754 has them. */
uint64_t malikoza_fma(uint64_t x, uint64_t y, uint64_t z);

/* The double nearest to the root of x*x + y*y; an infinite part gives plus infinity, else a NaN part gives NaN. */
uint64_t malikoza_hypot(uint64_t x, uint64_t y);

/* The next smaller double; both zeros go to -2^-1074, minus infinity and NaN stay. */
uint64_t malikoza_next_down(uint64_t x);

/* The lesser of two; a NaN yields the other operand, minus zero counts below plus zero. */
uint64_t malikoza_minimum(uint64_t x, uint64_t y);

/* The greater of two; a NaN yields the other operand, minus zero counts below plus zero. */
uint64_t malikoza_maximum(uint64_t x, uint64_t y);

/* The double without its sign. */
uint64_t malikoza_absolute(uint64_t x);

/* The whole part, as the number itself and no pattern: 0 below 1 and for NaN, 2^64 - 1 from 2^64 up. */
uint64_t malikoza_whole_part(uint64_t x);

/* Recovery: the speed at the current station that the cap and the rows allow, certified.
 *
 * All speeds here are squared. A row is three doubles, coef_curr, coef_prev, rhs, and admits the speed x if
 * coef_curr*x + coef_prev*a_prev is at most rhs, within feas_tol; rows_len is 24 bytes a row, 256 rows at most, and no rows
 * is a valid list. lower is the maximum of curr_lower and +0; upper, the cap, is the minimum of curr_upper and curr_cap; for
 * the previous station likewise, and a_prev must lie between its two, compared within a_cmp_abs_tol and a_cmp_rel_tol.
 *
 * Writes the speed, the worst normalized and the worst raw residual (patterns), and the number of candidates tried, 1 to 71
 * (the number itself). Refuses with 10, then 1 to 9 in order; neither 8 nor 9 says that no double passes. */
uint64_t malikoza_recover(uint64_t a_prev, uint64_t prev_lower, uint64_t prev_upper, uint64_t prev_cap,
                          uint64_t curr_lower, uint64_t curr_upper, uint64_t curr_cap,
                          uint64_t feas_tol, uint64_t a_cmp_abs_tol, uint64_t a_cmp_rel_tol,
                          const uint8_t *rows, size_t rows_len,
                          uint64_t *speed, uint64_t *worst_normalized, uint64_t *worst_raw, uint64_t *tried);

/* A walk: recovery from station to station, each step from the speed that the one before it committed.
 *
 * The caller holds the state. Words 0 to 2 are feas_tol, a_cmp_abs_tol and a_cmp_rel_tol, word 3 is the last committed
 * speed, words 4 to 6 are the last station's lower, upper and cap, all of them patterns; word 7 is the count of stations,
 * the start counted as 1 (the number itself). Any eight words are a state, and a copy of them is a walk of its own. */
typedef struct malikoza_walk {
    uint64_t word[8];
} malikoza_walk;

/* The start of a walk: its tolerances, the squared speed at its first station, and that station.
 *
 * Writes the eight words, with a count of 1. Refuses nothing, and tests nothing: the first step tests all of it, the start
 * speed as a_prev. */
void malikoza_walk_start(uint64_t feas_tol, uint64_t a_cmp_abs_tol, uint64_t a_cmp_rel_tol, uint64_t start_speed,
                         uint64_t lower, uint64_t upper, uint64_t cap, malikoza_walk *walk);

/* A step of a walk, to the station with this interval and cap, under these rows.
 *
 * Answers as malikoza_recover does if a_prev is the last committed speed, the previous station the last one, the current one
 * that which is given, and the tolerances the walk's. Success writes the same four numbers, and moves the walk on: to the
 * speed found, the station given and a count of one more. A refused step leaves the walk as it was, and may be tried again
 * with other rows. Refuses with 10, then 61 where the count is 4,096 or more, then 1 to 9 in order. An interval's end that is
 * infinite is no fault of the station that a step comes to, but the next step refuses it with 2. */
uint64_t malikoza_walk_step(malikoza_walk *walk, uint64_t lower, uint64_t upper, uint64_t cap,
                            const uint8_t *rows, size_t rows_len,
                            uint64_t *speed, uint64_t *worst_normalized, uint64_t *worst_raw, uint64_t *tried);

/* The acceleration along the path, 0.5*(a1 - a0)/(s1 - s0), between each pair of neighbouring stations.
 *
 * Writes one double fewer than there are stations. Refuses with 10, 11 to 15, 29. */
uint64_t malikoza_a_to_b(const uint8_t *s, size_t s_len, const uint8_t *a, size_t a_len, uint8_t *out, size_t out_len);

/* The time at each station: t0 at the first, then 2*(s1 - s0)/(root a0 + root a1) more for each pair.
 *
 * Writes one double for each station. Refuses with 10, 11 to 18, 29, 19. */
uint64_t malikoza_s_to_t(const uint8_t *s, size_t s_len, const uint8_t *a, size_t a_len, uint64_t t0,
                         uint8_t *out, size_t out_len);

/* Where the knife is at each time of a list; NaN before the first time and past the last.
 *
 * t holds the times of the stations, as malikoza_s_to_t gives them. Writes one double for each sample; how many samples were
 * before, inside and past; and the number of doubles written. Refuses with 10, 11 to 15, 17, 18, 20 to 22, 25, 28, 26, 27,
 * 29. */
uint64_t malikoza_t_to_s_list(const uint8_t *s, size_t s_len, const uint8_t *a, size_t a_len,
                              const uint8_t *t, size_t t_len, const uint8_t *samples, size_t samples_len,
                              uint8_t *out, size_t out_len,
                              uint64_t *before, uint64_t *inside, uint64_t *past, uint64_t *written);

/* Where the knife is at each time of an even grid; NaN before the first time and past the last.
 *
 * The grid's times are t0 + i*dt for i from 0 to n-1, n being the whole part of (last time - t0)/dt, 0 if that is below 1.
 * with_final: 0 is no, anything else is yes. With the final asked for and t0 at or before the last time, the last station is
 * added unless there is a last entry that is at or past it; a NaN entry counts as not there.
 *
 * Writes one double for each time of the grid and the final station where it is added; how many times were before, inside
 * and past (an added final is none); and the number of doubles written. The output must have room for n doubles, and for one
 * more if the final is asked for, added or not. Refuses with 10, 11 to 15, 17, 18, 20 to 22, 16, 23, 24, 28, 29. */
uint64_t malikoza_t_to_s_grid(const uint8_t *s, size_t s_len, const uint8_t *a, size_t a_len,
                              const uint8_t *t, size_t t_len, uint64_t t0, uint64_t dt, uint8_t with_final,
                              uint8_t *out, size_t out_len,
                              uint64_t *before, uint64_t *inside, uint64_t *past, uint64_t *written);

/* The kinds of a cut file's sections. */
enum {
    MALIKOZA_KIND_STATIONS = 1,
    MALIKOZA_KIND_SPEEDS = 2, /* squared */
    MALIKOZA_KIND_TIMES = 3,
    MALIKOZA_KIND_GRID = 4,
    MALIKOZA_KIND_SAMPLES = 5
};

/* Where a cut file has the payload of a section.
 *
 * A file is sections, each a kind, the payload's length in bytes, and the payload; kinds rise. Kind and length are whole
 * numbers in groups of seven bits, low group first, the top bit set where another follows, in as few groups as can be. The
 * payload of kinds 1, 2, 3 and 5 is a count, such a number, and that many doubles: 4,096 at most, of kind 5 65,536. That of
 * kind 4 is t0, dt and one byte, 0 or 1, for the final. Only the form is judged: a double may be any, a NaN as well.
 *
 * Judges the whole file first, whichever kind is asked for. Writes the place in the file where the payload starts, and its
 * length in bytes (the numbers themselves). The doubles of a list are the payload's last length / 8 * 8 bytes, and so stand
 * at file + start + length % 8: a byte list as the other entries take it. Refuses with 40, then 41 to 45 by the first fault in
 * reading order, 43 before 42, then 46. An empty file is sound. */
uint64_t malikoza_cut_file_section(const uint8_t *file, size_t file_len, uint64_t kind, uint64_t *start, uint64_t *length);

#ifdef __cplusplus
}
#endif

#endif
