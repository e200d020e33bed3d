/* Savrunte: a proved circuit engine. Link with libsavrunte.a (made by tools/make_archive).
 *
 * Every function is total: it refuses by a number and changes nothing that was lent to it, or it runs and says how it ended.
 * Numbers are listed in docs/NUMBERS.md. A slice is a pointer and then its length in elements; a length of 0 wants a pointer
 * that is not null. On a refusal every other field of the answer is 0, but for the place of 6 to 10. N is nodes (ground included) plus sources.
 *
 * What is assumed; where it does not hold, nothing is promised:
 * - Buffers. A pointer without const is lent, and its buffer may be written. Lent buffers overlap neither each other nor anything
 *   that the call reads; what is only read may overlap. Each pointer is aligned for its type and has as many elements as its length says.
 * - The default floating-point environment, as a program starts: round to nearest, no exception traps, subnormal numbers kept
 *   (neither flush-to-zero nor denormals-are-zero, which code linked with -ffast-math can set for the whole process). The archive is
 *   x86-64 code, for a processor of level x86-64-v2 or above, with SSE2 doubles: no x87, so no excess precision, and no fused multiply-add.
 * - Stack. A run (DC, transient, spreads) takes up to 26 KiB, every other call less than 2 KiB. Where the dynamic linker binds
 *   memcpy and memset at their first call, that call takes a few KiB more. Leave 32 KiB.
 * Calls from several threads are safe as long as they share no lent buffer; what is only read may be shared. There is no global
 * state: the archive has no writable data, takes no memory but the stack and the buffers, and keeps nothing between calls.
 */
#ifndef SAVRUNTE_H
#define SAVRUNTE_H

#include <stddef.h>
#include <stdint.h>

#ifdef __cplusplus
extern "C" {
#endif

/* ---- sheets ---- */

/* A sheet is records of 40 bytes end to end, one for each element, little-endian: the kind at 0, then 16-bit numbers, then doubles. What a
 * kind does not use is zero, and so is byte 1. Nodes count from 0, which is ground, sources from 0; docs/FORMATS.md has this too.
 *
 *   kind            from 2    from 6     at 10   from 12       from 16
 *    1 resistor     2 nodes                                    ohms
 *    2 current      2 nodes                                    amperes
 *    3 voltage      2 nodes              source                volts
 *    4 diode        2 nodes                                    saturation current in amperes, temperature in C
 *    5 Isin         2 nodes                                    offset and amplitude in amperes, hertz
 *    6 Vsin         2 nodes              source                offset and amplitude in volts, hertz
 *    7 Vpwl         2 nodes              source  first, count  delay in seconds, repeat: below zero for none
 *    8 capacitor    2 nodes                                    farads
 *    9 Vcvs         2 nodes   2 controls source                gain
 *   10 Vccs         2 nodes   2 controls                       siemens
 *   11 inductor     2 nodes              source                henries
 *
 * A source number says which unknown is the current from the first node to the second: place nodes + number of the vector. Two sources
 * may share one; an inductor shares its own with no record. first and count name a part of the points: 16 bytes each, time and level.
 *
 * An inductor is a short at DC, as a voltage source of 0 V with its number. In a step of a transient it is the conductance step / henries
 * beside a current from its first node to its second, its current so far; its own unknown is then 0.0, and its current is in the memory
 * alone (docs/INDUCTORS.md). */

/* ---- numbers ---- */

enum savrunte_refusal {
    SAVRUNTE_RUNS = 0,              /* not refused */
    SAVRUNTE_REFUSED_ORDER = 1,     /* no node, or N above 48 */
    SAVRUNTE_REFUSED_SHEET = 2,     /* sheet not whole records of 40 bytes, or above 256 */
    SAVRUNTE_REFUSED_POINTS = 3,    /* points not whole records of 16 bytes, or above 1,024 */
    SAVRUNTE_REFUSED_COUNTS = 4,    /* ITL1, ITL3 or ITL4 above 10,000; budget 0 or above 1,000,000 */
    SAVRUNTE_REFUSED_ROOM = 5,      /* a lent buffer is too short */
    SAVRUNTE_REFUSED_KIND = 6,      /* a record's kind is not 1 to 11 */
    SAVRUNTE_REFUSED_UNUSED = 7,    /* byte 1 or an unused byte of a record is not zero */
    SAVRUNTE_REFUSED_NODE = 8,      /* a node is not below the node count */
    SAVRUNTE_REFUSED_SOURCE = 9,    /* a source number is not below the source count, or two records share it and one is an inductor (told of the later) */
    SAVRUNTE_REFUSED_RANGE = 10,    /* first point plus count is above the points given */
    SAVRUNTE_REFUSED_NUMBER = 11,   /* judge: a number not finite, or a tolerance below zero */
    SAVRUNTE_REFUSED_SINE = 12,     /* sin: finite and beyond 2^20 in size */
    SAVRUNTE_REFUSED_JOBS = 13      /* spreads: no job, more than 256, or an unknown that is not below N; checked before 1 */
};

enum savrunte_verdict {
    SAVRUNTE_SETTLED = 0,           /* DC: the last two vectors agree within the tolerances; transient: it reached TSTOP, and every step settled */
    SAVRUNTE_PASSES_USED_UP = 20,   /* DC has used its ITL1 + 1 passes */
    SAVRUNTE_CONVERGENCE_ERROR = 21,/* a number that is not finite, and no later place of the vector that says "no" */
    SAVRUNTE_DIODE_NOT_FINITE = 22, /* a diode's current is not finite */
    SAVRUNTE_STEP_TOO_SMALL = 23,   /* the time step fell below its least size */
    SAVRUNTE_BUDGET_SPENT = 24,     /* the budget of passes is spent */
    SAVRUNTE_NO_ROOM = 25,          /* no room for the next row */
    SAVRUNTE_SINE_REFUSED = 26      /* a sine source was refused by 12 */
};

/* What a job of savrunte_sound_spreads has beside these: sound, or one cause why it is not. A job that is refused, does not settle or
 * is refused by the judge has that number, 6 to 10, 20, 21, 22, 24 or 11, as its cause. */
enum savrunte_cause {
    SAVRUNTE_SOUND = 0,             /* settled, no diode behind and, where tolerances are given, accepted by the judge */
    SAVRUNTE_BEHIND = 27,           /* settled, but a diode is behind */
    SAVRUNTE_REJECTED = 28          /* settled with no diode behind, but the judge rejects the vector */
};

/* ---- options and answers, all by value ---- */

/* Any float bits are allowed. GMIN, BOLTZMANN and CHARGE of the Rust engine: 1e-12, 1.3806488e-23, 1.603e-19. catchup is 0 for off and
 * anything else for on: then a pass that would settle counts as one that did not while a diode is behind in the vector just solved.
 * pattern_first likewise: on, the level of every pattern (kind 7) is that of savrunte_pattern_first, at DC too, and not savrunte_pattern's.
 * Words at the end of the struct that are cleared are options that are off. */
typedef struct savrunte_options {
    double reltol, vntol, abstol, tstart, tstop, tstep, fs, ft, rmin, rmax, gmin, boltzmann, charge;
    uint64_t itl1, itl3, itl4, budget, catchup, pattern_first;
} savrunte_options;

/* A diode is behind when the voltage v across it in a vector is not within |v| RELTOL + VNTOL of its memory y, the voltage that its
 * limiting let through last: caught up means |v - y| <= |v| * RELTOL + VNTOL in double arithmetic, so that with a NaN it is behind.
 * Where a run leaves such a diode its vector is not a solution for it, settled or not. An answer's `behind` is 0 for none, else 1 + the
 * place of the first such record, by the vector and the memory that the run leaves, whatever its verdict. */

typedef struct savrunte_dc_answer {
    uint64_t refusal; /* 0, or 1 to 10 */
    uint64_t place;   /* the faulty record, for 6 to 10 */
    uint64_t verdict; /* 0, 20, 21, 22 or 24 */
    uint64_t passes;  /* passes solved to the end */
    uint64_t behind;  /* 0, or 1 + the place of the first diode that is behind */
} savrunte_dc_answer;

typedef struct savrunte_transient_answer {
    uint64_t refusal, place, verdict;
    uint64_t dc_verdict; /* the verdict of the DC run that comes first */
    uint64_t passes;     /* DC and transient together */
    uint64_t rows;       /* rows written */
    double end;          /* the time reached */
    uint64_t behind;     /* as of DC; of the last vector alone, not of those before it */
} savrunte_transient_answer;

typedef struct savrunte_spreads_answer {
    uint64_t refusal;                  /* 0, or 13, or 1 to 5; on a refusal every other field is 0 and nothing lent is changed */
    uint64_t settled;                  /* runs with verdict 0 */
    double smallest, largest;          /* of the chosen unknown over the settled runs; 0.0 where none settled */
    uint64_t smallest_at, largest_at;  /* the jobs where they stand, the earliest on a tie; 0 where none settled */
} savrunte_spreads_answer;

typedef struct savrunte_sound_answer {
    uint64_t refusal;                  /* as above */
    uint64_t settled;                  /* this and the next four as above: over the settled runs, sound or not */
    double smallest, largest;
    uint64_t smallest_at, largest_at;
    uint64_t sound;                    /* sound runs */
    double sound_smallest, sound_largest;          /* of the chosen unknown over the sound runs; 0.0 where none is sound */
    uint64_t sound_smallest_at, sound_largest_at;  /* the jobs where they stand, the earliest on a tie; 0 where none is sound */
} savrunte_sound_answer;

typedef struct savrunte_convergence_answer {
    uint64_t refusal; /* 0, or 5 when y is shorter than x */
    uint64_t state;   /* 0 yes, 1 no, 2 error */
} savrunte_convergence_answer;

typedef struct savrunte_judge_answer {
    uint64_t refusal; /* 0, 1, 5 or 11 */
    uint64_t row;     /* the first row that is not within its tolerance; the row count when accepted */
} savrunte_judge_answer;

typedef struct savrunte_sin_answer {
    uint64_t refusal; /* 0 or 12 */
    double value;
} savrunte_sin_answer;

typedef struct savrunte_companion {
    double g, i; /* the conductance and the current of a companion model */
} savrunte_companion;

typedef struct savrunte_diode_answer {
    uint64_t verdict;    /* 0, or 22 when the diode's current is not finite */
    double g, i, memory; /* conductance, current, the limited voltage to remember; with 22: 0.0, 0.0, the memory handed in */
} savrunte_diode_answer;

/* ---- runs ---- */

/* The DC operating point. Lent: three matrices of at least N(N+1) floats, a vector of N, one float of memory for each record.
 * Afterwards: base matrix; the last system stamped whole (zeros if none); elimination is scratch; the last solved vector
 * (zeros if none); the memory. Nothing past those lengths changes.
 *
 * Memory: float i is record i's. A diode has its last limited voltage there, an inductor its current; a run first sets both to 0.0,
 * whatever stood there. Floats of other records stay as they are. An inductor's current moves in two places only: where DC ends with 0,
 * 20 or 21 it becomes the inductor's own unknown of the DC vector, a NaN too; where a step of a transient is accepted it becomes
 * step / henries times the voltage across it plus the current before. So it is still 0.0 where DC ends with 22 or 24, and a step that is
 * cut, or that ends a run with 21, 22, 23, 24 or 26, does not move it. */
savrunte_dc_answer savrunte_dc(
    const uint8_t *sheet, size_t sheet_len,
    const uint8_t *points, size_t points_len,
    size_t nodes, size_t sources, savrunte_options options,
    double *base, size_t base_len,
    double *system, size_t system_len,
    double *elimination, size_t elimination_len,
    double *vector, size_t vector_len,
    double *memory, size_t memory_len);

/* The transient analysis: DC first, then steps. Rows of N + 1 floats, time and then the vector, are written from the front of
 * `rows` (at least one must fit); what lies past the rows written does not change. */
savrunte_transient_answer savrunte_transient(
    const uint8_t *sheet, size_t sheet_len,
    const uint8_t *points, size_t points_len,
    size_t nodes, size_t sources, savrunte_options options,
    double *base, size_t base_len,
    double *system, size_t system_len,
    double *elimination, size_t elimination_len,
    double *vector, size_t vector_len,
    double *memory, size_t memory_len,
    double *rows, size_t rows_len);

/* All spreads in one call: up to 256 DC jobs with the same counts, points, options and budget each, their sheets end to end.
 * Each job is what savrunte_dc makes of its own sheet with fresh memory. Refusals in order: 13; 1; 2 (sheets_len not a
 * multiple of jobs * 40, or more than 256 records a sheet; empty sheets are allowed); 3; 4; 5 (any lent buffer too short).
 * A job refused by 6 to 10 is counted under its number, with 0 passes and a zero vector, and stops nothing. The counts over
 * all numbers add up to jobs. Nothing past the lengths named changes. */
savrunte_spreads_answer savrunte_spreads(
    const uint8_t *sheets, size_t sheets_len,      /* the jobs' sheets end to end, all of one length */
    const uint8_t *points, size_t points_len,
    size_t jobs, size_t nodes, size_t sources, size_t unknown, savrunte_options options,   /* unknown: the chosen one, 0 to N - 1 */
    double *base, size_t base_len,                 /* scratch: N(N+1) */
    double *system, size_t system_len,             /* scratch: N(N+1) */
    double *elimination, size_t elimination_len,   /* scratch: N(N+1) */
    double *memory, size_t memory_len,             /* scratch: one float for each record of one sheet */
    double *vectors, size_t vectors_len,           /* N floats for each job, zeros where it is refused */
    uint64_t *numbers, size_t numbers_len,         /* one word for each job: its verdict, or its refusal 6 to 10 */
    uint64_t *places, size_t places_len,           /* one word for each job: the place of the faulty record, 0 where none */
    uint64_t *passes, size_t passes_len,           /* one word for each job: passes solved to the end, 0 where refused */
    uint64_t *counts, size_t counts_len,           /* 27 words: counts[k] is how many jobs have the number k */
    uint64_t *plus, size_t plus_len,               /* 66 limbs: with minus, the exact sum of the chosen unknown over the settled */
    uint64_t *minus, size_t minus_len);            /* 66 limbs: runs, in units of 2^-2148, as the judge keeps sums */

/* The same jobs, told apart into sound ones and others, each other one by its cause. The causes are asked for in this order, and the
 * first that holds counts: its refusal (6 to 10); its verdict (20, 21, 22 or 24); a diode behind (27); the judge's refusal (11); the
 * judge's rejection (28). The judge gets the last system and the vector of the job's run, and the tolerances, the same for every job;
 * without tolerances nothing is judged. A job's number in savrunte_spreads is its cause, and 0 where that is 11, 27 or 28.
 * Refusals as above and in that order; 5 also where there are tolerances, but fewer than N (of more, the first N count). */
savrunte_sound_answer savrunte_sound_spreads(
    const uint8_t *sheets, size_t sheets_len,
    const uint8_t *points, size_t points_len,
    const double *tolerances, size_t tolerances_len,   /* one for each row, or none: no judging */
    size_t jobs, size_t nodes, size_t sources, size_t unknown, savrunte_options options,
    double *base, size_t base_len,                 /* scratch, these four as above */
    double *system, size_t system_len,
    double *elimination, size_t elimination_len,
    double *memory, size_t memory_len,
    double *vectors, size_t vectors_len,           /* N floats for each job, zeros where it is refused */
    uint64_t *causes, size_t causes_len,           /* one word for each job: 0 sound, or its cause */
    uint64_t *places, size_t places_len,           /* one word for each job: the record for 6 to 10 and 27, the row for 28, else 0 */
    uint64_t *passes, size_t passes_len,           /* one word for each job: passes solved to the end, 0 where refused */
    uint64_t *counts, size_t counts_len,           /* 29 words: counts[k] is how many jobs have the cause k; they add up to jobs */
    uint64_t *plus, size_t plus_len,               /* 66 limbs: with minus, the exact sum of the chosen unknown */
    uint64_t *minus, size_t minus_len,             /* 66 limbs: over the settled runs */
    uint64_t *sound_plus, size_t sound_plus_len,   /* 66 limbs: with sound_minus, the exact sum of the chosen unknown */
    uint64_t *sound_minus, size_t sound_minus_len);/* 66 limbs: over the sound runs */

/* The mean of such a sum: plus less minus over the count, rounded once to the nearest float. 0.0 for a sum of 0, for a count of 0
 * or from 2^32 on, and for rows that are not 66 limbs. */
double savrunte_mean(const uint64_t *plus, size_t plus_len, const uint64_t *minus, size_t minus_len, uint64_t count);

/* ---- parts of a run ---- */

/* Elimination with pivoting and back substitution: a matrix of `rows` by `rows` + 1, row after row, and a vector of `rows`.
 * Answers 0, or 1 or 5. Afterwards the matrix is the eliminated one and the vector the answer. */
uint64_t savrunte_solve(double *matrix, size_t matrix_len, double *vector, size_t vector_len, size_t rows);

/* Compares two vectors: places below `nodes` with VNTOL, the others with ABSTOL. The last place that is not finite (error) or differs
 * by more than its tolerance (no) decides; without one it is yes. */
savrunte_convergence_answer savrunte_convergence(
    const double *x, size_t x_len, const double *y, size_t y_len, size_t nodes, savrunte_options options);

/* The first diode of a sheet that is behind in a vector, with this memory: 0 for none, else 1 + its place. RELTOL and VNTOL are read of
 * the options. A number past the end of the vector or the memory counts as NaN; a record that is no diode, or that a run would refuse
 * by 6 or 7, is never behind. */
uint64_t savrunte_behind(
    const uint8_t *sheet, size_t sheet_len, const double *vector, size_t vector_len, const double *memory, size_t memory_len,
    savrunte_options options);

/* Accepts exactly when in every row the coefficients times the vector less the right side, added up without any rounding,
 * is within that row's tolerance. Changes nothing. */
savrunte_judge_answer savrunte_judge(
    const double *system, size_t system_len, const double *vector, size_t vector_len,
    const double *tolerances, size_t tolerances_len, size_t rows);

/* ---- functions and models ---- */

double savrunte_exp(double x);
double savrunte_ln(double x);
savrunte_sin_answer savrunte_sin(double x);

/* The level at time t of a pattern over all the points given (16-byte records: time, level). */
double savrunte_pattern(const uint8_t *points, size_t points_len, double t_delay, double repeat, double t);

/* The same where the option pattern_first is on. In this order: no points, or t < t_delay: 0; repeat < 0 and t >= t_delay + the last time:
 * the last level; a single point: its level; a cycle time, fmod(t - t_delay, the last time), that is not above the first time, a NaN
 * among them: the first level; else what savrunte_pattern answers. */
double savrunte_pattern_first(const uint8_t *points, size_t points_len, double t_delay, double repeat, double t);

/* The companion model of a capacitor at voltage v over one step. */
savrunte_companion savrunte_capacitor(double value, double v, double step);

/* The companion model of a diode at voltage v, with what it remembers. It stands at v or at a voltage limited from it, which is the new
 * memory: by one formula for each of five situations, which docs/DIODE.md explains. */
savrunte_diode_answer savrunte_diode(double i_sat, double tdegc, double v, double memory, savrunte_options options);

#ifdef __cplusplus
}
#endif

#endif
