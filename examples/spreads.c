/* Runs a file of spreads (docs/FORMATS.md) through the C door, by savrunte_spreads and by savrunte_sound_spreads, and prints the records
 * that ./savrunte --tsv spreads prints, with those of their fields that are numbers or bits: C has no shortest decimals, and the words
 * are the program's own. The file is number 0.
 * examples/spreads.sh builds it, runs it on examples/spreads.jobs and compares the two. */
#include <inttypes.h>
#include <stdio.h>
#include <stdlib.h>
#include <string.h>

#include "savrunte.h"

/* The largest call: 256 jobs of 256 records of 40 bytes, 48 unknowns, 1,024 points of 16 bytes. */
enum { JOBS = 256, RECORDS = 256, N = 48, CELLS = N * (N + 1), NUMBERS = 27, CAUSES = 29, LIMBS = 66 };

/* Words of a head in form 1, the options among them; those of form 2 that are known here, and the most that there can be; a file has as many tolerances at most. */
enum { FORM_1 = 24, OPTIONS_1 = 17, KNOWN = 32, MOST = 64 };

/* What the file asks for. */
typedef struct asked {
    uint64_t jobs, nodes, sources, sheets_len, points_len, unknown, tolerances;
    savrunte_options options;
} asked;

static uint8_t sheets[JOBS * RECORDS * 40], points[1024 * 16];
static double tolerances[MOST];
static double base[CELLS], matrix[CELLS], elimination[CELLS], memory[RECORDS], vectors[JOBS * N];
static uint64_t numbers[JOBS], causes[JOBS], places[JOBS], passes[JOBS], counts[NUMBERS], cause_counts[CAUSES];
static uint64_t plus[LIMBS], minus[LIMBS], sound_plus[LIMBS], sound_minus[LIMBS];

static void stop(const char *why) {
    fprintf(stderr, "%s\n", why);
    exit(1);
}

/* Reads n bytes and the zero bytes that fill them up to a multiple of 8. x86-64 is little-endian, as the file is. */
static void take(FILE *file, void *to, size_t n, size_t room) {
    char padding[8];
    if (n > room || fread(to, 1, n, file) != n || fread(padding, 1, -n % 8, file) != -n % 8) {
        stop("The file ends too early, or is larger than any that runs.");
    }
}

/* The head, with its words where form 2 has them: one that is not there is 0. */
static asked read_head(FILE *file) {
    uint64_t w[MOST] = {0}, count = FORM_1 + 1;
    take(file, w, 8, 8);
    if (memcmp(w, "SAVSPRD2", 8) == 0) {
        take(file, &count, 8, 8);
    } else if (memcmp(w, "SAVSPRD1", 8) != 0) {
        stop("usage: spreads FILE, a file of spreads (docs/FORMATS.md)");
    }
    if (count < 2 || count > MOST) {
        stop("The head has a number of words that no head has.");
    }
    take(file, w + 2, 8 * (count - 2), sizeof w - 16);
    for (int k = 26; k < MOST; k++) {
        if (w[k] != 0 && (k < 30 || k >= KNOWN)) {
            stop("The head asks for what is not known here.");
        }
    }
    asked a;
    a.jobs = w[2], a.nodes = w[3], a.sources = w[4];
    a.sheets_len = w[22], a.points_len = w[23], a.unknown = w[24], a.tolerances = w[25];
    memcpy(&a.options, w + 5, 8 * OPTIONS_1);
    a.options.catchup = w[30], a.options.pattern_first = w[31];
    return a;
}

/* The fields that the records below have, each kind with its own header line. */
static void print_headers(void) {
    printf("#spreads\tfile\tjobs\tnodes\tsources\tof\tindex\ttolerances\tcatchup\tpattern_first\n"
           "#call_refused\tfile\tnumber\n"
           "#count\tfile\tnumber\tjobs\n"
           "#total\tfile\truns\tjobs\n"
           "#sound\tfile\tsound\tjobs\n"
           "#cause\tfile\tcause\tjobs\n"
           "#not_sound\tfile\tjob\tcause\tplace\trow\n"
           "#sound_smallest\tfile\tvalue_bits\tjob\n"
           "#sound_largest\tfile\tvalue_bits\tjob\n"
           "#sound_mean\tfile\tvalue_bits\tsound\n"
           "#smallest\tfile\tvalue_bits\tjob\n"
           "#largest\tfile\tvalue_bits\tjob\n"
           "#mean\tfile\tvalue_bits\tsettled\n"
           "#not_settled\tfile\tjob\tnumber\tplace\tpasses\n"
           "#run\tfile\tjob\tnumber\tpasses\tcause\tplace\tvalue_bits\n");
}

/* A float's bits; any NaN counts as one. */
static uint64_t bits(double x) {
    uint64_t b = UINT64_C(0x7ff8000000000000);
    if (x == x) {
        memcpy(&b, &x, 8);
    }
    return b;
}

/* A value, and the job where it stands or the runs that it is the mean of. */
static void print_value(const char *kind, double x, uint64_t number) {
    printf("%s\t0\t%016" PRIx64 "\t%" PRIu64 "\n", kind, bits(x), number);
}

/* A DC job's numbers: settled, refused by 6 to 10, or ended by 20, 21, 22 or 24. */
static int of_dc(int k) { return k == 0 || (k >= 6 && k <= 10) || (k >= 20 && k <= 22) || k == 24; }

/* The causes of settled jobs that are not sound. Those of the judge are there where it is asked. */
static int unsound(uint64_t k) { return k == SAVRUNTE_REFUSED_NUMBER || k == SAVRUNTE_BEHIND || k == SAVRUNTE_REJECTED; }

static void print_counts(const asked *a) {
    uint64_t total = 0;
    for (int k = 0; k < NUMBERS; k++) {
        total += counts[k];
        if (of_dc(k) || counts[k] != 0) {
            printf("count\t0\t%d\t%" PRIu64 "\n", k, counts[k]);
        }
    }
    printf("total\t0\t%" PRIu64 "\t%" PRIu64 "\n", total, a->jobs);
}

/* The sound jobs, how many jobs have each cause, and every settled job that is not sound. */
static void print_causes(const asked *a, uint64_t sound) {
    printf("sound\t0\t%" PRIu64 "\t%" PRIu64 "\n", sound, a->jobs);
    for (int k = 0; k < CAUSES; k++) {
        if (of_dc(k) || k == SAVRUNTE_BEHIND || (a->tolerances != 0 && unsound(k)) || cause_counts[k] != 0) {
            printf("cause\t0\t%d\t%" PRIu64 "\n", k, cause_counts[k]);
        }
    }
    for (uint64_t i = 0; i < a->jobs; i++) {
        if (unsound(causes[i])) {
            int row = causes[i] == SAVRUNTE_REJECTED;
            printf("not_sound\t0\t%" PRIu64 "\t%" PRIu64 "\t%" PRIu64 "\t%" PRIu64 "\n", i, causes[i], row ? 0 : places[i], row ? places[i] : 0);
        }
    }
}

/* Every run that did not settle, and then every run: its own number, its cause, and the chosen unknown. */
static void print_runs(const asked *a) {
    for (uint64_t i = 0; i < a->jobs; i++) {
        if (numbers[i] != 0) {
            printf("not_settled\t0\t%" PRIu64 "\t%" PRIu64 "\t%" PRIu64 "\t%" PRIu64 "\n", i, numbers[i], places[i], passes[i]);
        }
    }
    for (uint64_t i = 0; i < a->jobs; i++) {
        double x = vectors[i * (a->nodes + a->sources) + a->unknown];
        printf("run\t0\t%" PRIu64 "\t%" PRIu64 "\t%" PRIu64 "\t%" PRIu64 "\t%" PRIu64 "\t%016" PRIx64 "\n", i, numbers[i], passes[i], causes[i], places[i], bits(x));
    }
}

/* Both calls on the same jobs: the first tells each job's own number, the second its cause. A call that is refused prints nothing. */
static uint64_t run_and_print(const asked *a) {
    savrunte_spreads_answer all = savrunte_spreads(
        sheets, a->sheets_len, points, a->points_len, a->jobs, a->nodes, a->sources, a->unknown, a->options, base, CELLS, matrix, CELLS,
        elimination, CELLS, memory, RECORDS, vectors, JOBS * N, numbers, JOBS, places, JOBS, passes, JOBS, counts, NUMBERS, plus, LIMBS,
        minus, LIMBS);
    if (all.refusal != 0) {
        return all.refusal;
    }
    savrunte_sound_answer s = savrunte_sound_spreads(
        sheets, a->sheets_len, points, a->points_len, tolerances, a->tolerances, a->jobs, a->nodes, a->sources, a->unknown, a->options, base,
        CELLS, matrix, CELLS, elimination, CELLS, memory, RECORDS, vectors, JOBS * N, causes, JOBS, places, JOBS, passes, JOBS, cause_counts,
        CAUSES, plus, LIMBS, minus, LIMBS, sound_plus, LIMBS, sound_minus, LIMBS);
    if (s.refusal != 0) {
        return s.refusal;
    }
    print_counts(a);
    print_causes(a, s.sound);
    if (s.sound != 0) {
        print_value("sound_smallest", s.sound_smallest, s.sound_smallest_at);
        print_value("sound_largest", s.sound_largest, s.sound_largest_at);
        print_value("sound_mean", savrunte_mean(sound_plus, LIMBS, sound_minus, LIMBS, s.sound), s.sound);
    }
    if (all.settled != 0) {
        print_value("smallest", all.smallest, all.smallest_at);
        print_value("largest", all.largest, all.largest_at);
        print_value("mean", savrunte_mean(plus, LIMBS, minus, LIMBS, all.settled), all.settled);
    }
    print_runs(a);
    return 0;
}

int main(int argc, char **argv) {
    FILE *file = argc == 2 ? fopen(argv[1], "rb") : NULL;
    if (file == NULL) {
        stop("usage: spreads FILE, a file of spreads (docs/FORMATS.md)");
    }
    asked a = read_head(file);
    take(file, sheets, a.sheets_len, sizeof sheets);
    take(file, points, a.points_len, sizeof points);
    take(file, tolerances, a.tolerances > MOST ? sizeof tolerances + 1 : 8 * a.tolerances, sizeof tolerances);
    fclose(file);
    int node = a.unknown < a.nodes;
    print_headers();
    printf("spreads\t0\t%" PRIu64 "\t%" PRIu64 "\t%" PRIu64 "\t%s\t%" PRIu64 "\t%" PRIu64 "\t%" PRIu64 "\t%" PRIu64 "\n", a.jobs, a.nodes, a.sources,
           node ? "node" : "source", node ? a.unknown : a.unknown - a.nodes, a.tolerances, a.options.catchup, a.options.pattern_first);
    uint64_t refusal = run_and_print(&a);
    if (refusal != 0) {
        printf("call_refused\t0\t%" PRIu64 "\n", refusal);
    }
    return 0;
}
