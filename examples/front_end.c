/* Runs every job of a file (docs/FORMATS.md) through the C door and prints the records that ./savrunte --tsv prints, with those of
 * their fields that are numbers or bits: C has no shortest decimals, and the words are the program's own. The file is number 0.
 * examples/front_end.sh builds it, runs it on examples/front_end.jobs and compares the two. */
#include <inttypes.h>
#include <stdio.h>
#include <stdlib.h>
#include <string.h>

#include "savrunte.h"

/* Words of a job's head in form 1, the options among them; those of form 2 that are known here, and the most that there can be. */
enum { FORM_1 = 29, OPTIONS_1 = 17, KNOWN = 32, MOST = 64 };

/* Room for any job that runs, as docs/FORMATS.md names it; all of it starts as zeros. */
enum { CELLS = 2360, UNKNOWNS = 64, MEMORY = 264, ROWS = 32768, SHEET = 10480, POINTS = 16640 };

/* A job's numbers, and then what follows in the file. */
typedef struct job {
    uint64_t transient, nodes, sources;
    savrunte_options options;
    uint64_t sheet_len, points_len, lent[6]; /* floats lent: base, system, elimination, vector, memory, rows */
    uint8_t sheet[SHEET], points[POINTS];
    double tolerances[UNKNOWNS];
    size_t rows_judged;
} job;

static double base[CELLS], matrix[CELLS], elimination[CELLS], vector[UNKNOWNS], memory[MEMORY], rows[ROWS];

static void stop(const char *why) {
    fprintf(stderr, "%s\n", why);
    exit(1);
}

/* Reads n bytes and the zero bytes that fill them up to a multiple of 8. x86-64 is little-endian, as the file is. */
static void take(FILE *file, void *to, size_t n, size_t room) {
    char padding[8];
    if (n > room || fread(to, 1, n, file) != n || fread(padding, 1, -n % 8, file) != -n % 8) {
        stop("The file ends inside a job, or the job is larger than any that runs.");
    }
}

/* Reads a head into its words where form 2 has them, and answers its bytes in the file. A word that is not there is 0: an option that is off. */
static size_t read_head(FILE *file, int form, uint64_t w[MOST]) {
    take(file, w, 8, 8);
    w[1] = FORM_1 + 1;
    if (form == 2) {
        take(file, w + 1, 8, 8);
    }
    if (w[1] < 2 || w[1] > MOST) {
        stop("A head has a number of words that no head has.");
    }
    take(file, w + 2, 8 * (w[1] - 2), 8 * (MOST - 2));
    for (int k = KNOWN; k < MOST; k++) {
        if (w[k] != 0) {
            stop("A job asks for what is not known here.");
        }
    }
    return 8 * (form == 2 ? w[1] : FORM_1);
}

static job next_job(FILE *file, int form) {
    job j;
    uint64_t w[MOST] = {0};
    memset(&j, 0, sizeof j);
    size_t head = read_head(file, form, w);
    j.transient = w[2], j.nodes = w[3], j.sources = w[4];
    memcpy(&j.options, w + 5, 8 * OPTIONS_1);
    j.options.catchup = w[30], j.options.pattern_first = w[31];
    j.sheet_len = w[22], j.points_len = w[23];
    memcpy(j.lent, w + 24, sizeof j.lent);
    take(file, j.sheet, j.sheet_len, sizeof j.sheet);
    take(file, j.points, j.points_len, sizeof j.points);
    size_t left = w[0] - head - (j.sheet_len + 7) / 8 * 8 - (j.points_len + 7) / 8 * 8;
    take(file, j.tolerances, left, sizeof j.tolerances);
    j.rows_judged = left / 8;
    return j;
}

static savrunte_transient_answer run(const job *j) {
    if (j->transient == 1) {
        return savrunte_transient(j->sheet, j->sheet_len, j->points, j->points_len, j->nodes, j->sources, j->options, base,
                                  j->lent[0], matrix, j->lent[1], elimination, j->lent[2], vector, j->lent[3], memory,
                                  j->lent[4], rows, j->lent[5]);
    }
    savrunte_dc_answer dc =
        savrunte_dc(j->sheet, j->sheet_len, j->points, j->points_len, j->nodes, j->sources, j->options, base, j->lent[0],
                    matrix, j->lent[1], elimination, j->lent[2], vector, j->lent[3], memory, j->lent[4]);
    savrunte_transient_answer a = {dc.refusal, dc.place, dc.verdict, 0, dc.passes, 0, 0.0, dc.behind}; /* DC has no DC verdict before it */
    return a;
}

/* A float's bits; any NaN counts as one. */
static uint64_t bits(double x) {
    uint64_t b = UINT64_C(0x7ff8000000000000);
    if (x == x) {
        memcpy(&b, &x, 8);
    }
    return b;
}

/* The fields that the records below have, each kind with its own header line. */
static void print_headers(void) {
    printf("#job\tfile\tjob\tanalysis\tnodes\tsources\tcatchup\tpattern_first\n"
           "#refused\tfile\tjob\tnumber\tplace\n"
           "#ended\tfile\tjob\tverdict\tdc_verdict\tpasses\trows\tend_bits\tbehind\n"
           "#unknown\tfile\tjob\tof\tindex\tvalue_bits\n"
           "#row\tfile\tjob\trow\ttime_bits\tvalues_bits\n"
           "#judged\tfile\tjob\tanswer\trow\tnumber\n");
}

/* The nodes stand first in a vector, then the sources. */
static void print_unknowns(uint64_t k, const job *j) {
    for (uint64_t i = 0; i < j->nodes + j->sources; i++) {
        int node = i < j->nodes;
        printf("unknown\t0\t%" PRIu64 "\t%s\t%" PRIu64 "\t%016" PRIx64 "\n", k, node ? "node" : "source", node ? i : i - j->nodes,
               bits(vector[i]));
    }
}

/* A row is the time and then the unknowns; these are one field, apart by a space. */
static void print_rows(uint64_t k, const job *j, uint64_t count) {
    uint64_t n = j->nodes + j->sources;
    for (uint64_t i = 0; i < count; i++) {
        const double *row = rows + i * (n + 1);
        printf("row\t0\t%" PRIu64 "\t%" PRIu64 "\t%016" PRIx64, k, i, bits(row[0]));
        for (uint64_t c = 1; c <= n; c++) {
            printf("%c%016" PRIx64, c == 1 ? '\t' : ' ', bits(row[c]));
        }
        printf("\n");
    }
}

static void print_judged(uint64_t k, const job *j) {
    savrunte_judge_answer a =
        savrunte_judge(matrix, j->lent[1], vector, j->lent[3], j->tolerances, UNKNOWNS, j->rows_judged);
    int rejected = a.refusal == 0 && a.row < j->rows_judged;
    printf("judged\t0\t%" PRIu64 "\t%s\t%" PRIu64 "\t%" PRIu64 "\n", k, a.refusal != 0 ? "refused" : rejected ? "rejected" : "accepted",
           rejected ? a.row : 0, a.refusal);
}

static void run_and_print(uint64_t k, const job *j) {
    if (j->lent[0] > CELLS || j->lent[1] > CELLS || j->lent[2] > CELLS || j->lent[3] > UNKNOWNS || j->lent[4] > MEMORY ||
        j->lent[5] > ROWS) {
        stop("The job wants larger buffers than there are.");
    }
    printf("job\t0\t%" PRIu64 "\t%s\t%" PRIu64 "\t%" PRIu64 "\t%" PRIu64 "\t%" PRIu64 "\n", k, j->transient == 1 ? "transient" : "dc", j->nodes,
           j->sources, j->options.catchup, j->options.pattern_first);
    savrunte_transient_answer a = run(j);
    if (a.refusal != 0) {
        printf("refused\t0\t%" PRIu64 "\t%" PRIu64 "\t%" PRIu64 "\n", k, a.refusal, a.place);
        return;
    }
    printf("ended\t0\t%" PRIu64 "\t%" PRIu64 "\t%" PRIu64 "\t%" PRIu64 "\t%" PRIu64 "\t%016" PRIx64 "\t%" PRIu64 "\n", k, a.verdict,
           a.dc_verdict, a.passes, a.rows, bits(a.end), a.behind);
    print_unknowns(k, j);
    print_rows(k, j, a.rows);
    if (j->rows_judged != 0) {
        print_judged(k, j);
    }
}

int main(int argc, char **argv) {
    FILE *file = argc == 2 ? fopen(argv[1], "rb") : NULL;
    uint64_t head[4];
    int form = 0;
    if (file != NULL && fread(head, 1, 32, file) == 32) {
        form = memcmp(head, "SAVJOBS1", 8) == 0 ? 1 : memcmp(head, "SAVJOBS2", 8) == 0 ? 2 : 0;
    }
    if (form == 0) {
        stop("usage: front_end FILE, a file of jobs (docs/FORMATS.md)");
    }
    print_headers();
    for (uint64_t k = 0; k < head[1]; k++) {
        job j = next_job(file, form);
        run_and_print(k, &j);
    }
    fclose(file);
    return 0;
}
