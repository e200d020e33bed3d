/* The current of an inductor from C, step by step: 1 V comes on at time 0 across a resistor and 10 mH in series, then across these and a
 * capacitor (docs/INDUCTORS.md). In a transient the inductor's current is in its float of the memory alone. A run to the end of step k
 * leaves it as it was then: so each line is a run, with the memory, the current of the volt's source turned round, the voltage, and what
 * the closed form has at that time. tools/inductor/picture.py draws the lines.
 * Build with examples/inductor.sh, which links the archive. */
#include <inttypes.h>
#include <math.h>
#include <stdio.h>
#include <stdlib.h>
#include <string.h>

#include "savrunte.h"

#define VOLT 1.0
#define HENRY 1e-2
#define FARAD 1e-6

enum { NODES = 4, SOURCES = 2, N = NODES + SOURCES, CELLS = N * (N + 1), RECORDS = 4, INDUCTOR = 2, POINTS = 3 };

/* A circuit: with a capacitor where it has a fourth node. */
typedef struct {
    const char *name;
    double ohm;
    size_t nodes;
} circuit;

/* A record of 40 bytes: kind, nodes, source number, a pattern's number of points, two floats. x86-64 is little-endian, as the records are. */
static void put(uint8_t *record, uint8_t kind, uint16_t p, uint16_t n, uint16_t source, uint16_t count, double value,
                double second) {
    memset(record, 0, 40);
    record[0] = kind;
    memcpy(record + 2, &p, 2);
    memcpy(record + 4, &n, 2);
    memcpy(record + 10, &source, 2);
    memcpy(record + 14, &count, 2);
    memcpy(record + 16, &value, 8);
    memcpy(record + 24, &second, 8);
}

/* The sheet of a circuit; answers its bytes. Source 0 is the inductor, source 1 the volt. */
static size_t put_sheet(circuit c, uint8_t sheet[RECORDS * 40]) {
    uint16_t end = c.nodes == NODES ? NODES - 1 : 0;
    put(sheet, 7, 1, 0, 1, POINTS, 0.0, -1.0);
    put(sheet + 40, 1, 1, 2, 0, 0, c.ohm, 0.0);
    put(sheet + 40 * INDUCTOR, 11, 2, end, 0, 0, HENRY, 0.0);
    put(sheet + 120, 8, end, 0, 0, 0, FARAD, 0.0);
    return end == 0 ? 120 : 160;
}

/* Steps of one length, up to the middle of the last one: the run ends with it. Only the first row is written. */
static savrunte_options options_of(double step, unsigned steps) {
    savrunte_options o;
    memset(&o, 0, sizeof o);
    o.reltol = o.vntol = 1e-9;
    o.abstol = 1e-12;
    o.tstart = INFINITY;
    o.tstop = (steps - 0.5) * step;
    o.tstep = step;
    o.fs = o.rmax = 1.0;
    o.ft = 0.25;
    o.rmin = 1e-3;
    o.itl1 = o.itl4 = 20;
    o.budget = 10000;
    return o;
}

/* The current and the voltage by the closed form: of the capacitor, or else of the inductor. */
static void exact(circuit c, double t, double *current, double *volts) {
    double damping = c.ohm / HENRY, a = damping / 2, w = sqrt(1 / (HENRY * FARAD) - a * a), wave = VOLT * exp(-a * t);
    if (c.nodes < NODES) {
        *current = VOLT / c.ohm * (1 - exp(-damping * t));
        *volts = VOLT * exp(-damping * t);
    } else {
        *current = wave / (w * HENRY) * sin(w * t);
        *volts = VOLT - wave * (cos(w * t) + a / w * sin(w * t));
    }
}

/* The run of so many steps, as a line. */
static void run(circuit c, double step, unsigned steps) {
    const double points[2 * POINTS] = {0.0, 0.0, 1e-8, VOLT, 1.0, VOLT};
    uint8_t sheet[RECORDS * 40], bytes[16 * POINTS];
    double base[CELLS], system[CELLS], elimination[CELLS], vector[N], memory[RECORDS], rows[N + 1], current, volts;
    size_t length = put_sheet(c, sheet);
    memcpy(bytes, points, sizeof bytes);
    savrunte_transient_answer a =
        savrunte_transient(sheet, length, bytes, sizeof bytes, c.nodes, SOURCES, options_of(step, steps), base, CELLS, system, CELLS,
                           elimination, CELLS, vector, N, memory, RECORDS, rows, N + 1);
    if (a.refusal != 0 || a.verdict != 0 || a.dc_verdict != 0) {
        fprintf(stderr, "refusal %" PRIu64 ", verdict %" PRIu64 ", DC verdict %" PRIu64 "\n", a.refusal, a.verdict, a.dc_verdict);
        exit(1);
    }
    exact(c, steps * step, &current, &volts);
    printf("%s\t%.17g\t%.17g\t%.17g\t%.17g\t%.17g\t%.9g\t%.9g\n", c.name, step, steps * step, memory[INDUCTOR], -vector[c.nodes + 1],
           vector[c.nodes - 1], current, volts);
}

int main(void) {
    const circuit rl = {"RL", 2.0, 3}, rlc = {"RLC", 60.0, 4};
    printf("#circuit\tstep\ttime\tmemory\tcurrent\tvolts\texact_current\texact_volts\n");
    for (unsigned fine = 1; fine <= 4; fine *= 4) {
        for (unsigned k = 1; k <= 20 * fine; k++) {
            run(rl, 1e-3 / fine, k);
        }
        for (unsigned k = 1; k <= 100 * fine; k++) {
            run(rlc, 1.6e-5 / fine, k);
        }
    }
    return 0;
}
