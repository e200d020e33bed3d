/* The smallest circuit that settles falsely, pass by pass from C: 5 V through 1 kOhm into a diode, without and with the option catchup (docs/SETTLING.md).
 * A run with ITL1 = 0, 1, 2, .. ends after 1, 2, 3, .. passes, with 20 until it settles, and leaves what that pass left: so each line is a run.
 * Build with examples/one_diode.sh, which links the archive. */
#include <inttypes.h>
#include <stdio.h>
#include <string.h>

#include "savrunte.h"

enum { NODES = 3, SOURCES = 1, N = NODES + SOURCES, CELLS = N * (N + 1), RECORDS = 3, DIODE = 2, MOST = 100 };

/* A record of 40 bytes: kind, nodes, two floats; source number 0. x86-64 is little-endian, as the records are. */
static void put(uint8_t *record, uint8_t kind, uint16_t p, uint16_t n, double value, double second) {
    memset(record, 0, 40);
    record[0] = kind;
    memcpy(record + 2, &p, 2);
    memcpy(record + 4, &n, 2);
    memcpy(record + 16, &value, 8);
    memcpy(record + 24, &second, 8);
}

/* The run that ends after ITL1 + 1 passes at the latest, as a line. Answers its verdict. */
static uint64_t run(const uint8_t *sheet, savrunte_options o) {
    const uint8_t points[1] = {0};
    double base[CELLS], system[CELLS], elimination[CELLS], vector[N], memory[RECORDS];
    savrunte_dc_answer dc = savrunte_dc(sheet, RECORDS * 40, points, 0, NODES, SOURCES, o, base, CELLS, system, CELLS, elimination,
                                        CELLS, vector, N, memory, RECORDS);
    printf("%" PRIu64 "\t%" PRIu64 "\t%" PRIu64 "\t%" PRIu64 "\t%.17g\t%.17g\n", o.catchup, dc.passes, dc.verdict, dc.behind,
           vector[2] - vector[0], memory[DIODE]);
    return dc.verdict;
}

int main(void) {
    uint8_t sheet[RECORDS * 40];
    put(sheet, 3, 1, 0, 5.0, 0.0);
    put(sheet + 40, 1, 1, 2, 1000.0, 0.0);
    put(sheet + 40 * DIODE, 4, 2, 0, 1e-12, 27.0);

    savrunte_options o;
    memset(&o, 0, sizeof o);
    o.reltol = 0.001;
    o.vntol = o.abstol = 0.000001;
    o.gmin = 1e-12;
    o.boltzmann = 1.3806488e-23;
    o.charge = 1.603e-19;
    o.budget = 1000;

    printf("#catchup\tpasses\tverdict\tbehind\tacross\tlimited\n");
    for (o.catchup = 0; o.catchup <= 1; o.catchup++) {
        o.itl1 = 0;
        while (run(sheet, o) == 20 && o.itl1 < MOST) {
            o.itl1++;
        }
    }
    return 0;
}
