/* A divider of two resistors under 4 V, run and judged from C. Build with examples/divider.sh, which links the archive. */
#include <inttypes.h>
#include <stdio.h>
#include <string.h>

#include "savrunte.h"

enum { NODES = 3, SOURCES = 1, N = NODES + SOURCES, CELLS = N * (N + 1), RECORDS = 3 };

/* A record of 40 bytes: kind, nodes, source number, one float. x86-64 is little-endian, as the records are. */
static void put(uint8_t *record, uint8_t kind, uint16_t p, uint16_t n, uint16_t source, double value) {
    memset(record, 0, 40);
    record[0] = kind;
    memcpy(record + 2, &p, 2);
    memcpy(record + 4, &n, 2);
    memcpy(record + 10, &source, 2);
    memcpy(record + 16, &value, 8);
}

int main(void) {
    uint8_t sheet[RECORDS * 40];
    uint8_t points[1] = {0};
    put(sheet, 3, 1, 0, 0, 4.0);
    put(sheet + 40, 1, 1, 2, 0, 1.0);
    put(sheet + 80, 1, 2, 0, 0, 1.0);

    savrunte_options o;
    memset(&o, 0, sizeof o);
    o.reltol = 0.001;
    o.vntol = o.abstol = 0.000001;
    o.gmin = 1e-12;
    o.boltzmann = 1.3806488e-23;
    o.charge = 1.603e-19;
    o.itl1 = 10;
    o.budget = 1000;

    double base[CELLS], system[CELLS], elimination[CELLS], vector[N], memory[RECORDS];
    savrunte_dc_answer dc = savrunte_dc(sheet, sizeof sheet, points, 0, NODES, SOURCES, o, base, CELLS, system, CELLS,
                                        elimination, CELLS, vector, N, memory, RECORDS);
    printf("refusal %" PRIu64 " place %" PRIu64 " verdict %" PRIu64 " passes %" PRIu64 "\n", dc.refusal, dc.place, dc.verdict,
           dc.passes);
    if (dc.refusal != 0) {
        return 1;
    }
    for (int i = 0; i < N; i++) {
        uint64_t bits;
        memcpy(&bits, &vector[i], 8);
        printf("unknown %d %016" PRIx64 " %.17g\n", i, bits, vector[i]);
    }

    double tolerances[N] = {0};
    savrunte_judge_answer judged = savrunte_judge(system, CELLS, vector, N, tolerances, N, N);
    printf("judge: refusal %" PRIu64 " row %" PRIu64 "%s\n", judged.refusal, judged.row, judged.row == N ? " (accepted)" : "");
    return 0;
}
