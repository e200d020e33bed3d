/* The diode's limiting rule by itself: which voltage a diode takes when it is asked for another, from a few memories (docs/DIODE.md).
 * A line for each question to savrunte_diode; the edges between the situations are asked for exactly, and beside them. tools/diode/picture.py draws the lines.
 * Build with examples/diode.sh, which links the archive. */
#include <inttypes.h>
#include <math.h>
#include <stdio.h>

#include "savrunte.h"

#define ROOT_TWO 1.4142135623730951
#define CELSIUS 27.0

/* A diode with its two voltages. The door hands out neither: the thermal one is plain arithmetic, the critical one takes the shipped logarithm. */
typedef struct {
    double i_sat, thermal, critical;
    savrunte_options options;
} diode;

static diode diode_of(double i_sat) {
    diode d = {.i_sat = i_sat};
    d.options.gmin = 1e-12;
    d.options.boltzmann = 1.3806488e-23;
    d.options.charge = 1.603e-19;
    d.thermal = d.options.boltzmann * (363.0 + CELSIUS) / d.options.charge;
    d.critical = d.thermal * savrunte_ln(d.thermal / (ROOT_TWO * i_sat));
    return d;
}

/* One question and its answer, as a line. */
static void ask(diode d, double memory, double asked) {
    savrunte_diode_answer a = savrunte_diode(d.i_sat, CELSIUS, asked, memory, d.options);
    printf("%.17g\t%.17g\t%.17g\t%.17g\t%.17g\t%" PRIu64 "\t%.17g\t%.17g\t%.17g\n", d.i_sat, d.thermal, d.critical, memory, asked, a.verdict,
           a.memory, a.g, a.i);
}

/* An edge between two situations: the voltage itself and the floats on either side. */
static void edge(diode d, double memory, double asked) {
    ask(d, memory, nextafter(asked, -INFINITY));
    ask(d, memory, asked);
    ask(d, memory, nextafter(asked, INFINITY));
}

/* The edges first, then one thermal voltage up, then every 10 mV from -0.5 V to 2.5 V. */
static void from(diode d, double memory) {
    edge(d, memory, memory - 2.0 * d.thermal);
    edge(d, memory, memory + 2.0 * d.thermal);
    edge(d, memory, d.critical);
    ask(d, memory, memory + d.thermal);
    for (int k = -50; k <= 250; k++) {
        ask(d, memory, k / 100.0);
    }
}

int main(void) {
    const double memories[] = {-1.0, 0.0, 0.84, 1.1, 1.2};
    const diode usual = diode_of(1e-12), strong = diode_of(1.0);
    printf("#i_sat\tthermal\tcritical\tmemory\tasked\tverdict\ttaken\tg\ti\n");
    for (size_t k = 0; k < sizeof memories / sizeof memories[0]; k++) {
        from(usual, memories[k]);
        ask(usual, memories[k], NAN);
    }
    /* the least memory that is not a turn-on's */
    ask(usual, nextafter(0.0, 1.0), 1.0);
    /* So much saturation current that the critical voltage is below zero. Then a step from 0 V can be two thermal voltages exactly and be a small step by that
     * alone; and a longer one down meets the conditions of turn-on and fall back both. Turn-on is asked first, and has no logarithm. */
    edge(strong, 0.0, 2.0 * strong.thermal);
    edge(strong, 0.0, -2.0 * strong.thermal);
    return 0;
}
