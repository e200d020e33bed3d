/* Nanoseconds for a call of each function and of libm's: independent calls, and calls that wait for the one before. The least of many runs. */
#include <math.h>
#include <stdio.h>
#include <stdlib.h>
#include <time.h>

double own_exp(double), own_ln(double), own_sin(double);

enum { COUNT = 4096, RUNS = 60 };

static double inputs[COUNT];
static volatile double sink;

static double seconds(void) {
    struct timespec t;
    clock_gettime(CLOCK_MONOTONIC, &t);
    return t.tv_sec + 1e-9 * t.tv_nsec;
}

static double apart(double (*f)(double)) {
    double best = 1e9;
    for (int r = 0; r < RUNS; r++) {
        double sum = 0, t = seconds();
        for (int i = 0; i < COUNT; i++) sum += f(inputs[i]);
        t = seconds() - t;
        sink = sum;
        if (t < best) best = t;
    }
    return best / COUNT * 1e9;
}

static double chained(double (*f)(double)) {
    double best = 1e9;
    for (int r = 0; r < RUNS; r++) {
        double y = 0, t = seconds();
        for (int i = 0; i < COUNT; i++) y = f(inputs[i] + y * 0.0);
        t = seconds() - t;
        sink = y;
        if (t < best) best = t;
    }
    return best / COUNT * 1e9;
}

static void line(const char *name, double (*own)(double), double (*libm)(double), double low, double high, int log_scale) {
    srand(1);
    for (int i = 0; i < COUNT; i++) {
        double u = low + (high - low) * (rand() / (double)RAND_MAX);
        inputs[i] = log_scale ? exp(u) : u;
    }
    double a = apart(own), b = apart(libm), c = chained(own), d = chained(libm);
    printf("%-4s %9.4g to %-9.4g  apart %6.2f ns, libm %6.2f, %5.2f times;  chained %6.2f ns, libm %6.2f, %5.2f times\n", name, log_scale ? exp(low) : low, log_scale ? exp(high) : high, a, b, a / b, c, d, c / d);
}

int main(void) {
    line("exp", own_exp, exp, -20, 40, 0);
    line("exp", own_exp, exp, -300, 300, 0);
    line("ln", own_ln, log, -2, 2, 1);
    line("ln", own_ln, log, -300, 300, 1);
    line("sin", own_sin, sin, -8, 8, 0);
    line("sin", own_sin, sin, -1000, 1000, 0);
    line("sin", own_sin, sin, -1e6, 1e6, 0);
    return 0;
}
