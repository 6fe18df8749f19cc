/* How long a making takes, the least of 25 rounds of 20,000: clang -O2 -Iinclude oracle/bench/making.c target/staticlib/libagc2.a -o target/making && target/making */
#define _POSIX_C_SOURCE 199309L
#include <stdio.h>
#include <time.h>

#include "agc2.h"

enum { ROUNDS = 25, MAKINGS = 20000 };

static double now(void) {
    struct timespec t;
    clock_gettime(CLOCK_MONOTONIC, &t);
    return (double)t.tv_sec * 1e9 + (double)t.tv_nsec;
}

typedef uint32_t (*making)(agc2_controller *controller, int32_t num_capture_channels, agc2_config config);

static int measured(const char *name, making make) {
    static agc2_controller controller;
    double least = 1e18;
    for (int round = 0; round < ROUNDS; round++) {
        double start = now();
        for (int i = 0; i < MAKINGS; i++) {
            if (make(&controller, 1, agc2_default_config()) != 0) {
                return 0;
            }
            /* the controller is looked at, so no making can be left out */
            __asm__ volatile("" : : "r"(&controller) : "memory");
        }
        double each = (now() - start) / MAKINGS;
        least = each < least ? each : least;
    }
    printf("%s: %.0f ns\n", name, least);
    return 1;
}

int main(void) { return !(measured("agc2_new", agc2_new) && measured("agc2_new_classroom", agc2_new_classroom)); }
