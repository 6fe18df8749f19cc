/* How long a frame takes in each form that devices give it in, beside the frame itself and the two converters alone, the least of 60 rounds of 500:
 * clang -O2 -Iinclude oracle/bench/devices.c target/staticlib/libagc2.a -o target/devices && target/devices */
#define _POSIX_C_SOURCE 199309L
#include <stdio.h>
#include <time.h>

#include "agc2.h"

enum { ROUNDS = 60, FRAMES = 500, FORMS = 6, MOST = AGC2_MAX_CHANNELS * AGC2_MAX_SAMPLES_PER_CHANNEL };

/* One frame in every form. */
static int16_t interleaved[MOST];
static float frame[MOST], unit[MOST], converted[MOST];
static const float *channels[AGC2_MAX_CHANNELS], *unit_channels[AGC2_MAX_CHANNELS];

static void fill(size_t count, size_t samples) {
    for (size_t c = 0; c < count; c++) {
        for (size_t i = 0; i < samples; i++) {
            int16_t sample = (int16_t)((int)(i * 37 + c * 11) % 2000 - 1000);
            interleaved[i * count + c] = sample;
            frame[c * samples + i] = sample;
            unit[c * samples + i] = (float)sample / 32768.0f;
        }
        channels[c] = frame + c * samples;
        unit_channels[c] = unit + c * samples;
    }
}

static uint32_t analyzed(int form, agc2_controller *controller, size_t count, size_t samples) {
    switch (form) {
    case 0:
        return agc2_analyze_input_audio(controller, 100, samples, frame, count * samples);
    case 1:
        return agc2_analyze_interleaved_i16(controller, 100, samples, interleaved, count * samples);
    case 2:
        return agc2_analyze_channels(controller, 100, samples, channels, count);
    case 3:
        return agc2_analyze_unit_channels(controller, 100, samples, unit_channels, count);
    case 4:
        agc2_frame_of_interleaved_i16(count, interleaved, count * samples, converted, MOST);
        return AGC2_ACCEPTED;
    default:
        agc2_frame_of_unit(unit, count * samples, converted, MOST);
        return AGC2_ACCEPTED;
    }
}

static double now(void) {
    struct timespec t;
    clock_gettime(CLOCK_MONOTONIC, &t);
    return (double)t.tv_sec * 1e9 + (double)t.tv_nsec;
}

/* The forms take turns, so that a slower machine slows all of them. */
static int measured(size_t count, size_t samples) {
    static agc2_controller controller;
    double least[FORMS] = {1e18, 1e18, 1e18, 1e18, 1e18, 1e18};
    uint32_t refused = agc2_new(&controller, (int32_t)count, agc2_default_config());
    fill(count, samples);
    for (int turn = 0; turn < ROUNDS * FORMS; turn++) {
        double start = now();
        for (int i = 0; i < FRAMES; i++) {
            refused |= analyzed(turn % FORMS, &controller, count, samples);
        }
        double each = (now() - start) / FRAMES;
        least[turn % FORMS] = each < least[turn % FORMS] ? each : least[turn % FORMS];
    }
    printf("%zu x %zu: a frame %.0f ns, interleaved 16-bit %.0f, channels apart %.0f, and from -1.0 to 1.0 %.0f; interleaved alone %.0f, from -1.0 to 1.0 alone %.0f\n", count, samples, least[0], least[1], least[2],
           least[3], least[4], least[5]);
    return refused == AGC2_ACCEPTED;
}

int main(void) {
    int taken = 1;
    for (size_t count = 1; count <= AGC2_MAX_CHANNELS; count *= count == 1 ? 2 : 4) {
        taken &= measured(count, 160) & measured(count, AGC2_MAX_SAMPLES_PER_CHANNEL);
    }
    return !taken;
}
