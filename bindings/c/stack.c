/* The stack that each call needs: it is made on a thread whose stack was painted, and what is no longer paint was used. No proof bounds it, so this is a measurement:
 * random frames, settings and levels, the most that was seen. Fails where a call needs more than the header says. */
#define _GNU_SOURCE
#include <pthread.h>
#include <stdio.h>
#include <stdlib.h>
#include <string.h>

#include "agc2.h"

enum { SIZE = 1 << 18, PAINT = 0xa5 };

static unsigned char *stack;
static long depth;

static agc2_controller controller;
static agc2_config config, classroom_config;
static agc2_predictor_config predictor;
static float samples[AGC2_MAX_CHANNELS * AGC2_MAX_SAMPLES_PER_CHANNEL];
static int16_t interleaved[AGC2_MAX_CHANNELS * AGC2_MAX_SAMPLES_PER_CHANNEL];
static const float *const parts[AGC2_MAX_CHANNELS] = {samples, samples + 480, samples + 960, samples + 1440, samples + 1920, samples + 2400, samples + 2880, samples + 3360};
static int32_t channels, volume, volumes[AGC2_MAX_CHANNELS], recommended;
static size_t samples_per_channel;
static float level;
static volatile uint32_t sink;

/* ---- the calls */

__attribute__((noinline)) static void made(void) { sink = agc2_new(&controller, channels, config); }

__attribute__((noinline)) static void made_with(void) { sink = agc2_new_with_predictor(&controller, channels, config, predictor); }

__attribute__((noinline)) static void made_classroom(void) { sink = agc2_new_classroom(&controller, channels, classroom_config); }

__attribute__((noinline)) static void made_classroom_with(void) { sink = agc2_new_classroom_with_predictor(&controller, channels, classroom_config, predictor); }

__attribute__((noinline)) static void framed(void) {
    sink = agc2_analyze_input_audio(&controller, volume, samples_per_channel, samples, (size_t)channels * AGC2_MAX_SAMPLES_PER_CHANNEL);
}

__attribute__((noinline)) static void framed_each(void) {
    sink = agc2_analyze_input_audio_each(&controller, volumes, (size_t)channels, samples_per_channel, samples, (size_t)channels * AGC2_MAX_SAMPLES_PER_CHANNEL);
}

__attribute__((noinline)) static void framed_short(void) {
    sink = agc2_spotter_analyze_input_audio(&controller, volume, samples_per_channel / 3, samples, (size_t)channels * AGC2_SPOTTER_MAX_SAMPLES_PER_CHANNEL);
}

__attribute__((noinline)) static void framed_short_each(void) {
    sink = agc2_spotter_analyze_input_audio_each(&controller, volumes, (size_t)channels, samples_per_channel / 3, samples, (size_t)channels * AGC2_SPOTTER_MAX_SAMPLES_PER_CHANNEL);
}

__attribute__((noinline)) static void framed_interleaved(void) {
    sink = agc2_analyze_interleaved_i16(&controller, volume, samples_per_channel, interleaved, (size_t)channels * AGC2_MAX_SAMPLES_PER_CHANNEL);
}

__attribute__((noinline)) static void framed_apart(void) { sink = agc2_analyze_channels(&controller, volume, samples_per_channel, parts, (size_t)channels); }

__attribute__((noinline)) static void framed_unit(void) { sink = agc2_analyze_unit_channels(&controller, volume, samples_per_channel, parts, (size_t)channels); }

__attribute__((noinline)) static void recommend(void) { sink = agc2_recommend_input_volume(&controller, 1.0f, &level, &recommended); }

__attribute__((noinline)) static void initialized(void) { agc2_initialize(&controller); }

__attribute__((noinline)) static void switched(void) { agc2_handle_capture_output_used_change(&controller, rand() % 3 != 0); }

__attribute__((noinline)) static void stored(void) { sink = agc2_stored_record(&controller, 0, 0).present; }

__attribute__((noinline)) static void metrics(void) { sink = agc2_compute_partial_metrics(&controller, 0, 0, 1 + rand() % 10).clipped; }

/* ---- one call on a painted stack */

typedef void (*call)(void);

static void *run(void *f) {
    unsigned char *top = __builtin_frame_address(0);
    (*(call *)f)();
    long i = 0;
    while (stack[i] == PAINT) {
        i++;
    }
    depth = top - (stack + i);
    return NULL;
}

static void most(long *seen, call f) {
    memset(stack, PAINT, SIZE);
    pthread_attr_t painted;
    pthread_attr_init(&painted);
    pthread_attr_setstack(&painted, stack, SIZE);
    pthread_t thread;
    pthread_create(&thread, &painted, run, &f);
    pthread_join(thread, NULL);
    if (depth > *seen) {
        *seen = depth;
    }
}

/* ---- random calls */

enum { NEW, NEW_WITH, CLASSROOM, CLASSROOM_WITH, FRAME, FRAME_EACH, SHORT, SHORT_EACH, INTERLEAVED, APART, UNIT, RECOMMEND, INITIALIZE, SWITCH, STORED, METRICS, CALLS };

/* Some of the classroom's are outside its profile. */
static void settings(void) {
    channels = 1 + rand() % AGC2_MAX_CHANNELS;
    config = agc2_default_config();
    config.clipped_wait_frames = rand() % 3;
    config.update_input_volume_wait_frames = rand() % 4;
    config.enable_clipping_predictor = (uint32_t)(rand() % 5);
    classroom_config = agc2_default_config();
    classroom_config.min_input_volume = 15 + rand() % 60;
    predictor = agc2_default_predictor_config();
    predictor.mode = (uint32_t)(rand() % 4);
    predictor.window_length = 1 + rand() % 5;
    predictor.reference_window_length = 1 + rand() % 30;
    predictor.reference_window_delay = rand() % 40;
    predictor.clipping_threshold = -(rand() % 9000);
}

static void sound(void) {
    float peak = rand() % 4 != 0 ? 29300.0f + (float)(rand() % 3000) : 33000.0f;
    int apart = 1 + rand() % 400;
    for (int i = 0; i < AGC2_MAX_CHANNELS * AGC2_MAX_SAMPLES_PER_CHANNEL; i++) {
        samples[i] = i % apart != 0 ? (float)(rand() % 200) : peak;
        interleaved[i] = (int16_t)(samples[i] < 32767.0f ? samples[i] : 32767.0f);
    }
    volume = rand() % 10 != 0 ? 200 : rand() % 257;
    for (int i = 0; i < AGC2_MAX_CHANNELS; i++) {
        volumes[i] = rand() % 20 != 0 ? rand() % 256 : 256;
    }
    samples_per_channel = rand() % 10 != 0 ? 480 : 479;
    level = (float)(rand() % 90) - 80.0f;
}

int main(void) {
    static const char *const names[CALLS] = {"agc2_new", "agc2_new_with_predictor", "agc2_new_classroom", "agc2_new_classroom_with_predictor", "a frame", "a frame with a set", "a frame of the spotter",
                                             "a frame of the spotter with a set", "agc2_analyze_interleaved_i16", "agc2_analyze_channels", "agc2_analyze_unit_channels", "a recommendation", "initialise",
                                             "the capture switch", "agc2_stored_record", "agc2_compute_partial_metrics"};
    static const long bounds[CALLS] = {14900, 14900, 14900, 14900, 23600, 23600, 23600, 23600, 39100, 39100, 39100, 1900, 1900, 1900, 14200, 14200};
    long seen[CALLS] = {0};
    stack = aligned_alloc(4096, SIZE);
    srand(7);
    for (int round = 0; round < 100; round++) {
        settings();
        /* the plain ones last: the frames are for them, with their short waits */
        most(&seen[CLASSROOM], made_classroom);
        most(&seen[CLASSROOM_WITH], made_classroom_with);
        most(&seen[NEW], made);
        most(&seen[NEW_WITH], made_with);
        for (int n = 0; n < 40; n++) {
            sound();
            most(&seen[FRAME], framed);
            most(&seen[FRAME_EACH], framed_each);
            most(&seen[SHORT], framed_short);
            most(&seen[SHORT_EACH], framed_short_each);
            most(&seen[INTERLEAVED], framed_interleaved);
            most(&seen[APART], framed_apart);
            most(&seen[UNIT], framed_unit);
            most(&seen[RECOMMEND], recommend);
        }
        most(&seen[INITIALIZE], initialized);
        most(&seen[SWITCH], switched);
        most(&seen[STORED], stored);
        most(&seen[METRICS], metrics);
    }
    int wrong = 0;
    for (int i = 0; i < CALLS; i++) {
        printf("stack: %s, %ld bytes%s\n", names[i], seen[i], seen[i] > bounds[i] ? ", MORE THAN THE HEADER SAYS" : "");
        wrong += seen[i] > bounds[i];
    }
    return wrong != 0;
}
