/* 20,000 frames of so many channels with 160 samples each, the wait over, for `perf record` or copies.c:
 * clang -O2 -Iinclude oracle/bench/frames.c target/staticlib/libagc2.a -o target/frames && target/frames 1 */
#include <stdio.h>
#include <stdlib.h>

#include "agc2.h"

enum { FRAMES = 20000, SAMPLES = 160 };

int main(int count, char **words) {
    static agc2_controller controller;
    static float samples[AGC2_MAX_CHANNELS * SAMPLES];
    int channels = count == 2 ? atoi(words[1]) : 0;
    agc2_config config = agc2_default_config();
    config.clipped_wait_frames = 0;
    uint32_t refusal = agc2_new(&controller, channels, config);
    if (refusal != AGC2_ACCEPTED) {
        fprintf(stderr, "usage: frames CHANNELS; %s\n", agc2_words(refusal));
        return 2;
    }
    for (int i = 0; i < channels * SAMPLES; i++) samples[i] = (float)(i * 7919 % 12000) - 6000.0f;
    for (int i = 0; i < FRAMES; i++) agc2_analyze_input_audio(&controller, 200, SAMPLES, samples, (size_t)channels * SAMPLES);
    return 0;
}
