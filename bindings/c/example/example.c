/* A capture loop in small: a loud voice clips and the volume falls, at once and then with the speech level; quiet speech raises it again. */
#include <agc2.h>
#include <stdio.h>
#include <stdlib.h>

enum { SAMPLES = 480, CHANNELS = 2 };

typedef struct voice {
    int loudness;
    float speech_level_dbfs;
} voice;

static voice speaking(int frame) {
    static const voice normal = {30, -40.0f}, loud = {250, -20.0f}, quiet = {10, -60.0f};
    return frame < 100 ? normal : frame < 400 ? loud : quiet;
}

/* Ten milliseconds at 48 kHz of a tone in both channels, interleaved, as a device would hand it over at this volume. */
static void capture(int loudness, int32_t volume, int16_t *samples) {
    for (int i = 0; i < SAMPLES; i++) {
        int tone = (abs(i % 48 - 24) - 12) * loudness * volume / 12;
        for (int channel = 0; channel < CHANNELS; channel++) {
            samples[i * CHANNELS + channel] = (int16_t)(tone > INT16_MAX ? INT16_MAX : tone < INT16_MIN ? INT16_MIN : tone);
        }
    }
}

/* What went wrong, if anything. */
static int refused(uint32_t refusal) {
    if (refusal != AGC2_ACCEPTED) {
        fprintf(stderr, "refused with %u: %s\n", (unsigned)refusal, agc2_words(refusal));
    }
    return refusal != AGC2_ACCEPTED;
}

int main(void) {
    agc2_controller controller;
    if (refused(agc2_new(&controller, CHANNELS, agc2_default_config()))) {
        return 1;
    }
    int32_t volume = 200;
    for (int frame = 0; frame < 900; frame++) {
        int16_t samples[SAMPLES * CHANNELS];
        voice v = speaking(frame);
        capture(v.loudness, volume, samples);
        if (refused(agc2_analyze_interleaved_i16(&controller, volume, SAMPLES, samples, SAMPLES * CHANNELS))) {
            return 1;
        }
        int32_t recommended = volume;
        if (agc2_recommend_input_volume(&controller, 0.95f, &v.speech_level_dbfs, &recommended) && recommended != volume) {
            printf("frame %3d: volume %3d -> %3d%s\n", frame, (int)volume, (int)recommended, agc2_near(&controller) ? ", near an edge" : "");
            volume = recommended;
        }
    }
    printf("volume %d at the end\n", (int)volume);
    return 0;
}
