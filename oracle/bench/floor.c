// The floor: what no port that sums squares serially in f32 can fall below. Nothing but that sum, for every channel.
#include <stddef.h>

float floor_of(const float *samples, size_t channels, size_t samples_per_channel) {
    float all = 0.0f;
    for (size_t c = 0; c < channels; c++) {
        const float *part = samples + c * samples_per_channel;
        float sum = 0.0f;
        for (size_t i = 0; i < samples_per_channel; i++) {
            sum += part[i] * part[i];
        }
        all += sum / (float)samples_per_channel;
    }
    return all;
}
