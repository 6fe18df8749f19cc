/* The input volume controller of WebRTC's AGC2, over a library in which every function is proved to meet its contract.
 *
 * Link libagc2.a or libagc2.so, which `tools/install` puts under a prefix with this file, pkg-config's agc2.pc and CMake's package agc2, or target/staticlib/libagc2.a, which `tools/archive` writes
 * (x86-64, System V ABI; the archive needs memcpy and memset and nothing else). An archive of another layout does not link: the name in AGC2_LAYOUT is not in it.
 *
 *     agc2_controller controller;
 *     uint32_t refusal = agc2_new(&controller, 1, agc2_default_config());
 *     refusal = agc2_analyze_input_audio(&controller, volume, 480, samples, 480);
 *     int32_t recommended;
 *     if (agc2_recommend_input_volume(&controller, 0.9f, &level, &recommended)) { .. apply it .. }
 *
 * A frame is 10 ms of sound, at up to 48 kHz, as floats on the 16-bit scale, -32768 to 32767. Samples from -1.0 to 1.0 are all but silence on it and never clip: these, and 16-bit samples, have entries of
 * their own (agc2_analyze_unit_channels, agc2_analyze_interleaved_i16).
 *
 * A call answers 0, or the number of its refusal (agc2_words), and a refused call leaves the controller's state, the words in it, as it was, byte for byte; but a making writes a controller in any case.
 * In front of the state stand the last answers: a frame, refused or not, writes `refusal` and `near` and sets `present` and `volume` to 0; a recommendation writes `present` and `volume`.
 *
 * No argument is out of bounds but two kinds: a pointer must be valid, with as many samples or volumes behind it as the count says, none of them within the controller; and a controller
 * must be one that a making (agc2_new, agc2_new_with_predictor, agc2_new_classroom, agc2_new_classroom_with_predictor) wrote and that nobody else wrote to. A controller has no pointer in it and
 * may be copied and moved; two threads must not use one at once.
 * The proofs take floats to work as they do by default: rounded to nearest, with no subnormal number flushed to zero.
 *
 * The stack that a call needs, as measured with clang and gcc at -O0 and -O2: 23.6 KB for a frame, 39.1 KB for one that is put in a frame's order first, 14.9 KB for a making, 14.2 KB for
 * agc2_stored_record and agc2_compute_partial_metrics, 1.9 KB for any other (bindings/c/stack.c); where memcpy is bound late, the first call needs 3 KB more. */
#ifndef AGC2_H
#define AGC2_H

#include <stddef.h>
#include <stdint.h>
#include <string.h>

#ifdef __cplusplus
extern "C" {
#endif

/* This header's version; agc2_version() is the archive's. A change of PATCH mends, one of MINOR adds, and one of MAJOR changes what is there. */
#define AGC2_VERSION_MAJOR 1
#define AGC2_VERSION_MINOR 0
#define AGC2_VERSION_PATCH 0
#define AGC2_VERSION (10000 * AGC2_VERSION_MAJOR + 100 * AGC2_VERSION_MINOR + AGC2_VERSION_PATCH)
#define AGC2_QUOTED_(token) #token
#define AGC2_QUOTED(token) AGC2_QUOTED_(token)
#define AGC2_VERSION_STRING AGC2_QUOTED(AGC2_VERSION_MAJOR) "." AGC2_QUOTED(AGC2_VERSION_MINOR) "." AGC2_QUOTED(AGC2_VERSION_PATCH)

/* The calls that are defined here are the including file's own. bindings/c/symbols.c has this empty, which makes each a symbol of the shared library. */
#ifndef AGC2_CALL
#define AGC2_CALL static inline
#endif

/* A making whose answer nobody reads may have been refused: the compiler warns. */
#define AGC2_ANSWER_MATTERS __attribute__((warn_unused_result))

enum { AGC2_MAX_CHANNELS = 8, AGC2_MAX_SAMPLES_PER_CHANNEL = 480 };

/* For whom a controller is made: everybody, or group teaching, as which any number above 1 is taken too. */
enum { AGC2_PLAIN = 0, AGC2_CLASSROOM = 1 };

/* What a frame through the word spotter's entry has at most. */
enum { AGC2_SPOTTER_MAX_CHANNELS = 2, AGC2_SPOTTER_MAX_SAMPLES_PER_CHANNEL = 160 };

/* The refusals of these calls: agc2_new has 1 to 6, agc2_new_with_predictor 7, 14 and 15 besides, each of these two for a classroom 19 besides, agc2_analyze_input_audio and the three
 * for samples as devices give them 8 and 9, agc2_analyze_input_audio_each 20 besides, the spotter's two 18 besides, agc2_compute_partial_metrics 11. */
enum {
    AGC2_ACCEPTED = 0,
    AGC2_CHANNEL_COUNT = 1,
    AGC2_MINIMUM_VOLUME = 2,
    AGC2_CLIPPED_LEVEL_STEP = 3,
    AGC2_WAIT_FRAMES = 4,
    AGC2_TARGET_RANGE = 5,
    AGC2_SPEECH_THRESHOLD = 6,
    AGC2_PREDICTOR_WINDOWS = 7,
    AGC2_INPUT_VOLUME = 8,
    AGC2_FRAME_SIZE = 9,
    AGC2_RING_RANGE = 11,
    AGC2_PREDICTOR_CAPACITY = 14,
    AGC2_PREDICTOR_LEVELS = 15,
    AGC2_FRAME_LIMITS = 18,
    AGC2_CLASSROOM_PROFILE = 19,
    AGC2_VOLUME_COUNT = 20
};

/* The settings, any bits; agc2_default_config has the original's. The predictor is off at 0, and on at any other number. */
typedef struct agc2_config {
    int32_t min_input_volume;
    int32_t clipped_level_min;
    int32_t clipped_level_step;
    float clipped_ratio_threshold;
    int32_t clipped_wait_frames;
    uint32_t enable_clipping_predictor;
    int32_t target_range_max_dbfs;
    int32_t target_range_min_dbfs;
    int32_t update_input_volume_wait_frames;
    float speech_probability_threshold;
    float speech_ratio_threshold;
} agc2_config;

/* How clipping is predicted, the original's ClippingPredictorMode. */
enum {
    AGC2_CLIPPING_EVENT_PREDICTION = 0,
    AGC2_ADAPTIVE_STEP_CLIPPING_PEAK_PREDICTION = 1,
    AGC2_FIXED_STEP_CLIPPING_PEAK_PREDICTION = 2
};

/* A predictor's settings, any bits; agc2_default_predictor_config has those that agc2_new and agc2_new_classroom take. A mode above 2 is taken as 2. Threshold and margin are whole thousandths of a dB,
 * where the original has floats in dB. There is no switch: that is enable_clipping_predictor of agc2_config. */
typedef struct agc2_predictor_config {
    uint32_t mode;
    int32_t window_length;
    int32_t reference_window_length;
    int32_t reference_window_delay;
    int32_t clipping_threshold;
    int32_t crest_factor_margin;
} agc2_predictor_config;

/* What a channel's ring keeps of a frame: 1 with the mean square, the largest magnitude and the number of clipped samples, or 0 and zeros where there is none. A sample is clipped at 32767 and above
 * and at -32768 and below, an infinity too, and never one that is not a number. */
typedef struct agc2_record {
    uint32_t present;
    float average;
    float max;
    uint32_t clipped;
} agc2_record;

/* Over some of these records: 0 or the refusal's number; and 1 with the mean of the mean squares, the largest magnitude and the clipped samples in total, or 0 and zeros where there are none and beside
 * a refusal. */
typedef struct agc2_metrics {
    uint32_t refusal;
    uint32_t present;
    float average;
    float max;
    uint32_t clipped;
} agc2_metrics;

/* ---- a controller; the words in it belong to the library. Every byte is written: equal settings and calls make equal bytes. A frame, refused or not, also writes
 * the four words that are no state: refusal and near, its answer, and present and volume, 0 until the next recommendation. */

typedef struct agc2_control_state {
    uint64_t words[39];
} agc2_control_state;

typedef struct agc2_predictor_state {
    uint64_t words[798];
} agc2_predictor_state;

/* All but the predictor, with the answer to the last recommendation: 1 and the volume, or 0 and 0 for none. */
typedef struct agc2_control {
    uint32_t present;
    int32_t volume;
    agc2_control_state state;
} agc2_control;

/* With the answer to its making or to its last frame: 0 or the refusal's number, and 1 if the frame is marked near; a refused one is not. */
typedef struct agc2_controller {
    uint32_t refusal;
    uint32_t near;
    agc2_control control;
    agc2_predictor_state predictor;
} agc2_controller;

/* ---- the functions of the archive; callers use those below */

/* Sizes, and the places of what stands within, in bytes, as the archive has them. */
typedef struct agc2_layout_of {
    uint32_t control_size;
    uint32_t control_state;
    uint32_t controller_size;
    uint32_t controller_control;
    uint32_t controller_predictor;
    uint32_t config_size;
    uint32_t record_size;
    uint32_t predictor_config_size;
    uint32_t metrics_size;
} agc2_layout_of;

/* The name carries the layout's version: it changes when sizes, places, numbers or a call's arguments do. */
#define AGC2_LAYOUT agc2_layout_1
agc2_layout_of AGC2_LAYOUT(void);

/* Every file that includes this one asks the linker for that name, so that an archive of another layout is missing it. It is volatile for the makings, which read it: what nothing reads, a linker that
 * collects sections drops before it looks for names. */
__attribute__((used)) static agc2_layout_of (*const volatile agc2_layout_needed)(void) = AGC2_LAYOUT;

/* 10,000 * major + 100 * minor + patch. */
uint32_t agc2_version(void);
agc2_config agc2_default_config(void);
agc2_predictor_config agc2_default_predictor_config(void);
/* Beside the number of a refusal stands a working controller of one channel with the default settings. */
agc2_controller agc2_new_by_value(int32_t num_capture_channels, agc2_config config);
agc2_controller agc2_new_with_predictor_by_value(int32_t num_capture_channels, agc2_config config, agc2_predictor_config predictor);
agc2_controller agc2_new_in_profile_by_value(uint32_t profile, int32_t num_capture_channels, agc2_config config, agc2_predictor_config predictor);
agc2_control_state agc2_initialize_by_value(agc2_control_state control);
agc2_control_state agc2_handle_capture_output_used_change_by_value(agc2_control_state control, uint32_t capture_output_used);
void agc2_analyze_input_audio_into(agc2_controller *controller, int32_t applied_input_volume, size_t samples_per_channel, const float *samples, size_t count);
void agc2_analyze_input_audio_each_into(agc2_controller *controller, const int32_t *volumes, size_t volume_count, size_t samples_per_channel, const float *samples, size_t count);
void agc2_spotter_analyze_input_audio_into(agc2_controller *controller, int32_t applied_input_volume, size_t samples_per_channel, const float *samples, size_t count);
void agc2_spotter_analyze_input_audio_each_into(agc2_controller *controller, const int32_t *volumes, size_t volume_count, size_t samples_per_channel, const float *samples, size_t count);
void agc2_recommend_input_volume_into(agc2_control *control, float speech_probability, uint32_t has_speech_level, float speech_level_dbfs);
int32_t agc2_recommended_input_volume_by_value(agc2_control_state control);
agc2_record agc2_stored_record_by_value(agc2_controller controller, size_t channel, size_t i);
agc2_metrics agc2_compute_partial_metrics_by_value(agc2_controller controller, size_t channel, int32_t delay, int32_t num_items);

/* Every making comes here. */
AGC2_ANSWER_MATTERS AGC2_CALL uint32_t agc2_new_in_profile(agc2_controller *controller, uint32_t profile, int32_t num_capture_channels, agc2_config config, agc2_predictor_config predictor) {
    (void)agc2_layout_needed;
    *controller = agc2_new_in_profile_by_value(profile, num_capture_channels, config, predictor);
    return controller->refusal;
}

/* ---- the calls */

/* A controller of 1 to 8 channels with a predictor of any mode, and its own windows, threshold and margin; or a refusal. Refused, *controller is one of one channel with the default settings, which works,
 * and has the refusal's number in `refusal`: so no call meets bytes that are no controller. First come 1 to 6, and then, whether the predictor is on or off, 7, 14 and 15: window and reference are
 * at least 1 frame, the delay of the reference is at least 0, delay + reference above the window (7) and at most 64 (14), threshold and margin are from -200,000 to 200,000 (15).
 *
 *     agc2_predictor_config predictor = agc2_default_predictor_config();
 *     predictor.mode = AGC2_CLIPPING_EVENT_PREDICTION;
 *     refusal = agc2_new_with_predictor(&controller, 1, agc2_default_config(), predictor); */
AGC2_ANSWER_MATTERS AGC2_CALL uint32_t agc2_new_with_predictor(agc2_controller *controller, int32_t num_capture_channels, agc2_config config, agc2_predictor_config predictor) {
    return agc2_new_in_profile(controller, AGC2_PLAIN, num_capture_channels, config, predictor);
}

/* The same with the original's predictor. Refuses with 1 to 6. */
AGC2_ANSWER_MATTERS AGC2_CALL uint32_t agc2_new(agc2_controller *controller, int32_t num_capture_channels, agc2_config config) {
    return agc2_new_with_predictor(controller, num_capture_channels, config, agc2_default_predictor_config());
}

/* A controller for group teaching, with a predictor of any mode. It takes a narrow set of settings, each bound included:
 *   - the predictor is on,
 *   - min_input_volume is 20 to 70,
 *   - clipped_level_min is at least min_input_volume,
 *   - target_range_min_dbfs is at most target_range_max_dbfs,
 *   - clipped_wait_frames and update_input_volume_wait_frames are at least 100,
 *   - clipped_ratio_threshold is 0 to 1, and so a number.
 * After any calls, a clipping frame that moves a channel's own volume off the one that is applied to it never moves it below min_input_volume, before the usual minimum is applied to all channels.
 * Refuses with 1 to 6, and then 7, 14 and 15, as agc2_new_with_predictor does, then with 19 any other settings; else it is the controller of agc2_new_with_predictor, byte for byte. */
AGC2_ANSWER_MATTERS AGC2_CALL uint32_t agc2_new_classroom_with_predictor(agc2_controller *controller, int32_t num_capture_channels, agc2_config config, agc2_predictor_config predictor) {
    return agc2_new_in_profile(controller, AGC2_CLASSROOM, num_capture_channels, config, predictor);
}

/* The same with the original's predictor. Refuses with 1 to 6, then with 19. agc2_default_config is within the profile. */
AGC2_ANSWER_MATTERS AGC2_CALL uint32_t agc2_new_classroom(agc2_controller *controller, int32_t num_capture_channels, agc2_config config) {
    return agc2_new_classroom_with_predictor(controller, num_capture_channels, config, agc2_default_predictor_config());
}

/* Starts anew, with capture on, but keeps the rings, the startup, the volumes and the wait after clipping. A recommendation is none then until a frame comes. */
AGC2_CALL void agc2_initialize(agc2_controller *controller) {
    controller->control.state = agc2_initialize_by_value(controller->control.state);
}

/* While the captured sound is not used (0), frames only set the volume, and recommendations repeat it, as often as they are asked. */
AGC2_CALL void agc2_handle_capture_output_used_change(agc2_controller *controller, uint32_t capture_output_used) {
    controller->control.state = agc2_handle_capture_output_used_change_by_value(controller->control.state, capture_output_used);
}

/* A frame of 10 ms, captured at the volume that is applied: the channels one after another, each of samples_per_channel samples, 1 to 480, on the 16-bit
 * scale, count in all. Refuses with 8 and 9, with capture off too. */
AGC2_CALL uint32_t agc2_analyze_input_audio(agc2_controller *controller, int32_t applied_input_volume, size_t samples_per_channel, const float *samples, size_t count) {
    agc2_analyze_input_audio_into(controller, applied_input_volume, samples_per_channel, samples, count);
    return controller->refusal;
}

/* The same where each microphone has a volume of its own: volume_count volumes, one for each channel in their order, taken whole or not at all. The lowest is the volume that is applied, which a
 * recommendation with capture off repeats, and with capture on the recommendation is the lowest of the channels. Only if every volume is above 0 it is raised to min_input_volume. Equal volumes are
 * agc2_analyze_input_audio, byte for byte. Refuses with 20 if volume_count is not the channel count, then with 8 if any volume is not 0 to 255, then with 9. */
AGC2_CALL uint32_t agc2_analyze_input_audio_each(agc2_controller *controller, const int32_t *volumes, size_t volume_count, size_t samples_per_channel, const float *samples, size_t count) {
    agc2_analyze_input_audio_each_into(controller, volumes, volume_count, samples_per_channel, samples, count);
    return controller->refusal;
}

/* The word spotter's entry: a frame of at most 2 channels and 160 samples per channel. A larger one is refused with 18, after every refusal of agc2_analyze_input_audio (8 and 9), and changes nothing;
 * any other frame is agc2_analyze_input_audio, byte for byte. So a controller of more than 2 channels takes no frame here. Both entries may be used on one controller. */
AGC2_CALL uint32_t agc2_spotter_analyze_input_audio(agc2_controller *controller, int32_t applied_input_volume, size_t samples_per_channel, const float *samples, size_t count) {
    agc2_spotter_analyze_input_audio_into(controller, applied_input_volume, samples_per_channel, samples, count);
    return controller->refusal;
}

/* The same where each microphone has a volume of its own, as agc2_analyze_input_audio_each. Refuses with 20, 8 and 9 as that does, then with 18. */
AGC2_CALL uint32_t agc2_spotter_analyze_input_audio_each(agc2_controller *controller, const int32_t *volumes, size_t volume_count, size_t samples_per_channel, const float *samples, size_t count) {
    agc2_spotter_analyze_input_audio_each_into(controller, volumes, volume_count, samples_per_channel, samples, count);
    return controller->refusal;
}

/* ---- samples as devices give them, put in a frame's order and on its scale. Each of these calls has the answer and leaves the bytes of agc2_analyze_input_audio with that frame. For a volume for each
 * microphone, and for the spotter, put the samples in a buffer of your own with the converters, which are proved, and call the entry that is meant. The buffer must not overlap the samples. */

/* count interleaved samples, at each moment channel after channel: frame[c * n + i] = samples[i * channels + c], where n = count / channels. Writes n * channels floats, each exact; or none, where
 * room is less or channels is 0. */
void agc2_frame_of_interleaved_i16(size_t channels, const int16_t *samples, size_t count, float *frame, size_t room);

/* Samples from -1.0 to 1.0, each times 32,768, which is exact but for what exceeds the largest float; or nothing is written, where room is less than count. 1.0 is clipped then, as -1.0 is. */
void agc2_frame_of_unit(const float *samples, size_t count, float *frame, size_t room);

/* The frame that one of the calls below put together. One that does not fit there is larger than any controller takes, and a frame of no samples is handed on for it: the definition refuses both
 * with 8 if the volume is wrong, and else with 9. */
static inline uint32_t agc2_analyze_converted(agc2_controller *controller, int32_t applied_input_volume, size_t samples_per_channel, const float *frame, size_t count, int fits) {
    return agc2_analyze_input_audio(controller, applied_input_volume, fits ? samples_per_channel : 0, frame, fits ? count : 0);
}

/* Each is tested, since their product may be too large for its type. */
static inline int agc2_channels_fit(size_t samples_per_channel, size_t channel_count) {
    return samples_per_channel <= AGC2_MAX_SAMPLES_PER_CHANNEL && channel_count <= AGC2_MAX_CHANNELS;
}

/* A frame of interleaved 16-bit samples, count in all. */
AGC2_CALL uint32_t agc2_analyze_interleaved_i16(agc2_controller *controller, int32_t applied_input_volume, size_t samples_per_channel, const int16_t *samples, size_t count) {
    float frame[AGC2_MAX_CHANNELS * AGC2_MAX_SAMPLES_PER_CHANNEL];
    const size_t room = sizeof frame / sizeof frame[0];
    agc2_frame_of_interleaved_i16(samples_per_channel != 0 ? count / samples_per_channel : 0, samples, count, frame, room);
    return agc2_analyze_converted(controller, applied_input_volume, samples_per_channel, frame, count, count <= room);
}

/* A frame whose channels stand apart, each of samples_per_channel floats on the 16-bit scale. */
AGC2_CALL uint32_t agc2_analyze_channels(agc2_controller *controller, int32_t applied_input_volume, size_t samples_per_channel, const float *const *channels, size_t channel_count) {
    float frame[AGC2_MAX_CHANNELS * AGC2_MAX_SAMPLES_PER_CHANNEL];
    const int fits = agc2_channels_fit(samples_per_channel, channel_count);
    for (size_t c = 0; fits && c < channel_count; c++) {
        if (samples_per_channel != 0) { /* a channel of no samples may be a null pointer */
            memcpy(frame + c * samples_per_channel, channels[c], samples_per_channel * sizeof frame[0]);
        }
    }
    return agc2_analyze_converted(controller, applied_input_volume, samples_per_channel, frame, channel_count * samples_per_channel, fits);
}

/* The same of floats from -1.0 to 1.0. */
AGC2_CALL uint32_t agc2_analyze_unit_channels(agc2_controller *controller, int32_t applied_input_volume, size_t samples_per_channel, const float *const *channels, size_t channel_count) {
    float frame[AGC2_MAX_CHANNELS * AGC2_MAX_SAMPLES_PER_CHANNEL];
    const int fits = agc2_channels_fit(samples_per_channel, channel_count);
    for (size_t c = 0; fits && c < channel_count; c++) {
        agc2_frame_of_unit(channels[c], samples_per_channel, frame + c * samples_per_channel, samples_per_channel);
    }
    return agc2_analyze_converted(controller, applied_input_volume, samples_per_channel, frame, channel_count * samples_per_channel, fits);
}

/* ---- what a controller answers */

/* 1 if the last frame compared levels so close, six thousandths of a dB apart or less, that the original, which rounds logarithms, may have decided otherwise
 * and so left another state, else 0; 0 after a refused frame. What follows may then differ from the original without a mark. */
AGC2_CALL uint32_t agc2_near(const agc2_controller *controller) {
    return controller->near;
}

/* 1 with the volume to apply in *volume; or 0, with *volume as it was, where no frame was accepted since the making, the last agc2_initialize or the last
 * recommendation with capture on, whichever came latest. With capture off it is the volume of the last frame, again and again. A null speech level is none. */
AGC2_CALL uint32_t agc2_recommend_input_volume(agc2_controller *controller, float speech_probability, const float *speech_level_dbfs, int32_t *volume) {
    agc2_recommend_input_volume_into(&controller->control, speech_probability, speech_level_dbfs != NULL, speech_level_dbfs != NULL ? *speech_level_dbfs : 0.0f);
    if (controller->control.present != 0) {
        *volume = controller->control.volume;
    }
    return controller->control.present;
}

/* The controller's volume. */
AGC2_CALL int32_t agc2_recommended_input_volume(const agc2_controller *controller) {
    return agc2_recommended_input_volume_by_value(controller->control.state);
}

/* The i-th record that a channel's ring stores, the newest being the 0th. */
AGC2_CALL agc2_record agc2_stored_record(const agc2_controller *controller, size_t channel, size_t i) {
    return agc2_stored_record_by_value(*controller, channel, i);
}

/* Metrics over num_items records of a channel's ring, those behind the newest `delay`: what a fitter reads to see a clipped stretch. There are none where fewer than delay + num_items are stored, and so
 * in a channel that is not there. Clipping that is found or predicted, after which the volume falls, empties the rings; in the wait after it they fill again. Refuses with 11 a negative delay, num_items
 * below 1, and a sum of both above what a ring holds, which is the predictor's delay + reference: 10 with the original's. */
AGC2_CALL agc2_metrics agc2_compute_partial_metrics(const agc2_controller *controller, size_t channel, int32_t delay, int32_t num_items) {
    return agc2_compute_partial_metrics_by_value(*controller, channel, delay, num_items);
}

/* For languages that cannot read this file: how many bytes to give a controller, at an address that is a multiple of 8. */
AGC2_CALL size_t agc2_controller_size(void) {
    return sizeof(agc2_controller);
}

/* A refusal in words. */
AGC2_CALL const char *agc2_words(uint32_t refusal) {
    switch (refusal) {
    case AGC2_ACCEPTED:
        return "accepted";
    case AGC2_CHANNEL_COUNT:
        return "channel count not 1 to 8";
    case AGC2_MINIMUM_VOLUME:
        return "min_input_volume or clipped_level_min not 0 to 255";
    case AGC2_CLIPPED_LEVEL_STEP:
        return "clipped_level_step not 1 to 255";
    case AGC2_WAIT_FRAMES:
        return "clipped_wait_frames or update_input_volume_wait_frames not 0 to 65,535";
    case AGC2_TARGET_RANGE:
        return "a target not -90 to 30 dBFS";
    case AGC2_SPEECH_THRESHOLD:
        return "speech probability or speech ratio threshold not 0 to 1, or not a number";
    case AGC2_PREDICTOR_WINDOWS:
        return "predictor window or reference below 1, delay below 0, or delay + reference not above window";
    case AGC2_INPUT_VOLUME:
        return "a volume not 0 to 255";
    case AGC2_FRAME_SIZE:
        return "samples per channel not 1 to 480, or lent samples not channels \xc3\x97 that";
    case AGC2_RING_RANGE:
        return "delay negative, item count below 1, or their sum above the ring's capacity";
    case AGC2_PREDICTOR_CAPACITY:
        return "predictor delay + reference above 64";
    case AGC2_PREDICTOR_LEVELS:
        return "predictor threshold or margin not -200,000 to 200,000 thousandths of a dB";
    case AGC2_FRAME_LIMITS:
        return "more channels or samples per channel than the spotter's 2 and 160";
    case AGC2_CLASSROOM_PROFILE:
        return "settings outside the classroom profile";
    case AGC2_VOLUME_COUNT:
        return "volumes not as many as the channels";
    default:
        return "no refusal of this library";
    }
}

#ifdef __cplusplus
}
#endif

#endif
