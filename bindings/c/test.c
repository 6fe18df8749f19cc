/* Drives the archive through include/agc2.h. The sizes are held to what the archive states and to what it writes. */
#include "agc2.h"

#include <math.h>
#include <stdio.h>
#include <stdlib.h>
#include <string.h>

static int checks = 0;

static void check(int holds, const char *what) {
    checks++;
    if (!holds) {
        printf("FAILED: %s\n", what);
        exit(1);
    }
}

#define CHECK(fact) check((fact) != 0, #fact)

/* ---- the layout */

static void sizes_are_those_the_archive_states(void) {
    agc2_layout_of l = AGC2_LAYOUT();
    CHECK(l.control_size == sizeof(agc2_control));
    CHECK(l.control_state == offsetof(agc2_control, state));
    CHECK(l.controller_size == sizeof(agc2_controller));
    CHECK(l.controller_control == offsetof(agc2_controller, control));
    CHECK(l.controller_predictor == offsetof(agc2_controller, predictor));
    CHECK(l.config_size == sizeof(agc2_config));
    CHECK(l.record_size == sizeof(agc2_record));
    CHECK(l.predictor_config_size == sizeof(agc2_predictor_config));
    CHECK(l.metrics_size == sizeof(agc2_metrics));
    CHECK(agc2_controller_size() == sizeof(agc2_controller));
}

/* The archive is of the header's version, which is written in two ways. */
static void versions_agree(void) {
    char written_out[16];
    uint32_t version = agc2_version();
    snprintf(written_out, sizeof written_out, "%u.%u.%u", version / 10000, version / 100 % 100, version % 100);
    CHECK(version == AGC2_VERSION && strcmp(written_out, AGC2_VERSION_STRING) == 0);
}

/* What lies below the stack's end is filled, so that a byte which a call copies from there unwritten is seen. */
__attribute__((noinline)) static void fill_stack(int with) {
    volatile unsigned char below[32768];
    for (size_t i = 0; i < sizeof below; i++) {
        below[i] = (unsigned char)with;
    }
}

/* A large result is written through a pointer that is passed first. Called with that pointer in sight, a function shows what it writes:
 * every byte up to an end, each the same whatever stood there and on the stack before, and none from there on. */
typedef void *(*creates)(void *result, int32_t num_capture_channels, agc2_config config);
typedef void *(*creates_with)(void *result, int32_t num_capture_channels, agc2_config config, agc2_predictor_config predictor);
typedef void *(*creates_in)(void *result, uint32_t profile, int32_t num_capture_channels, agc2_config config, agc2_predictor_config predictor);
typedef void *(*initializes)(void *result, agc2_control_state control);
typedef void *(*computes)(void *result, agc2_controller controller, size_t channel, int32_t delay, int32_t num_items);

static _Alignas(8) unsigned char zeros[8192], ones[8192];

static size_t written(void) {
    size_t end = 0;
    while (end < sizeof zeros && zeros[end] == ones[end]) {
        end++;
    }
    for (size_t i = end; i < sizeof zeros; i++) {
        if (zeros[i] != 0 || ones[i] != 255) {
            return 0;
        }
    }
    return end;
}

static void before_writing(void) {
    memset(zeros, 0, sizeof zeros);
    memset(ones, 255, sizeof ones);
}

/* One way to make a controller of one channel, by its number: everybody's two, and within each profile. */
static void create(int way, void *result, agc2_config config) {
    creates plain = (creates)(void (*)(void))agc2_new_by_value;
    creates_with with = (creates_with)(void (*)(void))agc2_new_with_predictor_by_value;
    creates_in in_profile = (creates_in)(void (*)(void))agc2_new_in_profile_by_value;
    if (way == 0) {
        plain(result, 1, config);
    } else if (way == 1) {
        with(result, 1, config, agc2_default_predictor_config());
    } else {
        in_profile(result, way == 2 ? AGC2_PLAIN : AGC2_CLASSROOM, 1, config, agc2_default_predictor_config());
    }
}

/* With the predictor off the classroom's is refused. */
static void makings_write_a_controller(void) {
    for (int i = 0; i < 8; i++) {
        agc2_config d = agc2_default_config();
        d.enable_clipping_predictor = i < 4;
        before_writing();
        fill_stack(0);
        create(i % 4, zeros, d);
        fill_stack(255);
        create(i % 4, ones, d);
        CHECK(written() == sizeof(agc2_controller));
    }
}

static void sizes_are_those_the_archive_writes(void) {
    static const float frame[8] = {0};
    agc2_controller c;
    CHECK(agc2_new(&c, 8, agc2_default_config()) == 0);

    before_writing();
    memcpy(zeros, &c, sizeof c);
    memcpy(ones, &c, sizeof c);
    fill_stack(0);
    agc2_analyze_input_audio_into((agc2_controller *)(void *)zeros, 100, 1, frame, 8);
    fill_stack(255);
    agc2_analyze_input_audio_into((agc2_controller *)(void *)ones, 100, 1, frame, 8);
    CHECK(written() == sizeof(agc2_controller));

    static const int32_t volumes[8] = {100, 90, 80, 70, 60, 50, 40, 30};
    before_writing();
    memcpy(zeros, &c, sizeof c);
    memcpy(ones, &c, sizeof c);
    fill_stack(0);
    agc2_analyze_input_audio_each_into((agc2_controller *)(void *)zeros, volumes, 8, 1, frame, 8);
    fill_stack(255);
    agc2_analyze_input_audio_each_into((agc2_controller *)(void *)ones, volumes, 8, 1, frame, 8);
    CHECK(written() == sizeof(agc2_controller));

    initializes initialize = (initializes)(void (*)(void))agc2_initialize_by_value;
    before_writing();
    fill_stack(0);
    initialize(zeros, c.control.state);
    fill_stack(255);
    initialize(ones, c.control.state);
    CHECK(written() == sizeof(agc2_control_state));

    before_writing();
    memcpy(zeros, &c.control, sizeof c.control);
    memcpy(ones, &c.control, sizeof c.control);
    fill_stack(0);
    agc2_recommend_input_volume_into((agc2_control *)(void *)zeros, 0.5f, 0, 0.0f);
    fill_stack(255);
    agc2_recommend_input_volume_into((agc2_control *)(void *)ones, 0.5f, 0, 0.0f);
    CHECK(written() == sizeof(agc2_control));

    computes compute = (computes)(void (*)(void))agc2_compute_partial_metrics_by_value;
    before_writing();
    fill_stack(0);
    compute(zeros, c, 0, 0, 1);
    fill_stack(255);
    compute(ones, c, 0, 0, 1);
    CHECK(written() == sizeof(agc2_metrics));
}

/* ---- every byte */

static uint32_t below(uint32_t *seed, uint32_t limit) {
    *seed = *seed * 1664525u + 1013904223u;
    return (*seed >> 8) % limit;
}

/* A frame with a set of volumes; one in three is refused, with 20, 8 or 9. */
static uint32_t any_set(agc2_controller *c, size_t channels, size_t samples, const float *frame, uint32_t seed) {
    int32_t volumes[9];
    size_t volume_count = channels, count = channels * samples;
    for (int i = 0; i < 9; i++) {
        volumes[i] = (int32_t)below(&seed, 256);
    }
    switch (below(&seed, 9)) {
    case 0:
        volume_count = below(&seed, 2) ? channels + 1 : channels - 1;
        break;
    case 1:
        volumes[below(&seed, (uint32_t)channels)] = below(&seed, 2) ? -1 : 256;
        break;
    case 2:
        count--;
        break;
    }
    return agc2_analyze_input_audio_each(c, volumes, volume_count, samples, frame, count);
}

/* A frame through either entry, with one volume or with a set. */
typedef struct any_frame {
    size_t samples_per_channel, count;
    const float *samples;
    int each;
    int32_t volumes[9];
    size_t volume_count;
} any_frame;

static uint32_t through_plain(agc2_controller *c, const any_frame *f) {
    return f->each ? agc2_analyze_input_audio_each(c, f->volumes, f->volume_count, f->samples_per_channel, f->samples, f->count)
                   : agc2_analyze_input_audio(c, f->volumes[0], f->samples_per_channel, f->samples, f->count);
}

static uint32_t through_spotter(agc2_controller *c, const any_frame *f) {
    return f->each ? agc2_spotter_analyze_input_audio_each(c, f->volumes, f->volume_count, f->samples_per_channel, f->samples, f->count)
                   : agc2_spotter_analyze_input_audio(c, f->volumes[0], f->samples_per_channel, f->samples, f->count);
}

/* A frame for the spotter's entry: some are over its 160 samples, and some have what the plain entry refuses too, a set of another length, a volume that is none, or a sample too many. */
static any_frame spotters_frame(size_t channels, const float *samples, uint32_t seed) {
    any_frame f = {1 + below(&seed, 200), 0, samples, (int)below(&seed, 2), {0}, channels};
    if (below(&seed, 4) == 0) {
        f.samples_per_channel = 160 + below(&seed, 2);
    }
    f.count = channels * f.samples_per_channel;
    int32_t volume = (int32_t)below(&seed, 256);
    for (int i = 0; i < 9; i++) {
        f.volumes[i] = f.each ? (int32_t)below(&seed, 256) : volume;
    }
    switch (below(&seed, 12)) {
    case 0:
        f.volume_count = channels - 1;
        break;
    case 1:
        f.volumes[0] = below(&seed, 2) ? -1 : 256;
        break;
    case 2:
        f.count++;
        break;
    }
    return f;
}

/* One call of many kinds, the same for equal seeds. Its answer. */
static uint32_t any_call(agc2_controller *c, int32_t channels, uint32_t seed) {
    static float frame[8 * 480];
    static const float loudest[4] = {100.0f, 3000.0f, 30000.0f, 40000.0f};
    size_t samples = 1 + below(&seed, 480), count = (size_t)channels * samples;
    float loud = loudest[below(&seed, 4)];
    int32_t volume = -1;
    for (size_t i = 0; i < count; i++) {
        frame[i] = loud * ((float)below(&seed, 2001) / 1000.0f - 1.0f);
    }
    switch (below(&seed, 24)) {
    case 20:
    case 21:
    case 22:
    case 23: {
        any_frame f = spotters_frame((size_t)channels, frame, seed);
        return through_spotter(c, &f);
    }
    case 16:
    case 17:
    case 18:
    case 19:
        return any_set(c, (size_t)channels, samples, frame, seed);
    case 0:
        return agc2_analyze_input_audio(c, below(&seed, 2) ? -1 : 256, samples, frame, count);
    case 1:
        return agc2_analyze_input_audio(c, 100, samples, frame, count - 1);
    case 2:
        agc2_initialize(c);
        return 0;
    case 3:
        agc2_handle_capture_output_used_change(c, below(&seed, 4));
        return 0;
    case 4:
    case 5:
    case 6:
    case 7:
    case 8:
        loud = (float)below(&seed, 90) - 90.0f;
        return agc2_recommend_input_volume(c, 0.8f, below(&seed, 4) ? &loud : NULL, &volume);
    default:
        return agc2_analyze_input_audio(c, (int32_t)below(&seed, 256), samples, frame, count);
    }
}

static int is_refused_frame(uint32_t answer) {
    return answer == AGC2_INPUT_VOLUME || answer == AGC2_FRAME_SIZE || answer == AGC2_FRAME_LIMITS || answer == AGC2_VOLUME_COUNT;
}

/* A refused frame changes no byte of the state. The four words in front of it are its answer, 20, 8, 9 or 18 and not near, and no volume, since no recommendation came after it. */
static void refused_frame_keeps_the_state(const agc2_controller *before, const agc2_controller *after) {
    CHECK(memcmp(&before->control.state, &after->control.state, sizeof before->control.state) == 0);
    CHECK(memcmp(&before->predictor, &after->predictor, sizeof before->predictor) == 0);
    CHECK(is_refused_frame(after->refusal) && after->near == 0);
    CHECK(after->control.present == 0 && after->control.volume == 0);
}

/* Two controllers with one history, whatever stood in their memory and on the stack: equal in all bytes after every call. */
static void equal_histories_have_equal_bytes(void) {
    static agc2_controller one, other, before;
    int refused = 0;
    for (int32_t channels = 1; channels <= 8; channels++) {
        agc2_config d = agc2_default_config();
        d.clipped_wait_frames = channels * 3;
        d.update_input_volume_wait_frames = channels;
        d.enable_clipping_predictor = channels % 4 != 0;
        memset(&one, 0, sizeof one);
        memset(&other, 255, sizeof other);
        fill_stack(0x55);
        CHECK(agc2_new(&one, channels, d) == 0);
        fill_stack(0xaa);
        CHECK(agc2_new(&other, channels, d) == 0);
        CHECK(memcmp(&one, &other, sizeof one) == 0);
        for (uint32_t k = 0; k < 1000; k++) {
            uint32_t seed = k * 8 + (uint32_t)channels;
            memcpy(&before, &one, sizeof one);
            fill_stack(0x33);
            uint32_t answer = any_call(&one, channels, seed);
            fill_stack(0xcc);
            CHECK(any_call(&other, channels, seed) == answer);
            CHECK(memcmp(&one, &other, sizeof one) == 0);
            if (is_refused_frame(answer)) {
                refused_frame_keeps_the_state(&before, &one);
                refused++;
            }
        }
    }
    CHECK(refused > 100);
}

/* A set of equal volumes is the one volume: equal in all bytes after every call, refused frames among them. */
static void equal_volumes_are_one(void) {
    static agc2_controller one, each;
    static float frame[8 * 8];
    uint32_t seed = 7;
    for (int32_t channels = 1; channels <= 8; channels++) {
        agc2_config d = agc2_default_config();
        d.clipped_wait_frames = channels;
        CHECK(agc2_new(&one, channels, d) == 0 && agc2_new(&each, channels, d) == 0);
        for (int k = 0; k < 500; k++) {
            int32_t volume = (int32_t)below(&seed, 260) - 2, volumes[8], recommended;
            size_t samples = below(&seed, 9), count = (size_t)channels * samples;
            float loud = below(&seed, 3) ? 29000.0f : 33000.0f, level = (float)below(&seed, 90) - 90.0f;
            for (int i = 0; i < 8; i++) {
                volumes[i] = volume;
            }
            for (size_t i = 0; i < count; i++) {
                frame[i] = below(&seed, 4) ? (float)below(&seed, 500) : loud;
            }
            CHECK(agc2_analyze_input_audio(&one, volume, samples, frame, count) == agc2_analyze_input_audio_each(&each, volumes, (size_t)channels, samples, frame, count));
            CHECK(memcmp(&one, &each, sizeof one) == 0);
            agc2_recommend_input_volume(&one, 0.9f, &level, &recommended);
            agc2_recommend_input_volume(&each, 0.9f, &level, &recommended);
        }
    }
}

/* ---- the word spotter's entry */

/* A frame through the spotter's entry, and through the plain one on a copy. Refused there, or within the limits, it is the same in all bytes; else it is refused with 18, and no byte of the state changes. */
static uint32_t through_both(agc2_controller *c, int32_t channels, const any_frame *f) {
    static agc2_controller plain, before;
    memcpy(&plain, c, sizeof plain);
    memcpy(&before, c, sizeof before);
    uint32_t taken = through_plain(&plain, f), answer = through_spotter(c, f);
    if (taken != AGC2_ACCEPTED || (channels <= AGC2_SPOTTER_MAX_CHANNELS && f->samples_per_channel <= AGC2_SPOTTER_MAX_SAMPLES_PER_CHANNEL)) {
        CHECK(answer == taken && memcmp(c, &plain, sizeof plain) == 0);
    } else {
        CHECK(answer == AGC2_FRAME_LIMITS);
    }
    if (answer != AGC2_ACCEPTED) {
        refused_frame_keeps_the_state(&before, c);
    }
    return answer;
}

/* Through both entries, with capture on and off; each answer comes up. */
static void spotter_is_plain_within_its_limits(void) {
    static agc2_controller c;
    static float samples[8 * 480];
    uint32_t seed = 11, answers[21] = {0};
    for (int32_t channels = 1; channels <= 8; channels++) {
        agc2_config d = agc2_default_config();
        d.clipped_wait_frames = channels;
        CHECK(agc2_new(&c, channels, d) == 0);
        for (uint32_t k = 0; k < 600; k++) {
            float loud = below(&seed, 3) ? 29000.0f : 33000.0f, level = (float)below(&seed, 90) - 90.0f;
            int32_t recommended;
            for (size_t i = 0; i < 8 * 480; i++) {
                samples[i] = below(&seed, 4) ? (float)below(&seed, 500) : loud;
            }
            if (k % 50 == 0) {
                agc2_handle_capture_output_used_change(&c, k % 100 == 0);
            }
            any_frame f = spotters_frame((size_t)channels, samples, seed);
            answers[through_both(&c, channels, &f)]++;
            agc2_recommend_input_volume(&c, 0.9f, &level, &recommended);
        }
    }
    CHECK(answers[AGC2_ACCEPTED] > 500 && answers[AGC2_FRAME_LIMITS] > 500);
    CHECK(answers[AGC2_VOLUME_COUNT] > 100 && answers[AGC2_INPUT_VOLUME] > 100 && answers[AGC2_FRAME_SIZE] > 100);
}

/* At most 2 channels and 160 samples each. 20 comes before 8, 8 before 9, and 18 last, whatever else is wrong, with capture on and off. */
static void spotter_refusals(void) {
    static const float samples[3 * 480] = {0};
    static const struct {
        int32_t channels;
        any_frame frame;
        uint32_t refusal;
    } cases[16] = {
        {1, {160, 160, samples, 0, {200}, 1}, AGC2_ACCEPTED},
        {2, {160, 320, samples, 0, {200}, 2}, AGC2_ACCEPTED},
        {2, {160, 320, samples, 1, {200, 100}, 2}, AGC2_ACCEPTED},
        {1, {161, 161, samples, 0, {200}, 1}, AGC2_FRAME_LIMITS},
        {2, {161, 322, samples, 0, {200}, 2}, AGC2_FRAME_LIMITS},
        {1, {480, 480, samples, 0, {200}, 1}, AGC2_FRAME_LIMITS},
        {3, {1, 3, samples, 0, {200}, 3}, AGC2_FRAME_LIMITS},
        {3, {480, 1440, samples, 0, {200}, 3}, AGC2_FRAME_LIMITS},
        {2, {161, 322, samples, 1, {200, 100}, 2}, AGC2_FRAME_LIMITS},
        {3, {1, 3, samples, 1, {200, 100, 50}, 3}, AGC2_FRAME_LIMITS},
        {3, {161, 482, samples, 0, {200}, 3}, AGC2_FRAME_SIZE},
        {1, {481, 481, samples, 0, {200}, 1}, AGC2_FRAME_SIZE},
        {3, {161, 482, samples, 0, {256}, 3}, AGC2_INPUT_VOLUME},
        {3, {161, 483, samples, 1, {200, 100, -1}, 3}, AGC2_INPUT_VOLUME},
        {3, {161, 482, samples, 1, {200, 256, 50}, 2}, AGC2_VOLUME_COUNT},
        {3, {161, 483, samples, 1, {200, 100, 50}, 4}, AGC2_VOLUME_COUNT},
    };
    for (int i = 0; i < 16; i++) {
        for (uint32_t capture = 0; capture < 2; capture++) {
            agc2_controller c;
            int32_t volume = -1;
            CHECK(agc2_new(&c, cases[i].channels, agc2_default_config()) == 0);
            agc2_handle_capture_output_used_change(&c, capture);
            CHECK(agc2_analyze_input_audio(&c, 90, 480, samples, (size_t)cases[i].channels * 480) == AGC2_ACCEPTED);
            CHECK(through_both(&c, cases[i].channels, &cases[i].frame) == cases[i].refusal);
            CHECK(agc2_recommend_input_volume(&c, 0.0f, NULL, &volume) == 1 && (volume == 90) == (cases[i].refusal != AGC2_ACCEPTED));
        }
    }
    CHECK(strcmp(agc2_words(AGC2_FRAME_LIMITS), "more channels or samples per channel than the spotter's 2 and 160") == 0);
}

/* What a refused making leaves: beside the refusal's number, in all bytes the controller of one channel with the default settings. */
static void stands_refused(const agc2_controller *c, uint32_t refusal) {
    static agc2_controller expected;
    CHECK(agc2_new(&expected, 1, agc2_default_config()) == AGC2_ACCEPTED);
    expected.refusal = refusal;
    CHECK(memcmp(c, &expected, sizeof expected) == 0);
}

/* ---- the classroom profile */

/* The six conditions. A threshold that is not a number is neither at least 0 nor at most 1. */
static int in_classroom(agc2_config c) {
    return c.enable_clipping_predictor != 0 && c.min_input_volume >= 20 && c.min_input_volume <= 70 && c.clipped_level_min >= c.min_input_volume && c.target_range_min_dbfs <= c.target_range_max_dbfs &&
           c.clipped_wait_frames >= 100 && c.update_input_volume_wait_frames >= 100 && c.clipped_ratio_threshold >= 0.0f && c.clipped_ratio_threshold <= 1.0f;
}

/* What a making of the classroom left in a controller of bytes 0x55, and the whole that the archive hands back, are equal: accepted the plain controller in all bytes, else what a refusal leaves. */
static void made_as_answered(uint32_t answer, const agc2_controller *left, const agc2_controller *whole, const agc2_controller *plain) {
    CHECK(memcmp(left, whole, sizeof *left) == 0);
    if (answer == AGC2_ACCEPTED) {
        CHECK(memcmp(left, plain, sizeof *left) == 0);
    } else {
        stands_refused(left, answer);
    }
}

/* The classroom's making beside the plain one: a refusal of that comes first, and then 19. Its answer. */
static uint32_t classroom_with(int32_t channels, agc2_config config, agc2_predictor_config predictor) {
    static agc2_controller plain, left, whole;
    memset(&left, 0x55, sizeof left);
    uint32_t taken = agc2_new_with_predictor(&plain, channels, config, predictor), answer = agc2_new_classroom_with_predictor(&left, channels, config, predictor);
    whole = agc2_new_in_profile_by_value(AGC2_CLASSROOM, channels, config, predictor);
    CHECK(answer == (taken != AGC2_ACCEPTED ? taken : in_classroom(config) ? AGC2_ACCEPTED : AGC2_CLASSROOM_PROFILE));
    made_as_answered(answer, &left, &whole, &plain);
    return answer;
}

/* The same with the original's predictor. */
static uint32_t classroom(int32_t channels, agc2_config config) {
    static agc2_controller plain, left, whole;
    memset(&left, 0x55, sizeof left);
    uint32_t taken = agc2_new(&plain, channels, config), answer = agc2_new_classroom(&left, channels, config);
    whole = agc2_new_in_profile_by_value(UINT32_MAX, channels, config, agc2_default_predictor_config());
    CHECK(answer == classroom_with(channels, config, agc2_default_predictor_config()) && (taken == AGC2_ACCEPTED || answer == taken));
    made_as_answered(answer, &left, &whole, &plain);
    return answer;
}

/* Settings that the plain controller takes, on both sides of each end: min_input_volume, clipped_level_min, the step, the clipped-ratio threshold, the wait after clipping, the predictor, the upper and the
 * lower target, the wait between corrections, and the two thresholds of speech. */
static const struct {
    agc2_config config;
    uint32_t refusal;
} profile_cases[] = {
    {{20, 70, 15, 0.1f, 300, 1, -30, -50, 100, 0.7f, 0.6f}, AGC2_ACCEPTED},
    {{10, 5, 15, NAN, 99, 0, -50, -30, 99, 0.7f, 0.6f}, AGC2_CLASSROOM_PROFILE},
    {{20, 70, 15, 0.1f, 300, 0, -30, -50, 100, 0.7f, 0.6f}, AGC2_CLASSROOM_PROFILE},
    {{20, 70, 15, 0.1f, 300, 2, -30, -50, 100, 0.7f, 0.6f}, AGC2_ACCEPTED},
    {{20, 70, 15, 0.1f, 300, 0x80000000u, -30, -50, 100, 0.7f, 0.6f}, AGC2_ACCEPTED},
    {{0, 70, 15, 0.1f, 300, 1, -30, -50, 100, 0.7f, 0.6f}, AGC2_CLASSROOM_PROFILE},
    {{19, 70, 15, 0.1f, 300, 1, -30, -50, 100, 0.7f, 0.6f}, AGC2_CLASSROOM_PROFILE},
    {{21, 70, 15, 0.1f, 300, 1, -30, -50, 100, 0.7f, 0.6f}, AGC2_ACCEPTED},
    {{69, 255, 15, 0.1f, 300, 1, -30, -50, 100, 0.7f, 0.6f}, AGC2_ACCEPTED},
    {{70, 255, 15, 0.1f, 300, 1, -30, -50, 100, 0.7f, 0.6f}, AGC2_ACCEPTED},
    {{71, 255, 15, 0.1f, 300, 1, -30, -50, 100, 0.7f, 0.6f}, AGC2_CLASSROOM_PROFILE},
    {{255, 255, 15, 0.1f, 300, 1, -30, -50, 100, 0.7f, 0.6f}, AGC2_CLASSROOM_PROFILE},
    {{20, 0, 15, 0.1f, 300, 1, -30, -50, 100, 0.7f, 0.6f}, AGC2_CLASSROOM_PROFILE},
    {{20, 19, 15, 0.1f, 300, 1, -30, -50, 100, 0.7f, 0.6f}, AGC2_CLASSROOM_PROFILE},
    {{20, 20, 15, 0.1f, 300, 1, -30, -50, 100, 0.7f, 0.6f}, AGC2_ACCEPTED},
    {{45, 44, 15, 0.1f, 300, 1, -30, -50, 100, 0.7f, 0.6f}, AGC2_CLASSROOM_PROFILE},
    {{45, 45, 15, 0.1f, 300, 1, -30, -50, 100, 0.7f, 0.6f}, AGC2_ACCEPTED},
    {{70, 69, 15, 0.1f, 300, 1, -30, -50, 100, 0.7f, 0.6f}, AGC2_CLASSROOM_PROFILE},
    {{70, 70, 15, 0.1f, 300, 1, -30, -50, 100, 0.7f, 0.6f}, AGC2_ACCEPTED},
    {{20, 70, 15, 0.1f, 300, 1, -30, -30, 100, 0.7f, 0.6f}, AGC2_ACCEPTED},
    {{20, 70, 15, 0.1f, 300, 1, -30, -29, 100, 0.7f, 0.6f}, AGC2_CLASSROOM_PROFILE},
    {{20, 70, 15, 0.1f, 300, 1, 30, -90, 100, 0.7f, 0.6f}, AGC2_ACCEPTED},
    {{20, 70, 15, 0.1f, 300, 1, -90, 30, 100, 0.7f, 0.6f}, AGC2_CLASSROOM_PROFILE},
    {{20, 70, 15, 0.1f, 300, 1, 0, 1, 100, 0.7f, 0.6f}, AGC2_CLASSROOM_PROFILE},
    {{20, 70, 15, 0.1f, 300, 1, -1, 0, 100, 0.7f, 0.6f}, AGC2_CLASSROOM_PROFILE},
    {{20, 70, 15, 0.1f, 0, 1, -30, -50, 100, 0.7f, 0.6f}, AGC2_CLASSROOM_PROFILE},
    {{20, 70, 15, 0.1f, 99, 1, -30, -50, 100, 0.7f, 0.6f}, AGC2_CLASSROOM_PROFILE},
    {{20, 70, 15, 0.1f, 100, 1, -30, -50, 100, 0.7f, 0.6f}, AGC2_ACCEPTED},
    {{20, 70, 15, 0.1f, 65535, 1, -30, -50, 65535, 0.7f, 0.6f}, AGC2_ACCEPTED},
    {{20, 70, 15, 0.1f, 300, 1, -30, -50, 99, 0.7f, 0.6f}, AGC2_CLASSROOM_PROFILE},
    {{20, 70, 15, 0.1f, 300, 1, -30, -50, 0, 0.7f, 0.6f}, AGC2_CLASSROOM_PROFILE},
    {{20, 70, 15, 0.0f, 300, 1, -30, -50, 100, 0.7f, 0.6f}, AGC2_ACCEPTED},
    {{20, 70, 15, -0.0f, 300, 1, -30, -50, 100, 0.7f, 0.6f}, AGC2_ACCEPTED},
    {{20, 70, 15, 0x1p-149f, 300, 1, -30, -50, 100, 0.7f, 0.6f}, AGC2_ACCEPTED},
    {{20, 70, 15, -0x1p-149f, 300, 1, -30, -50, 100, 0.7f, 0.6f}, AGC2_CLASSROOM_PROFILE},
    {{20, 70, 15, 1.0f, 300, 1, -30, -50, 100, 0.7f, 0.6f}, AGC2_ACCEPTED},
    {{20, 70, 15, 0x1.000002p0f, 300, 1, -30, -50, 100, 0.7f, 0.6f}, AGC2_CLASSROOM_PROFILE},
    {{20, 70, 15, NAN, 300, 1, -30, -50, 100, 0.7f, 0.6f}, AGC2_CLASSROOM_PROFILE},
    {{20, 70, 15, -NAN, 300, 1, -30, -50, 100, 0.7f, 0.6f}, AGC2_CLASSROOM_PROFILE},
    {{20, 70, 15, INFINITY, 300, 1, -30, -50, 100, 0.7f, 0.6f}, AGC2_CLASSROOM_PROFILE},
    {{20, 70, 15, -INFINITY, 300, 1, -30, -50, 100, 0.7f, 0.6f}, AGC2_CLASSROOM_PROFILE},
};

static void classroom_takes_its_profile(void) {
    for (size_t i = 0; i < sizeof profile_cases / sizeof profile_cases[0]; i++) {
        agc2_controller plain;
        for (int32_t channels = 1; channels <= 8; channels++) {
            CHECK(agc2_new(&plain, channels, profile_cases[i].config) == AGC2_ACCEPTED);
            CHECK(classroom(channels, profile_cases[i].config) == profile_cases[i].refusal);
            for (uint32_t mode = 0; mode < 3; mode++) {
                agc2_predictor_config p = {mode, 1, 1, 1, -3500, 1500};
                CHECK(classroom_with(channels, profile_cases[i].config, p) == profile_cases[i].refusal);
            }
        }
    }
    CHECK(strcmp(agc2_words(AGC2_CLASSROOM_PROFILE), "settings outside the classroom profile") == 0);
}

/* Settings outside the profile that the plain controller refuses too, in the same order. */
static const struct {
    int32_t channels;
    agc2_config config;
    uint32_t refusal;
} earlier_cases[] = {
    {0, {10, 5, 15, NAN, 99, 0, -50, -30, 99, 0.7f, 0.6f}, AGC2_CHANNEL_COUNT},
    {9, {10, 5, 15, NAN, 99, 0, -50, -30, 99, 0.7f, 0.6f}, AGC2_CHANNEL_COUNT},
    {1, {-1, 5, 15, NAN, 99, 0, -50, -30, 99, 0.7f, 0.6f}, AGC2_MINIMUM_VOLUME},
    {1, {256, 5, 15, NAN, 99, 0, -50, -30, 99, 0.7f, 0.6f}, AGC2_MINIMUM_VOLUME},
    {1, {10, -1, 15, NAN, 99, 0, -50, -30, 99, 0.7f, 0.6f}, AGC2_MINIMUM_VOLUME},
    {1, {10, 256, 15, NAN, 99, 0, -50, -30, 99, 0.7f, 0.6f}, AGC2_MINIMUM_VOLUME},
    {1, {10, 5, 0, NAN, 99, 0, -50, -30, 99, 0.7f, 0.6f}, AGC2_CLIPPED_LEVEL_STEP},
    {1, {10, 5, 256, NAN, 99, 0, -50, -30, 99, 0.7f, 0.6f}, AGC2_CLIPPED_LEVEL_STEP},
    {1, {10, 5, 15, NAN, -1, 0, -50, -30, 99, 0.7f, 0.6f}, AGC2_WAIT_FRAMES},
    {1, {10, 5, 15, NAN, 65536, 0, -50, -30, 99, 0.7f, 0.6f}, AGC2_WAIT_FRAMES},
    {1, {10, 5, 15, NAN, 99, 0, -50, -30, -1, 0.7f, 0.6f}, AGC2_WAIT_FRAMES},
    {1, {10, 5, 15, NAN, 99, 0, -50, -30, 65536, 0.7f, 0.6f}, AGC2_WAIT_FRAMES},
    {1, {10, 5, 15, NAN, 99, 0, -91, -30, 99, 0.7f, 0.6f}, AGC2_TARGET_RANGE},
    {1, {10, 5, 15, NAN, 99, 0, 31, -30, 99, 0.7f, 0.6f}, AGC2_TARGET_RANGE},
    {1, {10, 5, 15, NAN, 99, 0, -50, -91, 99, 0.7f, 0.6f}, AGC2_TARGET_RANGE},
    {1, {10, 5, 15, NAN, 99, 0, -50, 31, 99, 0.7f, 0.6f}, AGC2_TARGET_RANGE},
    {1, {10, 5, 15, NAN, 99, 0, -50, -30, 99, NAN, 0.6f}, AGC2_SPEECH_THRESHOLD},
    {1, {10, 5, 15, NAN, 99, 0, -50, -30, 99, 0.7f, -1.0f}, AGC2_SPEECH_THRESHOLD},
};

/* 1 to 6 come before 19, and so do 7, 14 and 15, whichever of the conditions is broken. */
static void classroom_refuses_last(void) {
    static const struct {
        agc2_predictor_config predictor;
        uint32_t refusal;
    } predictors[4] = {
        {{1, 10, 5, 5, -1000, 3000}, AGC2_PREDICTOR_WINDOWS},
        {{1, 5, 5, 60, -1000, 3000}, AGC2_PREDICTOR_CAPACITY},
        {{1, 5, 5, 5, -200001, 3000}, AGC2_PREDICTOR_LEVELS},
        {{1, 5, 5, 5, -1000, 200001}, AGC2_PREDICTOR_LEVELS},
    };
    for (size_t i = 0; i < sizeof earlier_cases / sizeof earlier_cases[0]; i++) {
        CHECK(in_classroom(earlier_cases[i].config) == 0);
        CHECK(classroom(earlier_cases[i].channels, earlier_cases[i].config) == earlier_cases[i].refusal);
        for (int k = 0; k < 4; k++) {
            CHECK(classroom_with(earlier_cases[i].channels, earlier_cases[i].config, predictors[k].predictor) == earlier_cases[i].refusal);
        }
    }
    for (size_t i = 0; i < sizeof profile_cases / sizeof profile_cases[0]; i++) {
        for (int k = 0; k < 4; k++) {
            CHECK(classroom_with(1, profile_cases[i].config, predictors[k].predictor) == predictors[k].refusal);
        }
    }
}

/* From low to high, one in ten at an end; one in sixty lies beyond. */
static int32_t drawn(uint32_t *seed, int32_t low, int32_t high) {
    uint32_t kind = below(seed, 60), up = below(seed, 2);
    if (kind == 0) {
        return up ? high + 1 : low - 1;
    }
    if (kind < 7) {
        return up ? high : low;
    }
    return low + (int32_t)below(seed, (uint32_t)(high - low) + 1);
}

/* The same from 0 to 1. */
static float drawn_share(uint32_t *seed) {
    static const float ends[4] = {0.0f, -0.0f, 0x1p-149f, 1.0f}, beyond[6] = {-0x1p-149f, 0x1.000002p0f, NAN, -NAN, INFINITY, -INFINITY};
    uint32_t kind = below(seed, 60);
    return kind == 0 ? beyond[below(seed, 6)] : kind < 7 ? ends[below(seed, 4)] : (float)below(seed, 1001) / 1000.0f;
}

/* Settings, most of them in the profile or just beside it; one in forty has any bits in one place. */
static agc2_config any_config(uint32_t *seed) {
    agc2_config c = agc2_default_config();
    c.min_input_volume = below(seed, 12) ? drawn(seed, 20, 70) : drawn(seed, 0, 255);
    c.clipped_level_min = below(seed, 12) ? c.min_input_volume + drawn(seed, 0, 185) : drawn(seed, 0, 255);
    c.clipped_level_step = drawn(seed, 1, 255);
    c.clipped_ratio_threshold = drawn_share(seed);
    c.clipped_wait_frames = below(seed, 12) ? drawn(seed, 100, 65535) : drawn(seed, 0, 65535);
    c.enable_clipping_predictor = below(seed, 12);
    c.target_range_min_dbfs = drawn(seed, -90, 30);
    c.target_range_max_dbfs = below(seed, 12) ? c.target_range_min_dbfs + drawn(seed, 0, 20) : drawn(seed, -90, 30);
    c.update_input_volume_wait_frames = below(seed, 12) ? drawn(seed, 100, 65535) : drawn(seed, 0, 65535);
    c.speech_probability_threshold = drawn_share(seed);
    c.speech_ratio_threshold = drawn_share(seed);
    if (below(seed, 40) == 0) {
        uint32_t bits = below(seed, 65536) << 16;
        bits |= below(seed, 65536);
        memcpy((unsigned char *)&c + sizeof bits * below(seed, sizeof c / sizeof bits), &bits, sizeof bits);
    }
    return c;
}

static agc2_predictor_config any_predictor(uint32_t *seed) {
    agc2_predictor_config p = agc2_default_predictor_config();
    p.mode = below(seed, 4);
    p.window_length = drawn(seed, 1, 6);
    p.reference_window_length = drawn(seed, 1, 30);
    p.reference_window_delay = drawn(seed, 0, 40);
    p.clipping_threshold = drawn(seed, -200000, 200000);
    p.crest_factor_margin = drawn(seed, -200000, 200000);
    return p;
}

/* The answer is the plain refusal if there is one, else 19 or 0 by the six conditions; each answer comes up. */
static void classroom_answers_by_the_conditions(void) {
    static const uint32_t refusals_of_both[9] = {1, 2, 3, 4, 5, 6, 7, 14, 15};
    uint32_t seed = 19, answers[21] = {0};
    for (int k = 0; k < 30000; k++) {
        int32_t channels = drawn(&seed, 1, 8);
        agc2_config config = any_config(&seed);
        agc2_predictor_config predictor = any_predictor(&seed);
        answers[k % 2 ? classroom(channels, config) : classroom_with(channels, config, predictor)]++;
    }
    CHECK(answers[AGC2_ACCEPTED] > 3000 && answers[AGC2_CLASSROOM_PROFILE] > 3000);
    for (int i = 0; i < 9; i++) {
        CHECK(answers[refusals_of_both[i]] > 100);
    }
}

/* How often a frame moved a channel's own volume off its applied one: with one volume and with a set, and of both to the minimum itself and below it. */
typedef struct moves {
    int one, each, to_minimum, below_minimum;
} moves;

/* A state begins with 32 bytes for each channel, and the 28th of them is its own volume. */
static int32_t own_volume(const agc2_controller *c, int32_t channel) { return ((const unsigned char *)&c->control.state)[32 * channel + 27]; }

/* After an accepted frame. The controller's volume is the lowest of the channels' own, raised to the minimum unless 0 is applied: so these are what is read. */
static void count_moves(const agc2_controller *c, int32_t channels, int32_t least, const any_frame *f, moves *m) {
    int32_t lowest = 255, applied = 255;
    for (int32_t i = 0; i < channels; i++) {
        int32_t own = own_volume(c, i), given = f->volumes[f->each ? i : 0];
        lowest = own < lowest ? own : lowest;
        applied = given < applied ? given : applied;
        m->one += own != given && !f->each;
        m->each += own != given && f->each;
        m->to_minimum += own != given && own == least;
        m->below_minimum += own != given && own < least;
    }
    CHECK(agc2_recommended_input_volume(c) == (applied != 0 && lowest < least ? least : lowest));
}

/* A frame of a lesson, of which half clip. Most volumes are near the user's; with one above 255 a frame is refused. */
static any_frame lesson_frame(int32_t users, size_t channels, uint32_t *seed) {
    static float samples[8 * 4];
    any_frame f = {4, 4 * channels, samples, (int)below(seed, 2), {0}, channels};
    float loud = below(seed, 2) ? 33000.0f : 29500.0f;
    for (size_t i = 0; i < f.count; i++) {
        samples[i] = below(seed, 4) ? loud : (float)below(seed, 500);
    }
    for (int i = 0; i < 9; i++) {
        int32_t given = below(seed, 16) ? users - 12 + (int32_t)below(seed, 25) : (int32_t)below(seed, 256);
        f.volumes[i] = given < 0 ? 0 : given;
    }
    return f;
}

/* Frames through both entries, recommendations, initialises and capture switches. Now and then the user sets another volume, or takes the controller's. */
static void lesson(agc2_controller *c, int32_t channels, int32_t least, uint32_t *seed, moves *m) {
    int32_t users = 100;
    for (int k = 0; k < 600; k++) {
        uint32_t kind = below(seed, 100);
        float level = (float)below(seed, 90) - 90.0f;
        int32_t recommended;
        if (kind < 2) {
            agc2_initialize(c);
        } else if (kind < 8) {
            agc2_handle_capture_output_used_change(c, kind != 2);
        } else if (kind < 12) {
            users = kind < 10 ? agc2_recommended_input_volume(c) : (int32_t)below(seed, 256);
        }
        any_frame f = lesson_frame(users, (size_t)channels, seed);
        uint32_t answer = below(seed, 4) ? through_plain(c, &f) : through_spotter(c, &f);
        if (answer == AGC2_ACCEPTED) {
            count_moves(c, channels, least, &f, m);
        }
        if (below(seed, 4)) {
            agc2_recommend_input_volume(c, 0.9f, below(seed, 8) ? &level : NULL, &recommended);
        }
    }
}

/* Lessons with the shortest waits and a low clipped_level_min, so that much is moved: of controllers for a classroom, or of plain ones with clipped_level_min below min_input_volume. */
static moves lessons(int narrow) {
    static agc2_controller c;
    uint32_t seed = 12;
    moves m = {0, 0, 0, 0};
    for (int k = 0; k < 1000; k++) {
        int32_t channels = drawn(&seed, 1, 8);
        agc2_config config = any_config(&seed);
        agc2_predictor_config predictor = any_predictor(&seed);
        config.clipped_wait_frames = config.update_input_volume_wait_frames = 100 + k % 3;
        config.clipped_level_min = narrow ? config.min_input_volume + k % 2 * 20 : config.min_input_volume / 2;
        uint32_t answer = narrow ? agc2_new_classroom_with_predictor(&c, channels, config, predictor) : agc2_new_with_predictor(&c, channels, config, predictor);
        if (answer == AGC2_ACCEPTED) {
            lesson(&c, channels, config.min_input_volume, &seed, &m);
        }
    }
    return m;
}

/* In a classroom no frame moves a channel's own volume off its applied one to below min_input_volume, after any calls. The plain controller's frames do, where clipped_level_min lies below that. */
static void classroom_stays_above_the_minimum(void) {
    moves narrow = lessons(1), plain = lessons(0);
    CHECK(narrow.one > 1000 && narrow.each > 1000 && narrow.to_minimum > 500 && narrow.below_minimum == 0);
    CHECK(plain.one > 1000 && plain.each > 1000 && plain.below_minimum > 500);
}

/* ---- the calls */

static void default_settings(void) {
    agc2_config d = agc2_default_config();
    CHECK(d.min_input_volume == 20 && d.clipped_level_min == 70 && d.clipped_level_step == 15);
    CHECK(d.clipped_ratio_threshold == 0.1f && d.clipped_wait_frames == 300 && d.enable_clipping_predictor == 1);
    CHECK(d.target_range_max_dbfs == -30 && d.target_range_min_dbfs == -50 && d.update_input_volume_wait_frames == 100);
    CHECK(d.speech_probability_threshold == 0.7f && d.speech_ratio_threshold == 0.6f);
}

/* The example of document 01, "The frame-line program": frames of four samples, default settings, one channel. */
static void runs_the_example(agc2_controller *c) {
    static const float silent[4] = {0}, clipped[4] = {32767, 32767, 0, 0};
    int32_t volume = -1;
    CHECK(agc2_recommend_input_volume(c, 0.0f, NULL, &volume) == 0 && volume == -1);

    CHECK(agc2_analyze_input_audio(c, 0xc8, 4, silent, 4) == 0 && agc2_near(c) == 0);
    CHECK(agc2_recommend_input_volume(c, 0.0f, NULL, &volume) == 1 && volume == 0xc8);
    CHECK(agc2_analyze_input_audio(c, 0xc8, 4, clipped, 4) == 0);
    CHECK(agc2_recommend_input_volume(c, 0.0f, NULL, &volume) == 1 && volume == 0xb9);
    CHECK(agc2_analyze_input_audio(c, 0xb9, 4, silent, 4) == 0);
    CHECK(agc2_recommend_input_volume(c, 0.0f, NULL, &volume) == 1 && volume == 0xb9);
    CHECK(agc2_recommended_input_volume(c) == 0xb9);
}

/* So does what a refused making leaves: a caller who goes on has no bytes that a call may not have. */
static void the_example(void) {
    agc2_controller made, refused;
    CHECK(agc2_new(&made, 1, agc2_default_config()) == AGC2_ACCEPTED);
    runs_the_example(&made);
    memset(&refused, 0x55, sizeof refused);
    CHECK(agc2_new(&refused, 9, agc2_default_config()) == AGC2_CHANNEL_COUNT);
    runs_the_example(&refused);
}

/* With the tenth frame the windows are full, and its peak is compared with the threshold of -1 dB: 29,226 lies six thousandths of a dB above it, 29,229 seven. 32,766
 * lies one below a whole dB, but both sides of it lead to the same step, and so to the same state. */
static void marks(void) {
    static const float samples[3] = {29226, 29229, 32766};
    for (int k = 0; k < 3; k++) {
        agc2_controller c;
        CHECK(agc2_new(&c, 1, agc2_default_config()) == 0);
        for (int frame = 0; frame < 10; frame++)
            CHECK(agc2_analyze_input_audio(&c, 100, 1, &samples[k], 1) == 0 && agc2_near(&c) == (k == 0 && frame == 9));
    }
}

static void refused_making(int32_t channels, agc2_config config, uint32_t refusal) {
    agc2_controller c;
    memset(&c, 0x55, sizeof c);
    CHECK(agc2_new(&c, channels, config) == refusal);
    stands_refused(&c, refusal);
}

static void refusals(void) {
    static const float frame[961] = {0};
    agc2_config d = agc2_default_config();
    agc2_controller c;
    int32_t volume = 0;
    refused_making(0, d, AGC2_CHANNEL_COUNT);
    refused_making(9, d, AGC2_CHANNEL_COUNT);
    d.min_input_volume = 256;
    refused_making(1, d, AGC2_MINIMUM_VOLUME);
    d = agc2_default_config();
    d.clipped_level_step = 0;
    refused_making(1, d, AGC2_CLIPPED_LEVEL_STEP);
    d = agc2_default_config();
    d.clipped_wait_frames = 65536;
    refused_making(1, d, AGC2_WAIT_FRAMES);
    d = agc2_default_config();
    d.target_range_min_dbfs = -91;
    refused_making(1, d, AGC2_TARGET_RANGE);
    d = agc2_default_config();
    memset(&d.speech_ratio_threshold, 255, sizeof d.speech_ratio_threshold);
    refused_making(1, d, AGC2_SPEECH_THRESHOLD);
    CHECK(strcmp(agc2_words(AGC2_SPEECH_THRESHOLD), "speech probability or speech ratio threshold not 0 to 1, or not a number") == 0);

    CHECK(agc2_new(&c, 2, agc2_default_config()) == 0);
    CHECK(agc2_analyze_input_audio(&c, 200, 480, frame, 960) == AGC2_ACCEPTED);
    CHECK(agc2_analyze_input_audio(&c, -1, 480, frame, 960) == AGC2_INPUT_VOLUME);
    CHECK(agc2_analyze_input_audio(&c, 256, 480, frame, 960) == AGC2_INPUT_VOLUME);
    CHECK(agc2_analyze_input_audio(&c, 100, 480, frame, 961) == AGC2_FRAME_SIZE);
    CHECK(agc2_analyze_input_audio(&c, 100, 0, frame, 0) == AGC2_FRAME_SIZE);
    CHECK(agc2_analyze_input_audio(&c, 100, SIZE_MAX, frame, 960) == AGC2_FRAME_SIZE);
    CHECK(agc2_stored_record(&c, 0, 1).present == 0);
    CHECK(agc2_recommend_input_volume(&c, 0.0f, NULL, &volume) == 1 && volume == 200);
    CHECK(agc2_analyze_input_audio(&c, 255, 480, frame, 960) == AGC2_ACCEPTED);
}

/* With capture on or off, what is recommended after a silent frame with these volumes, and the controller's volume before that. A first frame ends the startup, in which a muted channel is raised. */
static void two_volumes(uint32_t capture, int32_t first, int32_t second, int32_t recommended, int32_t controllers) {
    static const float silent[2] = {0};
    int32_t volumes[2] = {first, second}, volume = -1;
    agc2_controller c;
    CHECK(agc2_new(&c, 2, agc2_default_config()) == 0);
    CHECK(agc2_analyze_input_audio(&c, 100, 1, silent, 2) == AGC2_ACCEPTED && agc2_recommend_input_volume(&c, 0.0f, NULL, &volume) == 1 && volume == 100);
    agc2_handle_capture_output_used_change(&c, capture);
    CHECK(agc2_analyze_input_audio_each(&c, volumes, 2, 1, silent, 2) == AGC2_ACCEPTED);
    CHECK(agc2_recommended_input_volume(&c) == controllers);
    CHECK(agc2_recommend_input_volume(&c, 0.0f, NULL, &volume) == 1 && volume == recommended);
}

/* min_input_volume is 20. The lowest volume is pending: it is raised only if it is above 0, so 0 and 200 raise nothing; with capture off it is repeated as it was given. */
static void lowest_volume(void) {
    two_volumes(1, 120, 90, 90, 90);
    two_volumes(1, 90, 120, 90, 90);
    two_volumes(1, 15, 10, 20, 20);
    two_volumes(1, 15, 200, 20, 20);
    two_volumes(1, 0, 200, 0, 0);
    two_volumes(1, 200, 0, 0, 0);
    two_volumes(0, 15, 10, 10, 20);
    two_volumes(0, 0, 200, 0, 0);
}

/* 20 comes before 8, and 8 before 9, whatever else is wrong; each leaves every byte of the state. */
static void set_refusals(void) {
    static const float frame[3] = {0};
    static const int32_t good[3] = {100, 200, 50}, bad[3] = {100, 300, 50};
    static const struct {
        const int32_t *volumes;
        size_t volume_count, samples, count;
        uint32_t refusal;
    } cases[9] = {
        {good, 1, 1, 2, AGC2_VOLUME_COUNT}, {good, 3, 1, 2, AGC2_VOLUME_COUNT}, {good, 0, 1, 2, AGC2_VOLUME_COUNT}, {bad, 3, 1, 2, AGC2_VOLUME_COUNT}, {bad, 3, 0, 3, AGC2_VOLUME_COUNT},
        {bad, 2, 1, 2, AGC2_INPUT_VOLUME},  {bad, 2, 1, 3, AGC2_INPUT_VOLUME},  {good, 2, 1, 3, AGC2_FRAME_SIZE},   {good, 2, 0, 0, AGC2_FRAME_SIZE},
    };
    agc2_controller c, before;
    int32_t volume = -1;
    CHECK(agc2_new(&c, 2, agc2_default_config()) == 0);
    CHECK(agc2_analyze_input_audio_each(&c, good, 2, 1, frame, 2) == AGC2_ACCEPTED);
    for (int i = 0; i < 9; i++) {
        memcpy(&before, &c, sizeof c);
        CHECK(agc2_analyze_input_audio_each(&c, cases[i].volumes, cases[i].volume_count, cases[i].samples, frame, cases[i].count) == cases[i].refusal);
        refused_frame_keeps_the_state(&before, &c);
    }
    CHECK(agc2_recommend_input_volume(&c, 0.0f, NULL, &volume) == 1 && volume == 100);
    CHECK(strcmp(agc2_words(AGC2_VOLUME_COUNT), "volumes not as many as the channels") == 0);
}

/* agc2_new is the making with the default predictor, byte for byte. */
static void default_predictor(void) {
    agc2_predictor_config p = agc2_default_predictor_config();
    agc2_controller plain, with;
    CHECK(p.mode == AGC2_ADAPTIVE_STEP_CLIPPING_PEAK_PREDICTION && p.clipping_threshold == -1000 && p.crest_factor_margin == 3000);
    CHECK(p.window_length == 5 && p.reference_window_length == 5 && p.reference_window_delay == 5);
    for (uint32_t on = 0; on < 2; on++) {
        agc2_config d = agc2_default_config();
        d.enable_clipping_predictor = on;
        CHECK(agc2_new(&plain, 3, d) == 0 && agc2_new_with_predictor(&with, 3, d, p) == 0);
        CHECK(memcmp(&plain, &with, sizeof plain) == 0);
    }
}

/* A ring of two records, and frames with the answers of an independent model: how many records are left, none after a prediction. */
static void modes(void) {
    static const struct {
        uint32_t mode;
        int32_t threshold;
        uint32_t frames[2][4];
        uint32_t left;
    } cases[4] = {
        {AGC2_CLIPPING_EVENT_PREDICTION, -3500, {{0x453b8000, 0x40e2ef57, 0xc11e1e16, 0x40d5329c}, {0xc6af74f7, 0xc61af31d, 0xc61af31d, 0x461af31d}}, 0},
        {AGC2_CLIPPING_EVENT_PREDICTION, 999, {{0xc08fd108, 0xc0b2736c, 0x453b8000, 0x3f8a5b7d}, {0xc70401d9, 0xc66926db, 0xc66926db, 0x466926db}}, 2},
        {AGC2_ADAPTIVE_STEP_CLIPPING_PEAK_PREDICTION, -2500, {{0xc0d765a4, 0xc05fd037, 0x4092a938, 0xc53b8000}, {0xc6c93ea0, 0x42303fab, 0xc2303fab, 0xc2303fab}}, 2},
        {AGC2_FIXED_STEP_CLIPPING_PEAK_PREDICTION, 500, {{0x3ff50c5b, 0xc118b027, 0x3fc31acb, 0x453b8000}, {0xc7018d14, 0x45b8fd21, 0xc5b8fd21, 0xc5b8fd21}}, 0},
    };
    for (int i = 0; i < 4; i++) {
        agc2_config d = agc2_default_config();
        agc2_predictor_config p = {cases[i].mode, 1, 1, 1, cases[i].threshold, 1500};
        agc2_controller c;
        d.clipped_ratio_threshold = 2.0f;
        d.clipped_wait_frames = 0;
        d.clipped_level_step = 5;
        CHECK(agc2_new_with_predictor(&c, 1, d, p) == 0);
        for (int k = 0; k < 2; k++) {
            float frame[4];
            memcpy(frame, cases[i].frames[k], sizeof frame);
            CHECK(agc2_analyze_input_audio(&c, 200, 4, frame, 4) == 0);
        }
        CHECK(agc2_stored_record(&c, 0, 0).present + agc2_stored_record(&c, 0, 1).present + agc2_stored_record(&c, 0, 2).present == cases[i].left);
    }
}

static void refused_making_with(int32_t channels, agc2_config config, agc2_predictor_config predictor, uint32_t refusal) {
    agc2_controller c;
    memset(&c, 0x55, sizeof c);
    CHECK(agc2_new_with_predictor(&c, channels, config, predictor) == refusal);
    stands_refused(&c, refusal);
}

/* After 1 to 6, and whether the predictor is on or off. */
static void predictor_refusals(void) {
    agc2_predictor_config p = agc2_default_predictor_config();
    agc2_controller c, other;
    for (uint32_t on = 0; on < 2; on++) {
        agc2_config d = agc2_default_config();
        d.enable_clipping_predictor = on;
        p = agc2_default_predictor_config();
        p.window_length = 10;
        refused_making_with(1, d, p, AGC2_PREDICTOR_WINDOWS);
        refused_making_with(9, d, p, AGC2_CHANNEL_COUNT);
        d.speech_ratio_threshold = 2.0f;
        refused_making_with(1, d, p, AGC2_SPEECH_THRESHOLD);
        d.speech_ratio_threshold = 0.5f;
        p.window_length = 1;
        p.reference_window_length = p.reference_window_delay = INT32_MAX;
        refused_making_with(1, d, p, AGC2_PREDICTOR_CAPACITY);
        p = agc2_default_predictor_config();
        p.clipping_threshold = -200001;
        refused_making_with(1, d, p, AGC2_PREDICTOR_LEVELS);
    }
    CHECK(strcmp(agc2_words(AGC2_PREDICTOR_CAPACITY), "predictor delay + reference above 64") == 0);
    p = agc2_default_predictor_config();
    p.mode = UINT32_MAX;
    CHECK(agc2_new_with_predictor(&c, 1, agc2_default_config(), p) == 0);
    p.mode = AGC2_FIXED_STEP_CLIPPING_PEAK_PREDICTION;
    CHECK(agc2_new_with_predictor(&other, 1, agc2_default_config(), p) == 0 && memcmp(&c, &other, sizeof c) == 0);
}

/* Any number but 0 is a yes. */
static void flags(void) {
    static const float frame[4] = {0};
    agc2_config d = agc2_default_config();
    agc2_controller on, off;
    int32_t volume = 0;
    d.enable_clipping_predictor = 0x80000000u;
    CHECK(agc2_new(&on, 1, d) == 0);
    d.enable_clipping_predictor = 0;
    CHECK(agc2_new(&off, 1, d) == 0);
    CHECK(agc2_analyze_input_audio(&on, 100, 4, frame, 4) == 0 && agc2_analyze_input_audio(&off, 100, 4, frame, 4) == 0);
    CHECK(agc2_stored_record(&on, 0, 0).present == 1);
    CHECK(agc2_stored_record(&off, 0, 0).present == 0);

    agc2_handle_capture_output_used_change(&on, 0);
    CHECK(agc2_analyze_input_audio(&on, 150, 4, frame, 4) == 0);
    CHECK(agc2_stored_record(&on, 0, 1).present == 0);
    CHECK(agc2_recommend_input_volume(&on, 0.9f, NULL, &volume) == 1 && volume == 150);
    CHECK(agc2_recommend_input_volume(&on, 0.9f, NULL, &volume) == 1 && volume == 150);
    agc2_handle_capture_output_used_change(&on, 256);
    CHECK(agc2_recommend_input_volume(&on, 0.9f, NULL, &volume) == 1);
    CHECK(agc2_recommend_input_volume(&on, 0.9f, NULL, &volume) == 0);
}

/* Initialise keeps the rings; each channel has its own part of the frame. */
static void records(void) {
    static const float frame[6] = {3, -4, 0, 1, 2, -5};
    agc2_controller c;
    int32_t volume = 0;
    CHECK(agc2_new(&c, 2, agc2_default_config()) == 0);
    CHECK(agc2_analyze_input_audio(&c, 100, 3, frame, 6) == 0);
    agc2_record first = agc2_stored_record(&c, 0, 0), second = agc2_stored_record(&c, 1, 0);
    CHECK(first.present == 1 && first.average == 25.0f / 3.0f && first.max == 4.0f);
    CHECK(second.present == 1 && second.average == 10.0f && second.max == 5.0f);
    CHECK(agc2_stored_record(&c, 0, 1).present == 0 && agc2_stored_record(&c, 2, 0).present == 0 && agc2_stored_record(&c, SIZE_MAX, SIZE_MAX).present == 0);
    agc2_initialize(&c);
    CHECK(agc2_stored_record(&c, 1, 0).max == 5.0f);
    CHECK(agc2_recommend_input_volume(&c, 0.0f, NULL, &volume) == 0);
}

/* 32,767 and above and -32,768 and below are clipped, infinities too; a not-a-number and -32,767 are not. */
static const float clipped_samples[5] = {32767.0f, -32768.0f, INFINITY, -INFINITY, 1e30f};
static const float other_samples[5] = {32766.0f, -32767.0f, NAN, 0.0f, -0.5f};

/* No ratio is above 1, so no frame counts as clipped, and with fewer than ten records nothing is predicted: nothing empties the rings. */
static agc2_controller with_rings_left(int32_t channels) {
    agc2_config d = agc2_default_config();
    agc2_controller c;
    d.clipped_ratio_threshold = 1.0f;
    CHECK(agc2_new(&c, channels, d) == 0);
    return c;
}

static void each_sample(void) {
    for (int i = 0; i < 5; i++) {
        agc2_controller c = with_rings_left(1);
        CHECK(agc2_analyze_input_audio(&c, 100, 1, &clipped_samples[i], 1) == 0 && agc2_stored_record(&c, 0, 0).clipped == 1);
        CHECK(agc2_analyze_input_audio(&c, 100, 1, &other_samples[i], 1) == 0 && agc2_stored_record(&c, 0, 0).clipped == 0);
        CHECK(agc2_stored_record(&c, 0, 1).clipped == 1 && agc2_compute_partial_metrics(&c, 0, 0, 2).clipped == 1);
    }
}

/* Eight samples of a channel, of which so many are clipped. */
static void put_part(float *part, int clipped) {
    for (int i = 0; i < 8; i++) {
        part[i] = i < clipped ? clipped_samples[i % 5] : other_samples[i % 5];
    }
}

enum { STRETCH = 5 };

static const int stretch[2][STRETCH] = {{0, 1, 8, 3, 0}, {8, 0, 2, 3, 5}};

/* The clipped samples of a channel in the items behind the newest `delay` frames. */
static uint32_t total(int channel, int delay, int items) {
    uint32_t sum = 0;
    for (int k = STRETCH - delay - items; k < STRETCH - delay; k++) {
        sum += (uint32_t)stretch[channel][k];
    }
    return sum;
}

/* Five frames of two channels, whose counts are kept apart: metrics up to five records, none up to ten, 11 above, and none for a third channel. */
static void clipped_stretch(void) {
    agc2_controller c = with_rings_left(2), before;
    for (int k = 0; k < STRETCH; k++) {
        float frame[16];
        put_part(frame, stretch[0][k]);
        put_part(frame + 8, stretch[1][k]);
        CHECK(agc2_analyze_input_audio(&c, 100, 8, frame, 16) == 0);
    }
    memcpy(&before, &c, sizeof c);
    for (int channel = 0; channel < 3; channel++) {
        for (int i = 0; i < STRETCH && channel < 2; i++) {
            CHECK(agc2_stored_record(&c, (size_t)channel, (size_t)i).clipped == (uint32_t)stretch[channel][STRETCH - 1 - i]);
        }
        for (int delay = 0; delay < 12; delay++) {
            for (int items = 1; items < 12; items++) {
                agc2_metrics m = agc2_compute_partial_metrics(&c, (size_t)channel, delay, items);
                int found = channel < 2 && delay + items <= STRETCH;
                CHECK(m.refusal == (delay + items > 10 ? AGC2_RING_RANGE : 0) && m.present == (uint32_t)found);
                CHECK(m.clipped == (found ? total(channel, delay, items) : 0));
            }
        }
        CHECK(agc2_compute_partial_metrics(&c, (size_t)channel, -1, 1).refusal == AGC2_RING_RANGE && agc2_compute_partial_metrics(&c, (size_t)channel, 0, 0).refusal == AGC2_RING_RANGE);
        CHECK(agc2_compute_partial_metrics(&c, (size_t)channel, INT32_MIN, INT32_MIN).refusal == AGC2_RING_RANGE);
        CHECK(agc2_compute_partial_metrics(&c, (size_t)channel, INT32_MAX, INT32_MAX).refusal == AGC2_RING_RANGE);
    }
    CHECK(memcmp(&c, &before, sizeof c) == 0);
    CHECK(strcmp(agc2_words(AGC2_RING_RANGE), "delay negative, item count below 1, or their sum above the ring's capacity") == 0);
}

/* The mean of the mean squares and the largest magnitude of the frames behind the newest; what is none has zeros. */
static void mean_and_peak(void) {
    static const float frames[3][2] = {{1, -1}, {3, -5}, {2, 2}};
    agc2_controller c = with_rings_left(1);
    for (int k = 0; k < 3; k++) {
        CHECK(agc2_analyze_input_audio(&c, 100, 2, frames[k], 2) == 0);
    }
    agc2_metrics found = agc2_compute_partial_metrics(&c, 0, 1, 2), none = agc2_compute_partial_metrics(&c, 0, 1, 3);
    CHECK(found.refusal == 0 && found.present == 1 && found.average == 9.0f && found.max == 5.0f && found.clipped == 0);
    CHECK(none.refusal == 0 && none.present == 0 && none.average == 0.0f && none.max == 0.0f && none.clipped == 0);
}

/* Clipping that is found empties the rings; in the wait after it they fill again. */
static void stretch_after_clipping(void) {
    static const float clipped[4] = {32767, 32767, 0, 0};
    agc2_controller c;
    CHECK(agc2_new(&c, 1, agc2_default_config()) == 0);
    CHECK(agc2_analyze_input_audio(&c, 200, 4, clipped, 4) == 0 && agc2_compute_partial_metrics(&c, 0, 0, 1).present == 0);
    CHECK(agc2_analyze_input_audio(&c, 200, 4, clipped, 4) == 0 && agc2_analyze_input_audio(&c, 200, 4, clipped, 4) == 0);
    CHECK(agc2_compute_partial_metrics(&c, 0, 0, 2).clipped == 4 && agc2_compute_partial_metrics(&c, 0, 1, 1).clipped == 2);
}

/* Speech that is too quiet raises the volume; without a speech level it stays. */
static void speech(void) {
    static const float frame[4] = {0};
    static const float quiet = -70.0f;
    agc2_controller with, without;
    int32_t raised = 0, kept = 0, highest = 0;
    CHECK(agc2_new(&with, 1, agc2_default_config()) == 0 && agc2_new(&without, 1, agc2_default_config()) == 0);
    for (int k = 0; k < 101; k++) {
        CHECK(agc2_analyze_input_audio(&with, 100, 4, frame, 4) == 0 && agc2_analyze_input_audio(&without, 100, 4, frame, 4) == 0);
        CHECK(agc2_recommend_input_volume(&with, 0.9f, &quiet, &raised) == 1);
        CHECK(agc2_recommend_input_volume(&without, 0.9f, NULL, &kept) == 1 && kept == 100);
        highest = raised > highest ? raised : highest;
    }
    CHECK(highest > 100);
}

/* ---- samples as devices give them */

enum { MOST = AGC2_MAX_CHANNELS * AGC2_MAX_SAMPLES_PER_CHANNEL };

/* What a device gives for one frame, and the frame that is meant: with room for a channel and a sample too many, since those are given too. */
static int16_t interleaved[MOST + 1];
static float apart[AGC2_MAX_CHANNELS + 1][AGC2_MAX_SAMPLES_PER_CHANNEL + 1], meant[(AGC2_MAX_CHANNELS + 1) * (AGC2_MAX_SAMPLES_PER_CHANNEL + 1)];
static const float *const channels_apart[AGC2_MAX_CHANNELS + 1] = {apart[0], apart[1], apart[2], apart[3], apart[4], apart[5], apart[6], apart[7], apart[8]};

/* Interleaved samples, and on a copy the frame that they mean, put in order by hand: equal answers, and equal bytes after them. */
static uint32_t through_interleaved(agc2_controller *c, int32_t volume, size_t samples_per_channel, size_t count) {
    agc2_controller plain = *c;
    size_t channels = samples_per_channel != 0 ? count / samples_per_channel : 0;
    for (size_t k = 0; k < channels * samples_per_channel; k++) {
        meant[k % channels * samples_per_channel + k / channels] = interleaved[k];
    }
    uint32_t answer = agc2_analyze_interleaved_i16(c, volume, samples_per_channel, interleaved, count);
    CHECK(answer == agc2_analyze_input_audio(&plain, volume, samples_per_channel, meant, count) && memcmp(c, &plain, sizeof plain) == 0);
    return answer;
}

/* The same of channels that stand apart, as they are or from -1.0 to 1.0. More than are here cannot be put in order; what is meant then is a frame that is as surely too large. */
static uint32_t through_channels(agc2_controller *c, int unit, int32_t volume, size_t samples_per_channel, size_t channel_count) {
    agc2_controller plain = *c;
    int here = samples_per_channel <= AGC2_MAX_SAMPLES_PER_CHANNEL + 1 && channel_count <= AGC2_MAX_CHANNELS + 1;
    size_t count = here ? channel_count * samples_per_channel : 0;
    for (size_t k = 0; k < count; k++) {
        meant[k] = apart[k / samples_per_channel][k % samples_per_channel] * (unit ? 32768.0f : 1.0f);
    }
    uint32_t answer = unit ? agc2_analyze_unit_channels(c, volume, samples_per_channel, channels_apart, channel_count)
                           : agc2_analyze_channels(c, volume, samples_per_channel, channels_apart, channel_count);
    CHECK(answer == agc2_analyze_input_audio(&plain, volume, here ? samples_per_channel : SIZE_MAX, meant, count) && memcmp(c, &plain, sizeof plain) == 0);
    return answer;
}

/* Loud or quiet, some with a sample that is none. */
static void any_sound(uint32_t *seed, float peak) {
    static const float odd[6] = {NAN, INFINITY, -INFINITY, 3e38f, -0.0f, 0x1p-149f};
    float loud = below(seed, 3) ? peak * 0.02f : peak;
    for (size_t k = 0; k < MOST + 1; k++) {
        interleaved[k] = (int16_t)((int32_t)below(seed, 65536) - 32768);
    }
    for (size_t c = 0; c < AGC2_MAX_CHANNELS + 1; c++) {
        for (size_t i = 0; i < AGC2_MAX_SAMPLES_PER_CHANNEL + 1; i++) {
            apart[c][i] = loud * ((float)below(seed, 2001) / 1000.0f - 1.0f);
        }
    }
    if (below(seed, 8) == 0) {
        apart[below(seed, 8)][0] = odd[below(seed, 6)];
    }
}

/* Through the three entries in turn on one controller; now and then there is a channel more or less, or a sample more. */
static void devices_frames_are_those_meant(void) {
    static agc2_controller c;
    uint32_t seed = 16, answers[21] = {0};
    for (int32_t channels = 1; channels <= 8; channels++) {
        agc2_config d = agc2_default_config();
        d.clipped_wait_frames = channels;
        CHECK(agc2_new(&c, channels, d) == 0);
        for (int k = 0; k < 300; k++) {
            size_t samples = below(&seed, 4) ? 1 + below(&seed, 480) : 480, fault = below(&seed, 24);
            size_t channel_count = (size_t)channels + (fault == 0 && channels < 8) - (fault == 1);
            int32_t volume = (int32_t)below(&seed, 270) - 7, recommended;
            float level = (float)below(&seed, 90) - 90.0f;
            any_sound(&seed, k % 3 == 2 ? 1.0f : 32768.0f);
            answers[k % 3 == 0 ? through_interleaved(&c, volume, samples, channel_count * samples + (fault == 2)) : through_channels(&c, k % 3 == 2, volume, samples, channel_count)]++;
            agc2_recommend_input_volume(&c, 0.9f, &level, &recommended);
        }
    }
    CHECK(answers[AGC2_ACCEPTED] > 1000 && answers[AGC2_INPUT_VOLUME] > 50 && answers[AGC2_FRAME_SIZE] > 50);
}

/* All 65,536 at once through the converter, and in frames of eight channels, each on a controller that keeps its records. */
static void every_16_bit_value(void) {
    static int16_t every[65536];
    static float ordered[65536];
    for (int32_t k = 0; k < 65536; k++) {
        every[k] = (int16_t)(k - 32768);
    }
    agc2_frame_of_interleaved_i16(8, every, 65536, ordered, 65536);
    for (int32_t k = 0; k < 65536; k++) {
        CHECK(ordered[k % 8 * 8192 + k / 8] == (float)(k - 32768));
    }
    for (size_t start = 0; start < 65536; start += MOST) {
        agc2_controller c = with_rings_left(8);
        size_t count = 65536 - start < MOST ? 65536 - start : MOST;
        memcpy(interleaved, every + start, count * sizeof *every);
        CHECK(through_interleaved(&c, 100, count / 8, count) == AGC2_ACCEPTED && agc2_stored_record(&c, 7, 0).present == 1);
    }
}

/* Nothing is written where the room is too small, and never more than was asked for. */
static void converters_keep_to_their_room(void) {
    static const int16_t seven[7] = {1, 2, 3, 4, 5, 6, 7};
    static const float units[3] = {1.0f, -1.0f, 3e38f}, untouched[7] = {9, 9, 9, 9, 9, 9, 9}, two_of_three[7] = {1, 4, 2, 5, 3, 6, 9};
    float frame[7];
    memcpy(frame, untouched, sizeof frame);
    agc2_frame_of_interleaved_i16(0, seven, 7, frame, 7);
    agc2_frame_of_interleaved_i16(8, seven, 7, frame, 7);
    agc2_frame_of_interleaved_i16(SIZE_MAX, seven, 7, frame, 7);
    agc2_frame_of_interleaved_i16(3, seven, 7, frame, 5);
    agc2_frame_of_unit(units, 3, frame, 2);
    CHECK(memcmp(frame, untouched, sizeof frame) == 0);
    agc2_frame_of_interleaved_i16(3, seven, 7, frame, 6);
    CHECK(memcmp(frame, two_of_three, sizeof frame) == 0);
    agc2_frame_of_unit(units, 3, frame, 3);
    CHECK(frame[0] == 32768.0f && frame[1] == -32768.0f && frame[2] == INFINITY && frame[3] == 5.0f);
}

/* 8 comes before 9, whatever else is wrong: no samples or channels, too many of them, counts that are no multiple, and counts whose product is beyond all numbers, or within them again. */
static void device_refusals(void) {
    static const struct {
        size_t samples_per_channel, channel_count, spare;
        uint32_t refusal;
    } cases[] = {
        {480, 2, 0, AGC2_ACCEPTED}, {1, 2, 0, AGC2_ACCEPTED}, {0, 0, 0, AGC2_FRAME_SIZE}, {0, 2, 0, AGC2_FRAME_SIZE}, {0, 0, 5, AGC2_FRAME_SIZE}, {1, 0, 0, AGC2_FRAME_SIZE},
        {480, 1, 0, AGC2_FRAME_SIZE}, {1, 3, 0, AGC2_FRAME_SIZE}, {480, 8, 0, AGC2_FRAME_SIZE}, {1, 9, 0, AGC2_FRAME_SIZE}, {480, 9, 0, AGC2_FRAME_SIZE}, {481, 2, 0, AGC2_FRAME_SIZE},
        {481, 8, 0, AGC2_FRAME_SIZE}, {7, 2, 1, AGC2_FRAME_SIZE}, {480, 8, 1, AGC2_FRAME_SIZE}, {480, 1, 479, AGC2_FRAME_SIZE}, {SIZE_MAX, 2, 0, AGC2_FRAME_SIZE}, {SIZE_MAX, SIZE_MAX, 0, AGC2_FRAME_SIZE},
        {480, SIZE_MAX / 480 + 3, 0, AGC2_FRAME_SIZE}, {SIZE_MAX / 2 + 2, 2, 0, AGC2_FRAME_SIZE},
    };
    static const int32_t volumes[3] = {200, -1, 256};
    for (size_t i = 0; i < sizeof cases / sizeof cases[0]; i++) {
        size_t samples = cases[i].samples_per_channel, channel_count = cases[i].channel_count, count = channel_count * samples + cases[i].spare;
        for (int k = 0; k < 3; k++) {
            uint32_t refusal = k == 0 ? cases[i].refusal : AGC2_INPUT_VOLUME;
            agc2_controller c;
            CHECK(agc2_new(&c, 2, agc2_default_config()) == 0);
            CHECK(count > MOST + 1 || samples > MOST || through_interleaved(&c, volumes[k], samples, count) == refusal);
            CHECK(cases[i].spare != 0 || (through_channels(&c, 0, volumes[k], samples, channel_count) == refusal && through_channels(&c, 1, volumes[k], samples, channel_count) == refusal));
        }
    }
}

int main(void) {
    sizes_are_those_the_archive_states();
    versions_agree();
    makings_write_a_controller();
    sizes_are_those_the_archive_writes();
    equal_histories_have_equal_bytes();
    equal_volumes_are_one();
    spotter_is_plain_within_its_limits();
    spotter_refusals();
    classroom_takes_its_profile();
    classroom_refuses_last();
    classroom_answers_by_the_conditions();
    classroom_stays_above_the_minimum();
    default_settings();
    the_example();
    marks();
    refusals();
    lowest_volume();
    set_refusals();
    default_predictor();
    modes();
    predictor_refusals();
    flags();
    records();
    each_sample();
    clipped_stretch();
    mean_and_peak();
    stretch_after_clipping();
    speech();
    devices_frames_are_those_meant();
    every_16_bit_value();
    converters_keep_to_their_room();
    device_refusals();
    printf("c: %d checks hold; a controller has %zu bytes\n", checks, sizeof(agc2_controller));
    return 0;
}
