/* Ways to count clipped samples in the loop that sums the squares and finds the peaks, for two channels of 480 samples at once, in nanoseconds; and counting alone, and measuring one channel.
 * The loops are those of clipping_predictor_level_buffer/src/level.rt, and of measuring.rt with the predictor off, in C. In "clipped" every fourth turn of four samples has a clipped one.
 *
 *     clang -O3 -ffp-contract=off counts.c -o counts && ./counts
 */
#include <stddef.h>
#include <stdint.h>
#include <stdio.h>
#include <string.h>
#include <time.h>

enum { SAMPLES = 480, CALLS = 1000, ROUNDS = 200 };

typedef struct { float w, x, y, z; } peaks;
typedef struct { uint32_t w, x, y, z; } counts;
typedef struct { float sum; peaks p; counts c; uint32_t n; } taking;

static inline float larger(float a, float b) { return a < b ? b : a; }

static inline float magnitude(float s) {
    uint32_t bits;
    memcpy(&bits, &s, 4);
    bits = s != s ? 0 : bits & 0x7fffffff;
    memcpy(&s, &bits, 4);
    return s;
}

static inline uint32_t count_of(float s) {
    if (s >= 32767.0f) return 1;
    if (s <= -32768.0f) return 1;
    return 0;
}

static inline int both(int a, int b) { return a ? b : 0; }
static inline int is_below(float s) { return magnitude(s) < 32767.0f; }

static inline float largest(peaks p) { return larger(larger(p.w, p.x), larger(p.y, p.z)); }

static inline taking summed(taking t, const float *s) {
    t.sum = t.sum + s[0] * s[0] + s[1] * s[1] + s[2] * s[2] + s[3] * s[3];
    t.p = (peaks){larger(t.p.w, magnitude(s[0])), larger(t.p.x, magnitude(s[1])), larger(t.p.y, magnitude(s[2])), larger(t.p.z, magnitude(s[3]))};
    return t;
}

static inline uint32_t four(const float *s) { return count_of(s[0]) + count_of(s[1]) + count_of(s[2]) + count_of(s[3]); }

static inline taking no_count(taking t, const float *s) { return summed(t, s); }

static inline taking in_four_parts(taking t, const float *s) {
    t = summed(t, s);
    t.c = (counts){t.c.w + count_of(s[0]), t.c.x + count_of(s[1]), t.c.y + count_of(s[2]), t.c.z + count_of(s[3])};
    return t;
}

static inline taking by_the_largest(taking t, const float *s) {
    t = summed(t, s);
    if (largest(t.p) < 32767.0f) return t;
    t.n += four(s);
    return t;
}

static inline taking by_all_four(taking t, const float *s) {
    t = summed(t, s);
    if (both(both(is_below(s[0]), is_below(s[1])), both(is_below(s[2]), is_below(s[3])))) return t;
    t.n += four(s);
    return t;
}

static inline float end(taking t) { return t.sum + largest(t.p) + (float)(t.n + t.c.w + t.c.x + t.c.y + t.c.z); }

#define TWO(way)                                                                  \
    __attribute__((noinline)) static float two_##way(const float *a, const float *b) { \
        taking s = {0}, t = {0};                                                  \
        for (size_t at = 0; 4 <= SAMPLES - at; at += 4) {                         \
            s = way(s, a + at);                                                   \
            t = way(t, b + at);                                                   \
        }                                                                         \
        return end(s) + end(t);                                                   \
    }

TWO(no_count)
TWO(in_four_parts)
TWO(by_the_largest)
TWO(by_all_four)

__attribute__((noinline)) static float one(const float *a, const float *b) {
    taking t = {0};
    (void)b;
    for (size_t at = 0; 4 <= SAMPLES - at; at += 4) t = by_all_four(t, a + at);
    return end(t);
}

__attribute__((noinline)) static float alone(const float *a, const float *b) {
    uint32_t n = 0;
    (void)b;
    for (size_t at = 0; at < SAMPLES; at++) n += count_of(a[at]);
    return (float)n;
}

static double now(void) {
    struct timespec t;
    clock_gettime(CLOCK_MONOTONIC, &t);
    return (double)t.tv_sec * 1e9 + (double)t.tv_nsec;
}

static double least(float (*way)(const float *, const float *), const float *a) {
    double best = 1e9;
    volatile float sink = 0;
    for (int r = 0; r < ROUNDS; r++) {
        double start = now();
        for (int i = 0; i < CALLS; i++) sink += way(a, a + SAMPLES);
        double each = (now() - start) / CALLS;
        if (each < best) best = each;
    }
    (void)sink;
    return best;
}

int main(void) {
    static float a[2 * SAMPLES];
    for (int clipped = 0; clipped < 2; clipped++) {
        for (int i = 0; i < 2 * SAMPLES; i++) a[i] = clipped && i % 16 == 0 ? 32767.0f : (float)(i * 7919 % 12000) - 6000.0f;
        printf("%s: no count %.0f, in four parts %.0f, by the largest %.0f, by all four %.0f; one channel %.0f; counting alone %.0f\n", clipped ? "clipped" : "quiet", least(two_no_count, a),
               least(two_in_four_parts, a), least(two_by_the_largest, a), least(two_by_all_four, a), least(one, a), least(alone, a));
    }
    return 0;
}
