/*
 * The placing and the taking of client bytes with AVX-512, as the limit: 64 payload bytes at a
 * time, which one instruction spreads or packs by a mask.
 *
 * Payload byte n is a place where n * c mod s < c. The mask's 64 lanes hold that remainder scaled
 * to 16 bits: that of the block's beginning and that of the lane are each rounded down, by less
 * than 1, and 3 is added. A step of the remainder is 65,536 / s, more than 4 as s is at most
 * 15,232, so that the places are exactly the lanes below 65,536 * c / s, rounded down, plus 1.
 */
#include "placing.h"
#include <string.h>

#ifdef __x86_64__
#pragma GCC push_options
#pragma GCC target("avx512f,avx512bw,avx512vl,avx512vbmi2,bmi2,popcnt")
#include <immintrin.h>

struct scale {
    __m512i lanes[2], below;
    /* The step from block to block, in 1 / 2^64. */
    uint64_t step;
};

static inline struct scale scale_of(uint64_t s, uint64_t c)
{
    uint16_t lanes[64];
    uint32_t one = (uint32_t)((c << 32) / s);
    for (uint32_t i = 0; i < 64; i++)
        lanes[i] = (uint16_t)(((i + 1) * one >> 16) + 3);
    return (struct scale){
        {_mm512_loadu_si512(lanes), _mm512_loadu_si512(lanes + 32)},
        _mm512_set1_epi16((short)((one >> 16) + 1)),
        (c << 48) / s << 22,
    };
}

static inline __mmask64 places(struct scale scale, uint64_t x)
{
    __m512i begin = _mm512_set1_epi16((short)(x >> 48));
    __m512i low = _mm512_add_epi16(scale.lanes[0], begin);
    __m512i high = _mm512_add_epi16(scale.lanes[1], begin);
    return _mm512_kunpackd(_mm512_cmplt_epu16_mask(high, scale.below),
                           _mm512_cmplt_epu16_mask(low, scale.below));
}

/* The first n lanes, or all 64. */
static inline __mmask64 first(size_t n)
{
    return _bzhi_u64(~0ull, n < 64 ? (unsigned)n : 64);
}

static void place_wide(uint8_t *frame, const uint8_t *client, size_t k, size_t c)
{
    const uint8_t *end = client + c;
    struct scale scale = scale_of(4 * k, c);
    for (size_t row = 0; row < 4; row++) {
        uint8_t *part = frame + row * (k + 2) + 2;
        uint64_t x = (uint64_t)(row * c % 4) << 62;
        size_t i = 0;
        for (; i + 64 <= k && end - client >= 64; i += 64, x += scale.step) {
            __mmask64 mask = places(scale, x);
            __m512i bytes = _mm512_loadu_si512(client);
            _mm512_storeu_si512(part + i, _mm512_maskz_expand_epi8(mask, bytes));
            client += _mm_popcnt_u64(mask);
        }
        for (; i < k; i += 64, x += scale.step) {
            __mmask64 here = first(k - i), mask = places(scale, x) & here;
            size_t n = (size_t)_mm_popcnt_u64(mask);
            __m512i bytes = _mm512_maskz_loadu_epi8(first(n), client);
            _mm512_mask_storeu_epi8(part + i, here, _mm512_maskz_expand_epi8(mask, bytes));
            client += n;
        }
    }
}

static void take_wide(const uint8_t *frame, uint8_t *out, size_t k, size_t c)
{
    const uint8_t *end = out + c;
    struct scale scale = scale_of(4 * k, c);
    for (size_t row = 0; row < 4; row++) {
        const uint8_t *part = frame + row * (k + 2) + 2;
        uint64_t x = (uint64_t)(row * c % 4) << 62;
        size_t i = 0;
        for (; i + 64 <= k && end - out >= 64; i += 64, x += scale.step) {
            __mmask64 mask = places(scale, x);
            __m512i bytes = _mm512_loadu_si512(part + i);
            _mm512_storeu_si512(out, _mm512_maskz_compress_epi8(mask, bytes));
            out += _mm_popcnt_u64(mask);
        }
        for (; i < k; i += 64, x += scale.step) {
            __mmask64 here = first(k - i), mask = places(scale, x) & here;
            size_t n = (size_t)_mm_popcnt_u64(mask);
            __m512i bytes = _mm512_maskz_loadu_epi8(here, part + i);
            _mm512_mask_storeu_epi8(out, first(n), _mm512_maskz_compress_epi8(mask, bytes));
            out += n;
        }
    }
}

#pragma GCC pop_options

int wide_here(void)
{
    return __builtin_cpu_supports("avx512vbmi2") && __builtin_cpu_supports("avx512bw") &&
           __builtin_cpu_supports("avx512vl") && __builtin_cpu_supports("bmi2");
}

int wide_at(size_t k, size_t c)
{
    size_t s = 4 * k;
    return k > 8 && c < s && (k <= 128 || (s <= 16 * c && 16 * c <= 15 * s)) && wide_here();
}

void wide_place(uint8_t *frame, const uint8_t *client, size_t k, size_t c)
{
    (wide_at(k, c) ? place_wide : best_place)(frame, client, k, c);
}

void wide_take(const uint8_t *frame, uint8_t *out, size_t k, size_t c)
{
    (wide_at(k, c) ? take_wide : best_take)(frame, out, k, c);
}
#else
int wide_here(void)
{
    return 0;
}

int wide_at(size_t k, size_t c)
{
    (void)k, (void)c;
    return 0;
}

void wide_place(uint8_t *frame, const uint8_t *client, size_t k, size_t c)
{
    best_place(frame, client, k, c);
}

void wide_take(const uint8_t *frame, uint8_t *out, size_t k, size_t c)
{
    best_take(frame, out, k, c);
}
#endif
