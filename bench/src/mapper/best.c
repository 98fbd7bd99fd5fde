/*
 * The placing and the taking of client bytes as fast as C goes without intrinsics.
 *
 * With s payload bytes and d = s - c stuffing bytes, stuffing byte t (from 0) is payload byte
 * t * s / d (from 0), rounded down, and client byte j is payload byte ((j + 1) * s - 1) / c. Both
 * are stepped by one addition in fixed point. Each run of client bytes is copied as one block of a
 * fixed width, whose end the next run overwrites; the last runs, which no other overwrites, are
 * copied exactly. Up to about half of the payload client bytes are put and taken one by one, and on
 * a tiny grid the byte loop has the least to set up. The widths and the turning points were
 * measured on a Zen 4.
 */
#include "placing.h"
#include <string.h>

#define ALWAYS static inline __attribute__((always_inline))

/*
 * Bits after the point. A hop is rounded up, by at most 1; after t hops the error is at most t, and
 * must stay below 2^POINT / d: 2^28 is enough for 15,232 hops.
 */
enum { POINT = 40 };

ALWAYS uint64_t hop_of(size_t s, size_t parts)
{
    return ((uint64_t)s << POINT) / parts + 1;
}

/* Copies exactly m bytes; 4 to 31 as two blocks that may lie over each other. */
ALWAYS void copy_exactly(uint8_t *to, const uint8_t *from, size_t m)
{
    if (m >= 32) {
        memcpy(to, from, m);
    } else if (m >= 16) {
        uint8_t first[16], last[16];
        memcpy(first, from, 16), memcpy(last, from + m - 16, 16);
        memcpy(to, first, 16), memcpy(to + m - 16, last, 16);
    } else if (m >= 8) {
        uint64_t first, last;
        memcpy(&first, from, 8), memcpy(&last, from + m - 8, 8);
        memcpy(to, &first, 8), memcpy(to + m - 8, &last, 8);
    } else if (m >= 4) {
        uint32_t first, last;
        memcpy(&first, from, 4), memcpy(&last, from + m - 4, 4);
        memcpy(to, &first, 4), memcpy(to + m - 4, &last, 4);
    } else {
        for (size_t i = 0; i < m; i++)
            to[i] = from[i];
    }
}

typedef uint8_t vector16 __attribute__((vector_size(16)));
typedef uint8_t vector32 __attribute__((vector_size(32)));

/*
 * Writes a stuffing byte and the client bytes after it, `width` bytes in all, with one store for
 * the first 32: they are read from one byte before, which is then cleared.
 */
ALWAYS void put_run(uint8_t *to, const uint8_t *client, size_t width)
{
    if (width == 16) {
        vector16 block, mask = {0};
        memcpy(&block, client - 1, 16);
        mask = ~mask, mask[0] = 0;
        block &= mask;
        memcpy(to, &block, 16);
    } else {
        vector32 block, mask = {0};
        memcpy(&block, client - 1, 32);
        mask = ~mask, mask[0] = 0;
        block &= mask;
        memcpy(to, &block, 32);
        memcpy(to + 32, client + 31, width - 32);
    }
}

/*
 * How many of the d runs can be copied as blocks. The last of these and those after it have more
 * than `width` client bytes, as a run has c / d at least. On a grid that is no wider than a block
 * none can.
 */
ALWAYS size_t block_runs(size_t k, size_t c, size_t d, size_t width)
{
    size_t kept = width / ((uint32_t)c / (uint32_t)d);
    return k <= width || d < kept ? 0 : d - kept;
}

/* Runs of less than `width` client bytes. */
ALWAYS void place_blocks(uint8_t *frame, const uint8_t *client, size_t k, size_t c, size_t width)
{
    size_t s = 4 * k, d = s - c, blocks = block_runs(k, c, d, width), t = 0;
    uint64_t hop = hop_of(s, d), x = 0;
    for (size_t row = 0; row < 4; row++) {
        /* Payload byte i of the frame, counted through all rows, is row_at[i]. */
        uint8_t *row_at = frame + 2 * (row + 1), overhead[2];
        size_t i = row * k, end = i + k, row_runs = ((row + 1) * d + 3) / 4;
        size_t stop = row_runs < blocks ? row_runs : blocks;
        if (t < stop) {
            const uint8_t *from = client - t;
            /* The last block may reach into the next row, whose overhead is put back. */
            if (row < 3)
                memcpy(overhead, row_at + end, 2);
            memcpy(row_at + i, from + i, width);
            if (t == 0) {
                row_at[0] = 0;
                memcpy(row_at + 1, from, width);
                t++, from--, x += hop;
            }
            for (; t + 4 <= stop; t += 4, from -= 4)
#pragma GCC unroll 4
                for (size_t n = 0; n < 4; n++, x += hop)
                    put_run(row_at + (x >> POINT), from + (x >> POINT) - n, width);
            for (; t < stop; t++, from--, x += hop)
                put_run(row_at + (x >> POINT), from + (x >> POINT), width);
            if (row < 3)
                memcpy(row_at + end, overhead, 2);
            i = ((x - hop) >> POINT) + 1;
        }
        if (t < blocks)
            continue;
        for (; t < row_runs; t++, x += hop) {
            size_t next = x >> POINT;
            copy_exactly(row_at + i, client + i - t, next - i);
            row_at[next] = 0;
            i = next + 1;
        }
        copy_exactly(row_at + i, client + i - t, end - i);
    }
}

/* Runs of at most `width` client bytes. */
ALWAYS void take_blocks(const uint8_t *frame, uint8_t *out, size_t k, size_t c, size_t width)
{
    size_t s = 4 * k, d = s - c, blocks = block_runs(k, c, d, width), t = 0;
    uint64_t hop = hop_of(s, d), x = 0;
    for (size_t row = 0; row < 4; row++) {
        const uint8_t *row_at = frame + 2 * (row + 1);
        size_t i = row * k, end = i + k, row_runs = ((row + 1) * d + 3) / 4;
        size_t stop = row_runs < blocks ? row_runs : blocks;
        if (t < stop) {
            uint8_t *to = out - t;
            memcpy(to + i, row_at + i, width);
            for (; t + 4 <= stop; t += 4, to -= 4)
#pragma GCC unroll 4
                for (size_t n = 0; n < 4; n++, x += hop)
                    memcpy(to + (x >> POINT) - n, row_at + (x >> POINT) + 1, width);
            for (; t < stop; t++, to--, x += hop)
                memcpy(to + (x >> POINT), row_at + (x >> POINT) + 1, width);
            i = ((x - hop) >> POINT) + 1;
        }
        if (t < blocks)
            continue;
        for (; t < row_runs; t++, x += hop) {
            size_t next = x >> POINT;
            copy_exactly(out + i - t, row_at + i, next - i);
            i = next + 1;
        }
        copy_exactly(out + i - t, row_at + i, end - i);
    }
}

/* Long runs, each in blocks of 32 bytes, the last of which may reach beyond it, where there is
 * room. */
static void place_long(uint8_t *frame, const uint8_t *client, size_t k, size_t c)
{
    size_t s = 4 * k, d = s - c, t = 0;
    uint64_t hop = hop_of(s, d), x = 0;
    for (size_t row = 0; row < 4; row++) {
        uint8_t *row_at = frame + 2 * (row + 1);
        size_t i = row * k, end = i + k, row_runs = ((row + 1) * d + 3) / 4;
        for (; t < row_runs; t++, x += hop) {
            size_t next = x >> POINT;
            if (next + 32 <= end && next - t + 32 <= c)
                for (; i < next; i += 32)
                    memcpy(row_at + i, client + i - t, 32);
            else
                memcpy(row_at + i, client + i - t, next - i);
            row_at[next] = 0;
            i = next + 1;
        }
        memcpy(row_at + i, client + i - t, end - i);
    }
}

/* The same in blocks of 64 bytes. */
static void take_long(const uint8_t *frame, uint8_t *out, size_t k, size_t c)
{
    size_t s = 4 * k, d = s - c, t = 0;
    uint64_t hop = hop_of(s, d), x = 0;
    for (size_t row = 0; row < 4; row++) {
        const uint8_t *row_at = frame + 2 * (row + 1);
        size_t i = row * k, end = i + k, row_runs = ((row + 1) * d + 3) / 4;
        for (; t < row_runs; t++, x += hop) {
            size_t next = x >> POINT;
            if (next + 64 <= end && next - t + 64 <= c)
                for (; i < next; i += 64)
                    memcpy(out + i - t, row_at + i, 64);
            else
                memcpy(out + i - t, row_at + i, next - i);
            i = next + 1;
        }
        memcpy(out + i - t, row_at + i, end - i);
    }
}

/* Puts single client bytes among stuffing. */
static void place_bytes(uint8_t *frame, const uint8_t *client, size_t k, size_t c)
{
    size_t s = 4 * k, j = 0;
    uint64_t hop = c ? hop_of(s, c) : 0, x = c ? hop_of(s - 1, c) : 0;
    for (size_t row = 0; row < 4; row++) {
        uint8_t *row_at = frame + 2 * (row + 1);
        size_t row_bytes = (row + 1) * c / 4;
        memset(row_at + row * k, 0, k);
        for (; j + 8 <= row_bytes; j += 8)
#pragma GCC unroll 8
            for (size_t i = 0; i < 8; i++, x += hop)
                row_at[x >> POINT] = client[j + i];
        for (; j < row_bytes; j++, x += hop)
            row_at[x >> POINT] = client[j];
    }
}

/* Takes single client bytes. */
static void take_bytes(const uint8_t *frame, uint8_t *out, size_t k, size_t c)
{
    size_t s = 4 * k, j = 0;
    uint64_t hop = c ? hop_of(s, c) : 0, x = c ? hop_of(s - 1, c) : 0;
    for (size_t row = 0; row < 4; row++) {
        const uint8_t *row_at = frame + 2 * (row + 1);
        size_t row_bytes = (row + 1) * c / 4;
        for (; j + 8 <= row_bytes; j += 8)
#pragma GCC unroll 8
            for (size_t i = 0; i < 8; i++, x += hop)
                out[j + i] = row_at[x >> POINT];
        for (; j < row_bytes; j++, x += hop)
            out[j] = row_at[x >> POINT];
    }
}

void best_place(uint8_t *frame, const uint8_t *client, size_t k, size_t c)
{
    size_t d = 4 * k - c;
    if (k <= 8)
        loop_place(frame, client, k, c);
    else if (25 * c < 13 * 4 * k)
        place_bytes(frame, client, k, c);
    else if (c <= 15 * d)
        place_blocks(frame, client, k, c, 16);
    else if (c <= 31 * d)
        place_blocks(frame, client, k, c, 32);
    else if (c <= 47 * d)
        place_blocks(frame, client, k, c, 48);
    else if (c <= 63 * d)
        place_blocks(frame, client, k, c, 64);
    else if (c <= 71 * d)
        place_blocks(frame, client, k, c, 72);
    else if (c <= 95 * d)
        place_blocks(frame, client, k, c, 96);
    else if (c <= 127 * d)
        place_blocks(frame, client, k, c, 128);
    else if (d > 0)
        place_long(frame, client, k, c);
    else
        for (size_t row = 0; row < 4; row++)
            memcpy(frame + row * (k + 2) + 2, client + row * k, k);
}

void best_take(const uint8_t *frame, uint8_t *out, size_t k, size_t c)
{
    size_t d = 4 * k - c;
    if (k <= 8)
        loop_take(frame, out, k, c);
    else if (15 * c < 8 * 4 * k)
        take_bytes(frame, out, k, c);
    else if (c <= 8 * d)
        take_blocks(frame, out, k, c, 8);
    else if (c <= 16 * d)
        take_blocks(frame, out, k, c, 16);
    else if (c <= 32 * d)
        take_blocks(frame, out, k, c, 32);
    else if (c <= 48 * d)
        take_blocks(frame, out, k, c, 48);
    else if (c <= 64 * d)
        take_blocks(frame, out, k, c, 64);
    else if (c <= 72 * d)
        take_blocks(frame, out, k, c, 72);
    else if (c <= 96 * d)
        take_blocks(frame, out, k, c, 96);
    else if (c <= 128 * d)
        take_blocks(frame, out, k, c, 128);
    else if (d > 0)
        take_long(frame, out, k, c);
    else
        for (size_t row = 0; row < 4; row++)
            memcpy(out + row * k, frame + row * (k + 2) + 2, k);
}
