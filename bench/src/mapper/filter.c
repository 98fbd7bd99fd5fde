/*
 * The filters odu0map and odu0demap in C around the best placing, with the least that such a
 * program needs: it reads and writes 16 frames at a time.
 *
 *     filter map < CLIENT > FRAMES
 *     filter demap < FRAMES > CLIENT
 *
 * The rate is that of 1000BASE-X. What does not fill a load, or a frame, at the end is left out.
 */
#include "odu0.h"
#include "placing.h"
#include <stdio.h>
#include <string.h>
#include <unistd.h>

enum { FRAMES = 16, FRAME = 15240, LOAD = 14410, P = 18671875, Q = 1296 };

odu0_source_reply whole_source_call(
    odu0_settings, odu0_source, uint32_t, const uint8_t *, size_t, uint8_t *, size_t);
odu0_sink_reply whole_sink_call(odu0_settings,
                                odu0_sink,
                                odu0_expected,
                                const uint8_t *,
                                size_t,
                                uint8_t *,
                                size_t,
                                uint32_t,
                                odu0_tallies *);

static uint8_t client[FRAMES * LOAD], frames[FRAMES * FRAME];
static const odu0_settings opu0 = ODU0_OPU0;

/* As many bytes as are asked for, or as there are. */
static size_t read_all(uint8_t *bytes, size_t length)
{
    size_t had = 0;
    ssize_t got = 1;
    while (had < length && got > 0) {
        got = read(STDIN_FILENO, bytes + had, length - had);
        had += got > 0 ? (size_t)got : 0;
    }
    return had;
}

static int write_all(const uint8_t *bytes, size_t length)
{
    while (length > 0) {
        ssize_t put = write(STDOUT_FILENO, bytes, length);
        if (put <= 0)
            return 0;
        bytes += put, length -= (size_t)put;
    }
    return 1;
}

static uint32_t next_count(uint32_t *remainder)
{
    uint32_t sum = *remainder + P;
    *remainder = sum % Q;
    return sum / Q;
}

static int map(void)
{
    uint32_t remainder = Q / 2, counts[FRAMES + 1];
    odu0_source state = {next_count(&remainder), 0, 7};
    counts[0] = state.count;
    for (;;) {
        size_t length = 0, had, used = 0, n = 0;
        for (size_t i = 0; i < FRAMES; i++) {
            length += counts[i];
            counts[i + 1] = next_count(&remainder);
        }
        had = read_all(client, length);
        for (; n < FRAMES && used + counts[n] <= had; n++) {
            state = whole_source_call(opu0, state, counts[n + 1], client + used, counts[n],
                                      frames + n * FRAME, FRAME)
                        .state;
            used += counts[n];
        }
        if (!write_all(frames, n * FRAME))
            return 1;
        if (n < FRAMES)
            return 0;
        counts[0] = counts[FRAMES];
    }
}

static int demap(void)
{
    odu0_sink state = {0, 0, 0, 0, 0, 0, 0, 0};
    odu0_expected expected = {0, 0};
    odu0_tallies tallies;
    size_t n = FRAMES;
    memset(&tallies, 0, sizeof tallies);
    while (n == FRAMES) {
        size_t handed = 0;
        n = read_all(frames, FRAMES * FRAME) / FRAME;
        for (size_t i = 0; i < n; i++) {
            odu0_sink_reply reply = whole_sink_call(opu0, state, expected, frames + i * FRAME,
                                                    FRAME, client + handed, FRAMES * LOAD - handed,
                                                    1, &tallies);
            state = reply.state;
            handed += reply.handed;
        }
        if (!write_all(client, handed))
            return 1;
    }
    return 0;
}

int main(int argc, char **argv)
{
    fill_tables();
    if (argc == 2 && strcmp(argv[1], "map") == 0)
        return map();
    if (argc == 2 && strcmp(argv[1], "demap") == 0)
        return demap();
    fputs("usage: filter map | filter demap\n", stderr);
    return 2;
}
