/*
 * A long span that turns bits over: a source and a sink on OPU0. In four frames one control bit is
 * wrong, once in JC3, and in one frame two are. The sink reads the frames once with mending off and
 * once with mending on. bindings/rust/examples/mending.rs does the same and prints the same lines.
 */
#include "odu0.h"

#include <stdio.h>
#include <string.h>

/* The count of each frame, and at last the one that the last frame announces. */
static const uint32_t counts[] = {14407, 14408, 14407, 14409, 14408, 14408, 14407,
                                  14408, 14409, 14407, 14408, 14407, 14408};

/* The sink is on port PORT of the card. */
enum { FRAMES = sizeof counts / sizeof counts[0] - 1, PORT = 1 };

/* The control bits that are turned over in each frame: JC1, JC2 and JC3. */
static const uint8_t wrong[FRAMES][3] = {
    {0, 0, 0}, {0, 0, 0}, {0x40, 0, 0},    {0, 0, 0},    {0, 0x02, 0}, {0, 0, 0x01},
    {0, 0, 0}, {0, 0, 0}, {0x10, 0x01, 0}, {0, 0x08, 0}, {0, 0, 0},    {0, 0, 0},
};

/* The largest buffers that OPU0 needs. */
static uint8_t client[14410], frame[15240], out[14410];

/* The whole job with these settings of the sink: 1, or 0 if a call is refused. */
static int job(odu0_settings settings)
{
    const odu0_settings opu0 = ODU0_OPU0;
    odu0_tallies tallies = {{{0, 0, 0}}};
    odu0_tally tally;
    odu0_sink sink = odu0_sink_new();
    int n, whole = 0;

    /* 07 is the payload type. The source does not look at mending. */
    odu0_source_reply source = odu0_source_new(opu0, counts[0], 0x07);
    if (source.refusal != ODU0_ACCEPTED)
        return 0;

    for (n = 1; n <= FRAMES; n++) {
        uint32_t count = source.state.count, i;
        odu0_sink_reply taken;
        char found[16] = "-";
        int row, equal;

        /* The client's bytes differ from frame to frame. */
        for (i = 0; i < count; i++)
            client[i] = (uint8_t)(i % 251 + (uint32_t)n);

        /* The frame carries "count" of them and announces the count of the next. */
        source = odu0_source_call(opu0, source.state, counts[n], client, count, frame,
                                  sizeof frame);
        if (source.refusal != ODU0_ACCEPTED)
            return 0;

        /* On the way some control bits are turned over. */
        for (row = 0; row < 3; row++)
            frame[row * 3810 + 1] ^= wrong[n - 1][row];

        taken = odu0_sink_call(settings, sink, frame, sizeof frame, out, sizeof out, PORT,
                               &tallies);
        sink = taken.state;
        if (taken.refusal != ODU0_ACCEPTED)
            return 0;
        if (taken.found)
            sprintf(found, "%lu", (unsigned long)taken.count);
        equal = taken.handed == count && memcmp(out, client, count) == 0;
        whole += equal;
        printf("frame %d: %s, count %s, mended %s, handed %lu, equal %s\n", n,
               odu0_standing_name(taken.standing), found, taken.mended ? "yes" : "no",
               (unsigned long)taken.handed, equal ? "yes" : "no");
    }
    tally = tallies.port[PORT - 1];
    printf("tally: frames %lu, badcheck %lu, bytes %lu\n", (unsigned long)tally.frames,
           (unsigned long)tally.badcheck, (unsigned long)tally.bytes);
    printf("loads that arrived whole: %d of %d\n", whole, FRAMES);
    return 1;
}

int main(void)
{
    odu0_settings settings = ODU0_OPU0;

    printf("mending off:\n");
    if (!job(settings))
        return 1;

    settings.mending = 1;
    printf("mending on:\n");
    return job(settings) ? 0 : 1;
}
