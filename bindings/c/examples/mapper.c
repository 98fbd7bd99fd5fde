/*
 * A small job: a rate keeper, a source and a sink on OPU0. The sink begins to read in the middle of
 * the source's run, at a frame whose word says only "one more than before"; and one frame is harmed
 * on its way. bindings/rust/examples/mapper.rs does the same and prints the same lines.
 */
#include "odu0.h"

#include <stdio.h>
#include <string.h>

/* The sink is on port PORT of the card and reads from frame FROM, and frame HARMED is harmed. */
enum { FRAMES = 12, FROM = 4, HARMED = 8, PORT = 1 };

/* The largest buffers that OPU0 needs. */
static uint8_t client[14410], frame[15240], out[14410];

int main(void)
{
    const odu0_settings opu0 = ODU0_OPU0;
    /* The rate of 1000BASE-X, in client bytes a frame. */
    const odu0_rate gigabit = {18671875, 1296};
    odu0_tallies tallies = {{{0, 0, 0}}};
    odu0_sink sink = odu0_sink_new();
    odu0_sink_reply taken;
    odu0_tally tally;
    int n;

    /* The keeper's first count is the source's first; 07 is the payload type. */
    odu0_keeper_reply next = odu0_keeper_call(opu0, odu0_keeper_new(gigabit));
    odu0_source_reply source = odu0_source_new(opu0, next.count, 0x07);
    if (next.refusal != ODU0_ACCEPTED || source.refusal != ODU0_ACCEPTED)
        return 1;

    for (n = 1; n <= FRAMES; n++) {
        uint32_t count = source.state.count, i;
        char found[16] = "-";
        int equal;

        /* The client's bytes are a pattern that differs from frame to frame. */
        for (i = 0; i < count; i++)
            client[i] = (uint8_t)(i % 251 + (uint32_t)n);

        /* The frame carries "count" of them and announces the count of the next. */
        next = odu0_keeper_call(opu0, next.state);
        source = odu0_source_call(opu0, source.state, next.count, client, count, frame,
                                  sizeof frame);
        if (next.refusal != ODU0_ACCEPTED || source.refusal != ODU0_ACCEPTED)
            return 1;

        /* On the way, two bits of JC1 and one of JC2 are turned over in one frame. */
        if (n == HARMED) {
            frame[1] ^= 0x11;
            frame[3808 + 2 + 1] ^= 0x80;
        }

        /* The state that a call returns goes into the next call. */
        if (n < FROM)
            continue;
        taken = odu0_sink_call(opu0, sink, frame, sizeof frame, out, sizeof out, PORT, &tallies);
        sink = taken.state;
        if (taken.refusal != ODU0_ACCEPTED)
            return 1;
        if (taken.found)
            sprintf(found, "%lu", (unsigned long)taken.count);
        equal = taken.handed == count && memcmp(out, client, count) == 0;
        printf("frame %d: %s, count %s, handed %lu, equal %s\n", n,
               odu0_standing_name(taken.standing), found, (unsigned long)taken.handed,
               equal ? "yes" : "no");
    }
    tally = tallies.port[PORT - 1];
    printf("tally: frames %lu, badcheck %lu, bytes %lu\n", (unsigned long)tally.frames,
           (unsigned long)tally.badcheck, (unsigned long)tally.bytes);

    /* A frame that is one byte short is turned back, and changes nothing. */
    taken = odu0_sink_call(opu0, sink, frame, sizeof frame - 1, out, sizeof out, PORT, &tallies);
    printf("a frame of %lu bytes: refusal %lu (%s)\n", (unsigned long)(sizeof frame - 1),
           (unsigned long)taken.refusal, odu0_refusal_name(taken.refusal));
    return 0;
}
