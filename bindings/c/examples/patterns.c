/*
 * A card older than the standard: a source and a sink on OPU0 whose settings carry the inversion
 * patterns of a customer. The sink begins to read at the second frame. Then it is seen that a sink
 * with the standard's patterns does not follow this source, and that patterns which break the rule
 * are turned back. bindings/rust/examples/patterns.rs does the same and prints the same lines.
 */
#include "odu0.h"

#include <stdio.h>
#include <string.h>

/*
 * The count of each frame, and at last the one that the last frame announces: a step of +1, then of
 * +2, -1, -2, 0, a larger one and again -1 and -2.
 */
static const uint32_t counts[] = {14407, 14408, 14410, 14409, 14407, 14407, 14410, 14409, 14407};

/* The sink is on port PORT of the card and reads from frame FROM; another sink is on port OTHER. */
enum { FRAMES = sizeof counts / sizeof counts[0] - 1, FROM = 2, PORT = 1, OTHER = 2 };

/* The largest buffers that OPU0 needs. */
static uint8_t client[14410], frame[15240], out[14410];

int main(void)
{
    /*
     * The customer's table, from C1 to C14: +1 is 11110000111100, -1 is 00001111000011, +2 is
     * 01010101010101 and -2 is 10101010101010. The two for plus differ in 10100101101001, and so do
     * the two for minus.
     */
    const odu0_settings customer = ODU0_SETTINGS_WITH_PATTERNS(3808, 14405, 14410, 0x3C3C, 0x03C3,
                                                               0x1555, 0x2AAA);
    const odu0_settings opu0 = ODU0_OPU0;
    odu0_settings broken = customer;
    odu0_tallies tallies = {{{0, 0, 0}}};
    odu0_sink sink = odu0_sink_new(), other = odu0_sink_new();
    odu0_sink_reply taken;
    uint32_t said[2] = {ODU0_REFUSED, ODU0_REFUSED};
    int n;

    /* 07 is the payload type. */
    odu0_source_reply source = odu0_source_new(customer, counts[0], 0x07);
    if (source.refusal != ODU0_ACCEPTED)
        return 1;

    for (n = 1; n <= FRAMES; n++) {
        uint32_t count = source.state.count, i;
        char found[16] = "-";
        int equal;

        /* The client's bytes differ from frame to frame. */
        for (i = 0; i < count; i++)
            client[i] = (uint8_t)(i % 251 + (uint32_t)n);

        /* The frame carries "count" of them and announces the count of the next. */
        source = odu0_source_call(customer, source.state, counts[n], client, count, frame,
                                  sizeof frame);
        if (source.refusal != ODU0_ACCEPTED)
            return 1;
        if (n < FROM)
            continue;

        /* Another sink reads the first two of these frames with the standard's patterns. */
        if (n < FROM + 2) {
            taken = odu0_sink_call(opu0, other, frame, sizeof frame, out, sizeof out, OTHER,
                                   &tallies);
            other = taken.state;
            said[n - FROM] = taken.standing;
        }

        /* With the customer's patterns the count is there after two frames. */
        taken = odu0_sink_call(customer, sink, frame, sizeof frame, out, sizeof out, PORT,
                               &tallies);
        sink = taken.state;
        if (taken.refusal != ODU0_ACCEPTED)
            return 1;
        if (taken.found)
            sprintf(found, "%lu", (unsigned long)taken.count);
        equal = taken.handed == count && memcmp(out, client, count) == 0;
        printf("frame %d: %s, count %s, handed %lu, equal %s\n", n,
               odu0_standing_name(taken.standing), found, (unsigned long)taken.handed,
               equal ? "yes" : "no");
    }

    /* The standard's patterns do not lead to a count: the sink goes on waiting. */
    printf("with the standard's patterns: frame %d %s, frame %d %s\n", FROM,
           odu0_standing_name(said[0]), FROM + 1, odu0_standing_name(said[1]));

    /* With one bit of -2 turned over, the two for minus differ elsewhere than the two for plus. */
    broken.minus2 ^= 1;
    taken = odu0_sink_call(broken, sink, frame, sizeof frame, out, sizeof out, PORT, &tallies);
    printf("one bit of -2 turned over: refusal %lu (%s)\n", (unsigned long)taken.refusal,
           odu0_refusal_name(taken.refusal));

    /* The lowest number that applies is the answer: a short output buffer comes first. */
    taken = odu0_sink_call(broken, sink, frame, sizeof frame, out, sizeof out - 1, PORT, &tallies);
    printf("and an output buffer of %lu bytes: refusal %lu (%s)\n", (unsigned long)(sizeof out - 1),
           (unsigned long)taken.refusal, odu0_refusal_name(taken.refusal));
    return 0;
}
