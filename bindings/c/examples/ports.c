/*
 * A card with eight ports: for each a source and a sink on OPU0, and one set of tallies for the
 * card. The span of one port turns control bits over in some frames, and the tallies tell which
 * port it is. bindings/rust/examples/ports.rs does the same and prints the same lines.
 */
#include "odu0.h"

#include <stdio.h>

/* Each frame carries COUNT client bytes. On port BAD the frames FROM to TO are harmed. */
enum { COUNT = 14407, FRAMES = 40000, BAD = 3, FROM = 1001, TO = 1005 };

/* The client's bytes do not matter here: they stay zero. */
static uint8_t client[COUNT], frame[15240], out[14410];

int main(void)
{
    const odu0_settings opu0 = ODU0_OPU0;
    odu0_tallies tallies = {{{0, 0, 0}}};
    odu0_source_reply source[ODU0_PORTS];
    odu0_sink sink[ODU0_PORTS];
    odu0_sink_reply taken;
    odu0_total total;
    uint32_t port, n;

    /* What belongs to port p has the place p - 1; 07 is the payload type. */
    for (port = 1; port <= ODU0_PORTS; port++) {
        source[port - 1] = odu0_source_new(opu0, COUNT, 0x07);
        sink[port - 1] = odu0_sink_new();
    }

    for (n = 1; n <= FRAMES; n++) {
        for (port = 1; port <= ODU0_PORTS; port++) {
            odu0_source_reply *from = &source[port - 1];
            *from = odu0_source_call(opu0, from->state, COUNT, client, COUNT, frame, sizeof frame);
            if (from->refusal != ODU0_ACCEPTED)
                return 1;

            /* On the way two bits of JC1 are turned over. */
            if (port == BAD && n >= FROM && n <= TO)
                frame[1] ^= 0x11;

            /* Each call names its port, and is lent the tallies of the whole card. */
            taken = odu0_sink_call(opu0, sink[port - 1], frame, sizeof frame, out, sizeof out, port,
                                   &tallies);
            sink[port - 1] = taken.state;
            if (taken.refusal != ODU0_ACCEPTED)
                return 1;
        }
    }

    printf("port    frames  BADCHECK       bytes\n");
    for (port = 1; port <= ODU0_PORTS; port++) {
        odu0_tally tally = tallies.port[port - 1];
        printf("%4lu %9lu %9lu %11lu\n", (unsigned long)port, (unsigned long)tally.frames,
               (unsigned long)tally.badcheck, (unsigned long)tally.bytes);
    }

    /* Here the sum of the bytes has more than 32 bits. */
    total = odu0_card_total(&tallies);
    printf("card %9llu %9llu %11llu\n", (unsigned long long)total.frames,
           (unsigned long long)total.badcheck, (unsigned long long)total.bytes);
    for (port = 1; port <= ODU0_PORTS; port++)
        if (tallies.port[port - 1].badcheck > 0)
            printf("the BADCHECK frames are on port %lu\n", (unsigned long)port);

    /* There is no port 9: the call is turned back, and changes nothing. */
    taken = odu0_sink_call(opu0, sink[0], frame, sizeof frame, out, sizeof out, 9, &tallies);
    printf("port 9: refusal %lu (%s)\n", (unsigned long)taken.refusal,
           odu0_refusal_name(taken.refusal));
    return 0;
}
