/*
 * A card whose sinks check the payload type, on a small grid. Two clients send at one rate, of
 * types 7 and 5, and every port is to carry the one of type 7. Port 1 has the right cord, that of
 * port 2 is swapped from the first frame on, and that of port 3 is swapped in service, after type 7
 * was accepted. bindings/rust/examples/types.rs does the same and prints the same lines.
 */
#include "odu0.h"

#include <stdio.h>
#include <string.h>

/* The right client and the other one; the cord of port 3 is swapped after frame SWAPPED. */
enum { RIGHT, OTHER, CLIENTS, PORTS = 3, FRAMES = 1400, SWAPPED = 600 };
static const uint8_t types[CLIENTS] = {7, 5};

/* The counts go up and down between these two. */
enum { LOW = 5, HIGH = 6 };

static uint8_t client[8], frame[CLIENTS][16], out[8];

/* A port: its sink, whose frames it gets, whether it hands out, and how many of the other's bytes.
 */
struct port {
    odu0_sink sink;
    int from;
    int hands_out;
    unsigned long others;
};

int main(void)
{
    const odu0_settings settings = ODU0_SETTINGS(2, 0, 8);
    odu0_tallies tallies = {{{0, 0, 0}}};
    odu0_source_reply source[CLIENTS];
    struct port ports[PORTS];
    uint32_t port, i;
    int n, from;

    for (from = RIGHT; from < CLIENTS; from++)
        source[from] = odu0_source_new(settings, LOW, types[from]);
    for (port = 1; port <= PORTS; port++) {
        ports[port - 1].sink = odu0_sink_new();
        ports[port - 1].from = RIGHT;
        ports[port - 1].hands_out = 0;
        ports[port - 1].others = 0;
    }

    printf("frame  port\n");
    for (n = 1; n <= FRAMES; n++) {
        /* Both clients' frames have one number, that of the source before its call. */
        odu0_expected expected;
        expected.multiframe = source[RIGHT].state.multiframe;
        expected.payload_type = types[RIGHT];

        /* Each byte of a client is its type, so that one sees whose bytes are handed out. */
        for (from = RIGHT; from < CLIENTS; from++) {
            uint32_t count = source[from].state.count, next = LOW + HIGH - count;
            memset(client, types[from], count);
            source[from] = odu0_source_call(settings, source[from].state, next, client, count,
                                            frame[from], sizeof frame[from]);
            if (source[from].refusal != ODU0_ACCEPTED)
                return 1;
        }

        for (port = 1; port <= PORTS; port++) {
            struct port *at = &ports[port - 1];
            odu0_sink before = at->sink;
            odu0_sink_reply taken;

            from = port == 1 || (port == 3 && n <= SWAPPED) ? RIGHT : OTHER;
            if (at->from != from)
                printf("%5d  %4lu  gets the other client's frames\n", n, (unsigned long)port);
            at->from = from;
            taken = odu0_sink_call_expecting(settings, before, expected, frame[from],
                                             sizeof frame[from], out, sizeof out, port, &tallies);
            at->sink = taken.state;
            if (taken.refusal != ODU0_ACCEPTED)
                return 1;
            for (i = 0; i < taken.handed; i++)
                at->others += out[i] != types[RIGHT];

            /* What is new on the port. */
            if (!before.known && taken.state.known)
                printf("%5d  %4lu  holds the count\n", n, (unsigned long)port);
            if (before.accepted != taken.state.accepted ||
                before.accepted_type != taken.state.accepted_type)
                printf("%5d  %4lu  has accepted type %d\n", n, (unsigned long)port,
                       taken.state.accepted_type);
            if (at->hands_out != (taken.handed > 0)) {
                at->hands_out = !at->hands_out;
                printf("%5d  %4lu  hands out %s\n", n, (unsigned long)port,
                       at->hands_out ? "bytes" : "nothing more");
            }
        }
    }

    printf("port    frames  BADCHECK       bytes  of the other client\n");
    for (port = 1; port <= PORTS; port++) {
        odu0_tally tally = tallies.port[port - 1];
        printf("%4lu %9lu %9lu %11lu %20lu\n", (unsigned long)port, (unsigned long)tally.frames,
               (unsigned long)tally.badcheck, (unsigned long)tally.bytes, ports[port - 1].others);
    }
    for (port = 1; port <= PORTS; port++) {
        struct port *at = &ports[port - 1];
        if (at->sink.accepted && at->sink.accepted_type != types[RIGHT])
            printf("port %lu has type %d, and %d is expected: %lu bytes of the other client were "
                   "handed out\n",
                   (unsigned long)port, at->sink.accepted_type, types[RIGHT], at->others);
    }
    return 0;
}
