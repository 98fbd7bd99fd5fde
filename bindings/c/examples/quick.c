/* One frame mapped and demapped. bindings/rust/examples/quick.rs prints the same line. */
#include "odu0.h"

#include <stdio.h>

int main(void)
{
    const odu0_settings settings = ODU0_SETTINGS(2, 0, 8); /* 2 columns, counts 0 to 8 */
    uint8_t client[6] = {'c', 'l', 'i', 'e', 'n', 't'}, frame[16], out[8];
    odu0_tallies tallies = {{{0, 0, 0}}};
    odu0_source_reply source = odu0_source_new(settings, 6, 0x07);
    odu0_sink sink = odu0_sink_new();
    odu0_sink_reply taken;

    /* The source maps 6 bytes, and announces that the next frame has 5. */
    source = odu0_source_call(settings, source.state, 5, client, 6, frame, sizeof frame);
    /* A sink that knows nothing needs two frames; this one is told the first count. */
    sink.known = 1;
    sink.count = 6;
    taken = odu0_sink_call(settings, sink, frame, sizeof frame, out, sizeof out, 1, &tallies);
    printf("%s: %.*s, %s %lu\n", odu0_refusal_name(source.refusal), (int)taken.handed,
           (const char *)out, odu0_standing_name(taken.standing), (unsigned long)taken.count);
    return source.refusal || taken.refusal;
}
