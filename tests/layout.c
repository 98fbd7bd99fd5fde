/*
 * What of odu0.h is frozen with version 1. It compiles only if each field of the structs stands
 * here, in bytes on x86-64, as the archive and the Rust declarations have it, and if the numbers,
 * functions and macros are these.
 */
#include "odu0.h"

#include <stddef.h>

#define AT(type, field, offset)                                                                    \
    typedef char type##_##field[offsetof(type, field) == (offset) ? 1 : -1]
#define SIZE(type, bytes) typedef char type##_size[sizeof(type) == (bytes) ? 1 : -1]

AT(odu0_settings, k, 0);
AT(odu0_settings, lo, 4);
AT(odu0_settings, hi, 8);
AT(odu0_settings, has_patterns, 12);
AT(odu0_settings, plus1, 16);
AT(odu0_settings, minus1, 20);
AT(odu0_settings, plus2, 24);
AT(odu0_settings, minus2, 28);
AT(odu0_settings, mending, 32);
AT(odu0_settings, type_check, 36);
SIZE(odu0_settings, 40);

AT(odu0_source, count, 0);
AT(odu0_source, multiframe, 4);
AT(odu0_source, payload_type, 8);
SIZE(odu0_source, 12);

AT(odu0_expected, multiframe, 0);
AT(odu0_expected, payload_type, 4);
SIZE(odu0_expected, 8);

AT(odu0_sink, known, 0);
AT(odu0_sink, count, 4);
AT(odu0_sink, remembered, 8);
AT(odu0_sink, word, 12);
AT(odu0_sink, accepted, 16);
AT(odu0_sink, seen, 20);
AT(odu0_sink, accepted_type, 24);
AT(odu0_sink, seen_type, 25);
SIZE(odu0_sink, 28);

AT(odu0_tally, frames, 0);
AT(odu0_tally, badcheck, 4);
AT(odu0_tally, bytes, 8);
SIZE(odu0_tally, 12);
SIZE(odu0_tallies, 96);

AT(odu0_total, frames, 0);
AT(odu0_total, badcheck, 8);
AT(odu0_total, bytes, 16);
SIZE(odu0_total, 24);

AT(odu0_source_reply, refusal, 0);
AT(odu0_source_reply, state, 4);
SIZE(odu0_source_reply, 16);

AT(odu0_v1_keeper_reply, refusal, 0);
AT(odu0_v1_keeper_reply, count, 4);
AT(odu0_v1_keeper_reply, remainder, 8);
SIZE(odu0_v1_keeper_reply, 12);

AT(odu0_rate, p, 0);
AT(odu0_rate, q, 4);
SIZE(odu0_rate, 8);

AT(odu0_keeper, rate, 0);
AT(odu0_keeper, remainder, 8);
SIZE(odu0_keeper, 12);

AT(odu0_keeper_reply, refusal, 0);
AT(odu0_keeper_reply, count, 4);
AT(odu0_keeper_reply, state, 8);
SIZE(odu0_keeper_reply, 20);

AT(odu0_sink_reply, refusal, 0);
AT(odu0_sink_reply, standing, 4);
AT(odu0_sink_reply, found, 8);
AT(odu0_sink_reply, count, 12);
AT(odu0_sink_reply, handed, 16);
AT(odu0_sink_reply, mended, 20);
AT(odu0_sink_reply, state, 24);
SIZE(odu0_sink_reply, 52);

/* The numbers of the refusals and standings. */
#define IS(name, number) typedef char name##_is[(name) == (number) ? 1 : -1]

IS(ODU0_ACCEPTED, 0);
IS(ODU0_GRID, 1);
IS(ODU0_WINDOW, 2);
IS(ODU0_DIVISOR, 3);
IS(ODU0_RATE, 4);
IS(ODU0_STATE, 5);
IS(ODU0_COUNT, 6);
IS(ODU0_CLIENT, 7);
IS(ODU0_FRAME, 8);
IS(ODU0_SPACE, 9);
IS(ODU0_PORT, 10);
IS(ODU0_PATTERNS, 14);
IS(ODU0_REFUSED, 0);
IS(ODU0_READ, 1);
IS(ODU0_TRACKED, 2);
IS(ODU0_PAIRED, 3);
IS(ODU0_BADCHECK, 4);
IS(ODU0_WAITING, 5);
IS(ODU0_OUTSIDE, 6);
IS(ODU0_PORTS, 8);

/* The functions, with what they take and answer. */
odu0_source_reply (*source_new)(odu0_settings, uint32_t, uint8_t) = odu0_source_new;
odu0_source_reply (*source_call)(odu0_settings,
                                 odu0_source,
                                 uint32_t,
                                 const uint8_t *,
                                 size_t,
                                 uint8_t *,
                                 size_t) = odu0_source_call;
odu0_keeper (*keeper_new)(odu0_rate) = odu0_keeper_new;
odu0_keeper_reply (*keeper_call)(odu0_settings, odu0_keeper) = odu0_keeper_call;
odu0_sink (*sink_new)(void) = odu0_sink_new;
odu0_sink_reply (*sink_call)(odu0_settings,
                             odu0_sink,
                             const uint8_t *,
                             size_t,
                             uint8_t *,
                             size_t,
                             uint32_t,
                             odu0_tallies *) = odu0_sink_call;
odu0_sink_reply (*sink_call_expecting)(odu0_settings,
                                       odu0_sink,
                                       odu0_expected,
                                       const uint8_t *,
                                       size_t,
                                       uint8_t *,
                                       size_t,
                                       uint32_t,
                                       odu0_tallies *) = odu0_sink_call_expecting;
odu0_total (*card_total)(const odu0_tallies *) = odu0_card_total;
const char *(*refusal_name)(uint32_t) = odu0_refusal_name;
const char *(*standing_name)(uint32_t) = odu0_standing_name;

/* The macros that initialise settings. */
odu0_settings settings = ODU0_SETTINGS(2, 0, 8);
odu0_settings with_patterns = ODU0_SETTINGS_WITH_PATTERNS(2, 0, 8, 0, 0, 1, 1);
odu0_settings opu0 = ODU0_OPU0;
