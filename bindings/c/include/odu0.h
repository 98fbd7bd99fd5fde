/*
 * The ODU0 generic mapper for C and C++: source, rate keeper and sink of a line card.
 *
 * Every function accepts every value of every argument and buffers of every length, and ends with
 * an answer or a refusal. A refused call changes no buffer, no state and no tally. A buffer is a
 * pointer and its length in bytes; a buffer of length 0 may be NULL, the tallies may not. The
 * buffers and the tallies of one call must not overlap. The library keeps no state of its own: the
 * caller keeps what a call returns and passes it to the next.
 *
 * examples/quick.c maps and demaps one frame. What is promised over whole runs of calls, and under
 * which conditions, stands in docs/PROMISES.md.
 */
#ifndef ODU0_H
#define ODU0_H

#include <stddef.h>
#include <stdint.h>

#ifdef __cplusplus
extern "C" {
#endif

/*
 * The version of this header. Its first number is that of the structs and of the functions, and
 * the symbols of the archive carry it: a program that was compiled with a header of another first
 * number does not link.
 */
#define ODU0_VERSION "1.0.0"

#define odu0_source_new odu0_v1_source_new
#define odu0_source_call odu0_v1_source_call
#define odu0_sink_new odu0_v1_sink_new
#define odu0_card_total odu0_v1_card_total

/*
 * Why a call is turned back: the refusal's number, its name and when it applies. A call that more
 * than one of these applies to answers the lowest number. 0 says that the call was accepted; no
 * call here answers 11 to 13.
 */
enum odu0_refusal {
    ODU0_ACCEPTED = 0,
    ODU0_GRID = 1,     /* grid: k is 0 or above 3,808 */
    ODU0_WINDOW = 2,   /* window: lo > hi, or hi > 4 * k */
    ODU0_DIVISOR = 3,  /* divisor: q is 0 or above 65,535 */
    ODU0_RATE = 4,     /* rate: the whole part of p / q is below lo, or p > hi * q */
    ODU0_STATE = 5,    /* state: source's count outside the window, keeper's remainder q or more */
    ODU0_COUNT = 6,    /* count: the next count is outside the window */
    ODU0_CLIENT = 7,   /* client: the client bytes are not exactly the present count */
    ODU0_FRAME = 8,    /* frame: the frame buffer is not exactly 4 * k + 8 bytes */
    ODU0_SPACE = 9,    /* space: the output buffer is shorter than hi */
    ODU0_PORT = 10,    /* port: the port is 0 or above 8 */
    ODU0_PATTERNS = 14 /* patterns: has_patterns is not 0; plus1 ^ plus2 is not minus1 ^ minus2, or
                          is 0, or one of the four is above 16,383 */
};

/* What a sink says of a frame: the standing, by its name. 0 is that of a refused call. */
enum odu0_standing {
    ODU0_REFUSED = 0,
    ODU0_READ = 1,     /* the word holds the count itself */
    ODU0_TRACKED = 2,  /* the known count moved as the word says */
    ODU0_PAIRED = 3,   /* this word and the one before it lead to the count */
    ODU0_BADCHECK = 4, /* the control bytes fail the check, and were not mended */
    ODU0_WAITING = 5,  /* no count yet: the next word is awaited */
    ODU0_OUTSIDE = 6   /* the count that was reached is outside the window */
};

/* A refusal's name as text: "accepted" of 0, and "?" of a number that is none. */
static inline const char *odu0_refusal_name(uint32_t refusal)
{
    switch (refusal) {
    case ODU0_ACCEPTED:
        return "accepted";
    case ODU0_GRID:
        return "grid";
    case ODU0_WINDOW:
        return "window";
    case ODU0_DIVISOR:
        return "divisor";
    case ODU0_RATE:
        return "rate";
    case ODU0_STATE:
        return "state";
    case ODU0_COUNT:
        return "count";
    case ODU0_CLIENT:
        return "client";
    case ODU0_FRAME:
        return "frame";
    case ODU0_SPACE:
        return "space";
    case ODU0_PORT:
        return "port";
    case ODU0_PATTERNS:
        return "patterns";
    default:
        return "?";
    }
}

/* A standing's name as text: "refused" of 0, and "?" of a number that is none. */
static inline const char *odu0_standing_name(uint32_t standing)
{
    switch (standing) {
    case ODU0_REFUSED:
        return "refused";
    case ODU0_READ:
        return "READ";
    case ODU0_TRACKED:
        return "TRACKED";
    case ODU0_PAIRED:
        return "PAIRED";
    case ODU0_BADCHECK:
        return "BADCHECK";
    case ODU0_WAITING:
        return "WAITING";
    case ODU0_OUTSIDE:
        return "OUTSIDE";
    default:
        return "?";
    }
}

/*
 * The settings. A source and its sinks need the same grid, window and patterns. Only a sink looks
 * at `mending` and `type_check`. Of a flag 0 says no, and any other value yes.
 */
typedef struct odu0_settings {
    /* Payload columns in a row, 1 to 3,808. */
    uint32_t k;
    /* The window: the smallest count, and the largest, which is at most 4 * k. */
    uint32_t lo;
    uint32_t hi;
    /* A flag: whether the four numbers below are the patterns. If not, the standard's are. */
    uint32_t has_patterns;
    /*
     * The inversion patterns, with which a control word says that the count changes by +1, -1, +2
     * or -2. Each is of 14 bits, 0 to 16,383, with C1 the highest and C14 the lowest. plus1 ^ plus2
     * must equal minus1 ^ minus2, and must not be 0. A pattern of 0 is allowed, and so is a plus
     * pattern that equals a minus pattern.
     */
    uint32_t plus1;
    uint32_t minus1;
    uint32_t plus2;
    uint32_t minus2;
    /*
     * A flag: whether a sink mends one wrong control bit. The remainder of the control bytes as
     * read is JC3 ^ the remainder of JC1 and JC2. If it is 0 they are read as they came. If it is
     * that of one wrong bit among the 24, and mending is on, that bit is flipped before they are
     * read, and the frame is told as mended. In every other case the frame is ODU0_BADCHECK.
     */
    uint32_t mending;
    /* A flag: whether a sink checks the payload type. The sink's two calls set it: leave it 0. */
    uint32_t type_check;
} odu0_settings;

/* clang-format off */
/*
 * Initialises settings with the standard's patterns, and with mending off:
 * const odu0_settings eight = ODU0_SETTINGS(2, 0, 8);
 * Mending is turned on behind it, with settings.mending = 1; mending.c shows a whole job.
 */
#define ODU0_SETTINGS(k, lo, hi) {(k), (lo), (hi), 0, 0, 0, 0, 0, 0, 0}

/* Initialises settings with four other patterns, and with mending off; patterns.c shows a job. */
#define ODU0_SETTINGS_WITH_PATTERNS(k, lo, hi, plus1, minus1, plus2, minus2) \
    {(k), (lo), (hi), 1, (plus1), (minus1), (plus2), (minus2), 0, 0}
/* clang-format on */

/*
 * Initialises the settings of OPU0 with the standard's patterns, and with mending off:
 * const odu0_settings opu0 = ODU0_OPU0;
 */
#define ODU0_OPU0 ODU0_SETTINGS(3808, 14405, 14410)

/* A source's state. */
typedef struct odu0_source {
    /* The present count: how many client bytes the next frame carries. */
    uint32_t count;
    /* The multiframe number of the next frame, 0 to 255; a larger one is taken modulo 256. */
    uint32_t multiframe;
    uint8_t payload_type;
} odu0_source;

/* The answer to a source: the refusal's number, 0 if accepted, and the state to go on from. */
typedef struct odu0_source_reply {
    uint32_t refusal;
    odu0_source state;
} odu0_source_reply;

/*
 * A new source with its first count, inside the window, and its payload type. Refusals 1, 2, 5, 14;
 * the state of a refusal is all zero.
 */
odu0_source_reply odu0_source_new(odu0_settings settings, uint32_t first, uint8_t payload_type);

/*
 * Writes the next frame, of 4 * k + 8 bytes, from exactly "present count" client bytes, and
 * announces the next count in it. Refusals 1, 2, 5, 6, 7, 8, 14.
 */
odu0_source_reply odu0_source_call(odu0_settings settings,
                                   odu0_source state,
                                   uint32_t next,
                                   const uint8_t *client,
                                   size_t client_len,
                                   uint8_t *frame,
                                   size_t frame_len);

/* A rate of p / q client bytes a frame; q is 1 to 65,535. */
typedef struct odu0_rate {
    uint32_t p;
    uint32_t q;
} odu0_rate;

/* A rate keeper's state. It keeps its rate, so that all counts of one keeper are of one rate. */
typedef struct odu0_keeper {
    odu0_rate rate;
    /* What is left over, in parts of q; below q. */
    uint32_t remainder;
} odu0_keeper;

/* The answer to a rate keeper. */
typedef struct odu0_keeper_reply {
    /* The refusal's number, 0 if accepted. */
    uint32_t refusal;
    /* The next count, 0 if refused. */
    uint32_t count;
    /* The state to go on from. */
    odu0_keeper state;
} odu0_keeper_reply;

/* The archive's functions below odu0_keeper_new and odu0_keeper_call, with p and q apart. */
typedef struct odu0_v1_keeper_reply {
    uint32_t refusal;
    uint32_t count;
    uint32_t remainder;
} odu0_v1_keeper_reply;
uint32_t odu0_v1_keeper_new(uint32_t q);
odu0_v1_keeper_reply odu0_v1_keeper_call(odu0_settings settings,
                                         uint32_t p,
                                         uint32_t q,
                                         uint32_t remainder);

/* A new rate keeper. It begins with half of q, rounded down, as its remainder. */
static inline odu0_keeper odu0_keeper_new(odu0_rate rate)
{
    odu0_keeper keeper;
    keeper.rate = rate;
    keeper.remainder = odu0_v1_keeper_new(rate.q);
    return keeper;
}

/* The next count. Refusals 1, 2, 3, 4, 5, 14. */
static inline odu0_keeper_reply odu0_keeper_call(odu0_settings settings, odu0_keeper state)
{
    odu0_v1_keeper_reply next = odu0_v1_keeper_call(settings, state.rate.p, state.rate.q,
                                                    state.remainder);
    odu0_keeper_reply reply;
    reply.refusal = next.refusal;
    reply.count = next.count;
    reply.state.rate = state.rate;
    reply.state.remainder = next.remainder;
    return reply;
}

/* How many ports a card has. They are numbered from 1. */
#define ODU0_PORTS 8

/* The tally of one port. Each number stays at its largest value, 4,294,967,295. */
typedef struct odu0_tally {
    /* Frames taken. */
    uint32_t frames;
    /* Frames that answered ODU0_BADCHECK; a mended frame is none of them. */
    uint32_t badcheck;
    /* Bytes handed out. */
    uint32_t bytes;
} odu0_tally;

/*
 * The tallies of a card's eight ports, in their order: that of port p is port[p - 1]. The caller
 * keeps them, begins with all 24 numbers at zero, and lends the same tallies to the calls of all
 * the card's sinks, but never to two calls at once, and neither reads nor writes them during a
 * call: two threads that do so may lose frames, whichever ports they name. ports.c shows a card.
 */
typedef struct odu0_tallies {
    odu0_tally port[ODU0_PORTS];
} odu0_tallies;

/*
 * The card's total: of each of the three numbers the sum over the eight ports, in 64 bits. A number
 * that has stopped at its largest value counts with that value.
 */
typedef struct odu0_total {
    uint64_t frames;
    uint64_t badcheck;
    uint64_t bytes;
} odu0_total;

/*
 * The card's total of tallies with any content, which they keep. Nothing is refused or cut: eight
 * times 4,294,967,295 is 34,359,738,360.
 */
odu0_total odu0_card_total(const odu0_tallies *tallies);

/*
 * A sink's state. Of a flag 0 says that there is none, whatever stands beside it, and any other
 * value that there is one. An accepted call returns flags of 0 or 1, a `seen` of 0, 1 or 2, and 0
 * beside what is none; a refused call returns the very state that it was given. Behind `seen_type`
 * stand two bytes that mean nothing: compare states field by field.
 */
typedef struct odu0_sink {
    /* A flag, and the known count. */
    uint32_t known;
    uint32_t count;
    /* A flag, and the remembered word, JC1 * 256 + JC2; the low 16 bits of a larger one count. */
    uint32_t remembered;
    uint32_t word;
    /* A flag of the accepted payload type. */
    uint32_t accepted;
    /* How often `seen_type` was seen: 0 is never, 1 once, any other number twice or more running.
     */
    uint32_t seen;
    /* The accepted payload type. Type 0 is a type like any other. */
    uint8_t accepted_type;
    /* The type that was seen in the last frames numbered 0 that were judged. */
    uint8_t seen_type;
} odu0_sink;

/* What a sink is told if it checks the payload type. */
typedef struct odu0_expected {
    /*
     * The frame's multiframe number, 0 to 255; a larger one is taken modulo 256. It is the one that
     * the source gave the frame: the MFAS byte that came with it, or, if the source is at hand, the
     * `multiframe` of its state before the call that wrote the frame. The frame's bytes do not have
     * it.
     */
    uint32_t multiframe;
    /* The payload type that is expected, any of the 256. */
    uint8_t payload_type;
} odu0_expected;

/* The answer to a sink. */
typedef struct odu0_sink_reply {
    /* The refusal's number, 0 if accepted. */
    uint32_t refusal;
    /* The standing, 0 if refused. */
    uint32_t standing;
    /* Whether it found a count, 1 or 0, and the count, 0 if none. */
    uint32_t found;
    uint32_t count;
    /* How many bytes it handed out; 0 if the type check keeps them back. */
    uint32_t handed;
    /*
     * Whether the control bytes were mended, 1 or 0. Such a frame has any standing but
     * ODU0_BADCHECK. A wrong bit in JC3 is mended as well, and then the word is as it came.
     */
    uint32_t mended;
    /* The state to go on from. */
    odu0_sink state;
} odu0_sink_reply;

/* A sink that knows nothing. */
odu0_sink odu0_sink_new(void);

/* The archive's function below the two calls of a sink; settings.type_check says which it is. */
odu0_sink_reply odu0_v1_sink_call(odu0_settings settings,
                                  odu0_sink state,
                                  odu0_expected expected,
                                  const uint8_t *frame,
                                  size_t frame_len,
                                  uint8_t *out,
                                  size_t out_len,
                                  uint32_t port,
                                  odu0_tallies *tallies);

/*
 * Takes a frame, which is left as it came. It hands out, to the start of the output buffer, the
 * client bytes at the places of the count known before, and leaves the bytes after them as they
 * were. It follows the control word. It counts the frame in the tally of the port that it names,
 * 1 to 8, and in no other. Refusals 1, 2, 8, 9, 10, 14.
 *
 * The payload type is not checked, and what the state remembers of types stays as it is. Several
 * sinks may name one port, and a sink may name another port in its next call: but for refusal 10
 * the port has no part in what is handed out, in the answer or in the state.
 */
static inline odu0_sink_reply odu0_sink_call(odu0_settings settings,
                                             odu0_sink state,
                                             const uint8_t *frame,
                                             size_t frame_len,
                                             uint8_t *out,
                                             size_t out_len,
                                             uint32_t port,
                                             odu0_tallies *tallies)
{
    odu0_expected nothing;
    nothing.multiframe = 0;
    nothing.payload_type = 0;
    settings.type_check = 0;
    return odu0_v1_sink_call(settings, state, nothing, frame, frame_len, out, out_len, port,
                             tallies);
}

/*
 * The same with the payload type checked: bytes are handed out only if the type accepted before the
 * frame is the expected one. If it is not, the whole output buffer keeps its content and no byte is
 * tallied; all else is as without the check. At last, if the multiframe number is 0, the frame's
 * PSI byte is judged, the first byte of row 4, that of an ODU0_BADCHECK frame too. The same type in
 * three judged frames running becomes the accepted one; until then the earlier one, or none, stays.
 * types.c shows a whole job.
 */
static inline odu0_sink_reply odu0_sink_call_expecting(odu0_settings settings,
                                                       odu0_sink state,
                                                       odu0_expected expected,
                                                       const uint8_t *frame,
                                                       size_t frame_len,
                                                       uint8_t *out,
                                                       size_t out_len,
                                                       uint32_t port,
                                                       odu0_tallies *tallies)
{
    settings.type_check = 1;
    return odu0_v1_sink_call(settings, state, expected, frame, frame_len, out, out_len, port,
                             tallies);
}

#ifdef __cplusplus
}
#endif

#endif
