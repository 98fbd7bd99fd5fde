/*
 * The source's call and the sink's call of odu0.h in C, around the best placing: the whole job of
 * the library's calls, as the header tells it. fill_tables comes first.
 */
#include "odu0.h"
#include "placing.h"

static inline uint8_t remainder_of(uint8_t jc1, uint8_t jc2)
{
    return tables[1][jc1] ^ tables[0][jc2];
}

/* The patterns of a change by +1, +2, -1 and -2. */
struct patterns {
    uint32_t of[4];
};

static inline struct patterns patterns_of(const odu0_settings *settings)
{
    if (settings->has_patterns)
        return (struct patterns){
            {settings->plus1, settings->plus2, settings->minus1, settings->minus2}};
    return (struct patterns){{0x2AAA, 0x1999, 0x1555, 0x2666}};
}

static inline int are_wrong(struct patterns patterns)
{
    const uint32_t *of = patterns.of;
    return (of[0] ^ of[1]) != (of[2] ^ of[3]) || of[0] == of[1] ||
           (of[0] | of[1] | of[2] | of[3]) > 16383;
}

static inline int holds(const odu0_settings *settings, uint32_t count)
{
    return settings->lo <= count && count <= settings->hi;
}

static uint32_t source_refusal(const odu0_settings *settings,
                               odu0_source state,
                               uint32_t next,
                               size_t client_len,
                               size_t frame_len)
{
    if (settings->k == 0 || settings->k > 3808)
        return ODU0_GRID;
    if (settings->lo > settings->hi || settings->hi > 4 * settings->k)
        return ODU0_WINDOW;
    if (!holds(settings, state.count))
        return ODU0_STATE;
    if (!holds(settings, next))
        return ODU0_COUNT;
    if (client_len != state.count)
        return ODU0_CLIENT;
    if (frame_len != 4 * settings->k + 8)
        return ODU0_FRAME;
    return are_wrong(patterns_of(settings)) ? ODU0_PATTERNS : ODU0_ACCEPTED;
}

/* C1 to C14, II, DI, which say that after the count "old" comes the count "next". */
static inline uint32_t announce(struct patterns patterns, uint32_t old, uint32_t next)
{
    switch ((int32_t)(next - old)) {
    case 0:
        return old << 2;
    case 1:
        return (old ^ patterns.of[0]) << 2 | 2;
    case 2:
        return (old ^ patterns.of[1]) << 2 | 2;
    case -1:
        return (old ^ patterns.of[2]) << 2 | 1;
    case -2:
        return (old ^ patterns.of[3]) << 2 | 1;
    default:
        return next << 2 | 3;
    }
}

odu0_source_reply whole_source_call(odu0_settings settings,
                                    odu0_source state,
                                    uint32_t next,
                                    const uint8_t *client,
                                    size_t client_len,
                                    uint8_t *frame,
                                    size_t frame_len)
{
    odu0_source_reply reply = {0, state};
    size_t row = settings.k + 2;
    uint32_t word;
    reply.refusal = source_refusal(&settings, state, next, client_len, frame_len);
    if (reply.refusal)
        return reply;
    best_place(frame, client, settings.k, state.count);
    word = announce(patterns_of(&settings), state.count, next);
    frame[0] = frame[row] = frame[2 * row] = frame[3 * row + 1] = 0;
    frame[1] = (uint8_t)(word >> 8);
    frame[row + 1] = (uint8_t)word;
    frame[2 * row + 1] = remainder_of((uint8_t)(word >> 8), (uint8_t)word);
    frame[3 * row] = state.multiframe % 256 ? 0 : state.payload_type;
    reply.state.count = next;
    reply.state.multiframe = (state.multiframe + 1) % 256;
    return reply;
}

static uint32_t sink_refusal(const odu0_settings *settings,
                             size_t frame_len,
                             size_t out_len,
                             uint32_t port)
{
    if (settings->k == 0 || settings->k > 3808)
        return ODU0_GRID;
    if (settings->lo > settings->hi || settings->hi > 4 * settings->k)
        return ODU0_WINDOW;
    if (frame_len != 4 * settings->k + 8)
        return ODU0_FRAME;
    if (out_len < settings->hi)
        return ODU0_SPACE;
    if (port == 0 || port > ODU0_PORTS)
        return ODU0_PORT;
    return are_wrong(patterns_of(settings)) ? ODU0_PATTERNS : ODU0_ACCEPTED;
}

/* The bit of JC1 to JC3, as one number, that leaves this remainder alone, or 0. */
static uint32_t wrong_bit(uint8_t remainder)
{
    for (int i = 0; i < 8; i++) {
        uint8_t bit = (uint8_t)(1 << i);
        if (remainder == bit)
            return bit;
        if (remainder == remainder_of(0, bit))
            return (uint32_t)bit << 8;
        if (remainder == remainder_of(bit, 0))
            return (uint32_t)bit << 16;
    }
    return 0;
}

static const int32_t changes[4] = {1, 2, -1, -2};

/* Where a word with II != DI leads that continues a count by a pattern of its sign, or -1. */
static inline int32_t continued(struct patterns patterns, uint32_t count, uint32_t word)
{
    uint32_t difference = word >> 2 ^ count, i = word & 2 ? 0 : 2;
    if (difference != patterns.of[i] && difference != patterns.of[++i])
        return -1;
    return (int32_t)((count + (uint32_t)changes[i]) & 16383);
}

/* The same from the two counts that the word before may have announced. */
static inline int32_t paired(struct patterns patterns, uint32_t before, uint32_t word)
{
    int32_t found = -1;
    for (uint32_t i = before & 2 ? 0 : 2, n = 0; n < 2 && found < 0; i++, n++) {
        uint32_t count = (before >> 2 ^ patterns.of[i]) + (uint32_t)changes[i];
        found = continued(patterns, count & 16383, word);
    }
    return found;
}

static inline void raise(uint32_t *number, uint32_t by)
{
    *number = *number > UINT32_MAX - by ? UINT32_MAX : *number + by;
}

/* The state's types, with 0 beside what is none, and the frame's PSI byte judged. */
static inline void judge(odu0_sink *state, int is_judged, uint8_t psi)
{
    state->accepted = state->accepted != 0;
    state->seen = state->seen < 2 ? state->seen : 2;
    if (!state->accepted)
        state->accepted_type = 0;
    if (!state->seen)
        state->seen_type = 0;
    if (!is_judged)
        return;
    if (state->seen == 2 && state->seen_type == psi)
        state->accepted = 1, state->accepted_type = psi;
    state->seen = state->seen && state->seen_type == psi ? 2 : 1;
    state->seen_type = psi;
}

odu0_sink_reply whole_sink_call(odu0_settings settings,
                                odu0_sink state,
                                odu0_expected expected,
                                const uint8_t *frame,
                                size_t frame_len,
                                uint8_t *out,
                                size_t out_len,
                                uint32_t port,
                                odu0_tallies *tallies)
{
    odu0_sink_reply reply = {0, 0, 0, 0, 0, 0, state};
    struct patterns patterns = patterns_of(&settings);
    size_t row = settings.k + 2;
    int known = state.known && holds(&settings, state.count);
    int has_word = state.remembered && (state.word >> 1 & 1) != (state.word & 1);
    uint32_t before = state.word & 65535, word, remainder, bit = 0;
    int32_t count = -1;
    odu0_tally *tally;

    reply.refusal = sink_refusal(&settings, frame_len, out_len, port);
    if (reply.refusal)
        return reply;
    if (known && (!settings.type_check ||
                  (state.accepted && state.accepted_type == expected.payload_type))) {
        best_take(frame, out, settings.k, state.count);
        reply.handed = state.count;
    }

    word = (uint32_t)frame[1] << 8 | frame[row + 1];
    remainder = frame[2 * row + 1] ^ remainder_of(frame[1], frame[row + 1]);
    if (remainder && settings.mending)
        bit = wrong_bit((uint8_t)remainder);
    word ^= bit >> 8;
    reply.mended = bit != 0;
    reply.state.remembered = reply.state.word = 0;
    if (remainder && !bit) {
        reply.standing = ODU0_BADCHECK;
    } else if ((word >> 1 & 1) == (word & 1)) {
        reply.standing = ODU0_READ;
        count = (int32_t)(word >> 2);
    } else {
        reply.state.remembered = 1, reply.state.word = word;
        reply.standing = ODU0_TRACKED;
        if (known)
            count = continued(patterns, state.count, word);
        if (count < 0 && has_word) {
            reply.standing = ODU0_PAIRED;
            count = paired(patterns, before, word);
        }
        if (count < 0)
            reply.standing = ODU0_WAITING;
    }
    if (count >= 0 && !holds(&settings, (uint32_t)count)) {
        reply.standing = ODU0_OUTSIDE;
        count = -1;
    }
    reply.found = reply.state.known = count >= 0;
    reply.count = reply.state.count = count < 0 ? 0 : (uint32_t)count;
    judge(&reply.state, settings.type_check && expected.multiframe % 256 == 0, frame[3 * row]);

    tally = &tallies->port[port - 1];
    raise(&tally->frames, 1);
    raise(&tally->badcheck, reply.standing == ODU0_BADCHECK);
    raise(&tally->bytes, reply.handed);
    return reply;
}
