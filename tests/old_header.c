/*
 * A program with the declarations of a header from before version 1, whose names carry no version.
 * It compiles, and must not link with an archive of version 1 (.ci/version).
 */
#include <stdint.h>

typedef struct odu0_tally {
    uint32_t frames;
    uint32_t bad;
    uint32_t bytes;
} odu0_tally;

typedef struct odu0_tallies {
    odu0_tally port[8];
} odu0_tallies;

typedef struct odu0_total {
    uint64_t frames;
    uint64_t bad;
    uint64_t bytes;
} odu0_total;

odu0_total odu0_card_total(const odu0_tallies *tallies);

int main(void)
{
    const odu0_tallies tallies = {{{0, 0, 0}}};
    return odu0_card_total(&tallies).frames != 0;
}
