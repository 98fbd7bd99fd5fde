/*
 * The plain loops in C: the placing and the taking of client bytes byte by byte, the card's total,
 * and the check, from tables and by steps.
 */
#include "placing.h"

/* One accumulator and one branch for each payload byte. */
void loop_place(uint8_t *frame, const uint8_t *client, size_t k, size_t c)
{
    size_t s = 4 * k, acc = 0, j = 0;
    for (size_t row = 0; row < 4; row++) {
        uint8_t *part = frame + row * (k + 2) + 2;
        for (size_t i = 0; i < k; i++) {
            acc += c;
            if (acc >= s) {
                acc -= s;
                part[i] = client[j++];
            } else {
                part[i] = 0;
            }
        }
    }
}

void loop_take(const uint8_t *frame, uint8_t *out, size_t k, size_t c)
{
    size_t s = 4 * k, acc = 0, j = 0;
    for (size_t row = 0; row < 4; row++) {
        const uint8_t *part = frame + row * (k + 2) + 2;
        for (size_t i = 0; i < k; i++) {
            acc += c;
            if (acc >= s) {
                acc -= s;
                out[j++] = part[i];
            }
        }
    }
}

/* The tallies of eight ports and their total, as odu0.h has them. */
struct tallies {
    uint32_t port[8][3];
};

struct total {
    uint64_t number[3];
};

struct total loop_total(const struct tallies *tallies)
{
    struct total total = {{0, 0, 0}};
    for (size_t port = 0; port < 8; port++)
        for (size_t i = 0; i < 3; i++)
            total.number[i] += tallies->port[port][i];
    return total;
}

uint8_t tables[2][256];

/* Eight steps of the division. */
static uint8_t steps(uint8_t byte)
{
    for (int i = 0; i < 8; i++)
        byte = (uint8_t)(byte << 1 ^ (byte >> 7 ? 0x0D : 0));
    return byte;
}

void fill_tables(void)
{
    for (int byte = 0; byte < 256; byte++) {
        tables[0][byte] = steps((uint8_t)byte);
        tables[1][byte] = steps(steps((uint8_t)byte));
    }
}

/* One table, looked up twice. */
uint8_t table_check(uint8_t jc1, uint8_t jc2)
{
    return tables[0][tables[0][jc1] ^ jc2];
}

/* One table for each byte. */
uint8_t tables_check(uint8_t jc1, uint8_t jc2)
{
    return tables[1][jc1] ^ tables[0][jc2];
}

uint8_t steps_check(uint8_t jc1, uint8_t jc2)
{
    return steps(steps(jc1) ^ jc2);
}
