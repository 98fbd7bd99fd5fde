/*
 * The names of refusals and standings, those of numbers that are none too. tests/expected/names.txt
 * has what it prints, and the Rust wrapper's names are held to that file.
 */
#include "odu0.h"

#include <stdio.h>

int main(void)
{
    uint32_t number;
    for (number = 0; number <= 16; number++)
        printf("refusal %lu %s\n", (unsigned long)number, odu0_refusal_name(number));
    for (number = 0; number <= 8; number++)
        printf("standing %lu %s\n", (unsigned long)number, odu0_standing_name(number));
    printf("largest %s %s\n", odu0_refusal_name(UINT32_MAX), odu0_standing_name(UINT32_MAX));
    return 0;
}
