/*
 * The placing of client bytes and the taking of them, in several versions. Each lays the payload of
 * a frame of 4 rows of 2 + k bytes, k at most 3,808, from c client bytes, or hands those out to the
 * start of a buffer. None touches a byte that is not a place of its own, nor reads beyond a buffer.
 */
#ifndef PLACING_H
#define PLACING_H

#include <stddef.h>
#include <stdint.h>

/* Byte by byte. */
void loop_place(uint8_t *frame, const uint8_t *client, size_t k, size_t c);
void loop_take(const uint8_t *frame, uint8_t *out, size_t k, size_t c);

/* The fastest without intrinsics. */
void best_place(uint8_t *frame, const uint8_t *client, size_t k, size_t c);
void best_take(const uint8_t *frame, uint8_t *out, size_t k, size_t c);

/*
 * The fastest with AVX-512, whether the processor has what they need of it, and whether they use
 * it: on a tiny grid, and on a large one with few places or little stuffing, the ones above are
 * faster, and there, and where the processor has it not, they are these.
 */
int wide_here(void);
int wide_at(size_t k, size_t c);
void wide_place(uint8_t *frame, const uint8_t *client, size_t k, size_t c);
void wide_take(const uint8_t *frame, uint8_t *out, size_t k, size_t c);

/*
 * The remainder of a byte times x^8, and times x^16, for the check of JC1 and JC2: JC1's stands in
 * the second table, JC2's in the first. They are filled before they are used.
 */
extern uint8_t tables[2][256];
void fill_tables(void);

#endif
