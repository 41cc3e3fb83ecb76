/* Inputs: what an input means, the seeds, and inputs made from the seeds by a fixed generator. */
#ifndef INPUTS_H
#define INPUTS_H

#include <stddef.h>
#include <stdint.h>

/* Makes the calls that an input stands for. Aborts, or crashes, where a promise is not kept. */
void attack(const uint8_t *input, size_t length);

/* The numbers of the seeds count from 0; past the last there is none, and the length is 0. */
#define LONGEST_INPUT ((size_t)16 * 1024)
size_t seed(size_t number, uint8_t input[LONGEST_INPUT]);

/* An input of this number, always the same one. */
size_t made_input(uint64_t number, uint8_t input[LONGEST_INPUT]);

#endif
