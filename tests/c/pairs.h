/* Pairs of files, as tests/beside/examples/hostile.rs writes them: one after another, each as the length of the handler and that
   of the proof, four bytes with the least significant first, and then both. */
#ifndef PAIRS_H
#define PAIRS_H

#include "handover.h"

#include <stdio.h>
#include <stdlib.h>

struct pair {
    uint8_t handler[HANDOVER_MOST_BYTES + 1];
    uint8_t proof[HANDOVER_MOST_BYTES + 1];
    size_t handler_len;
    size_t proof_len;
};

/* Ends the program with 2, which says that nothing was tested. */
static inline void give_up(const char *what)
{
    fprintf(stderr, "%s\n", what);
    exit(2);
}

/* Four bytes as a number. */
static inline size_t length_of(const uint8_t *bytes)
{
    return (size_t)bytes[0] | (size_t)bytes[1] << 8 | (size_t)bytes[2] << 16 | (size_t)bytes[3] << 24;
}

/* Reads the next pair; false at the end of the file. */
static inline bool next_pair(FILE *file, struct pair *pair)
{
    uint8_t head[8];
    size_t got = fread(head, 1, sizeof head, file);
    if (got == 0) {
        return false;
    }
    pair->handler_len = length_of(head);
    pair->proof_len = length_of(head + 4);
    bool fits = got == sizeof head && pair->handler_len <= sizeof pair->handler && pair->proof_len <= sizeof pair->proof;
    if (!fits || fread(pair->handler, 1, pair->handler_len, file) != pair->handler_len
        || fread(pair->proof, 1, pair->proof_len, file) != pair->proof_len) {
        give_up("the file of pairs is damaged");
    }
    return true;
}

/* Adds the low `width` bits of a value to a file, most significant bit first. */
static inline void add_bits(uint8_t *file, size_t *bits, unsigned width, uint32_t value)
{
    for (unsigned i = width; i-- > 0; (*bits)++) {
        uint8_t bit = (uint8_t)((value >> i & 1) << (7 - *bits % 8));
        file[*bits / 8] = (uint8_t)((*bits % 8 == 0 ? 0 : file[*bits / 8]) | bit);
    }
}

/* Five bits of a file, from a bit on. */
static inline uint32_t size_at(const uint8_t *file, size_t bit)
{
    uint32_t two = (uint32_t)file[bit / 8] << 8 | file[bit / 8 + 1];
    return two >> (11 - bit % 8) & 31;
}

/* A pair that allows whatever a well-formed handler does: `nil` over its variables. All states are in P, all pairs in R and Q, and none
   is in G. For a handler with no head it is one over a variable of size 2. */
static inline void make_quiet(const struct pair *pair, struct pair *quiet)
{
    uint32_t variables = pair->handler_len < 4 ? 0 : pair->handler[0] >> 5;
    uint32_t states = 1;
    size_t bits = 0;
    variables = variables > 4 ? 0 : variables;
    add_bits(quiet->handler, &bits, 3, variables == 0 ? 1 : variables);
    for (uint32_t v = 0; v < (variables == 0 ? 1 : variables); v++) {
        uint32_t size = variables == 0 ? 2 : size_at(pair->handler, 3 + 5 * v);
        add_bits(quiet->handler, &bits, 5, size);
        states *= size;
    }
    add_bits(quiet->handler, &bits, 3, 0);
    quiet->handler_len = (bits + 7) / 8;
    states = states > HANDOVER_MOST_STATES ? 0 : states;
    bits = 0;
    add_bits(quiet->proof, &bits, 10, 1 << 5 | 2);
    for (uint32_t i = 0; i < states * (1 + states); i++) {
        add_bits(quiet->proof, &bits, 1, 1);
    }
    for (uint32_t i = 0; i < states * states; i++) {
        add_bits(quiet->proof, &bits, 1, 0);
    }
    add_bits(quiet->proof, &bits, 19, 1 << 4);
    quiet->proof_len = (bits + 7) / 8;
}

#endif
