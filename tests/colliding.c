// colliding COUNT BITS: prints identifiers of 29 bits, one a line in hex, that a hash table of 2^BITS places without keys of its
// own puts close together: those whose SipHash-1-3 with the keys 0 and 0, folded to 32 bits, ends in a number below a small bound.
// Source: J.-P. Aumasson and D. J. Bernstein, "SipHash: a fast short-input PRF".
#include <stdint.h>
#include <stdio.h>
#include <stdlib.h>

static uint64_t rotated(uint64_t word, int bits) { return word << bits | word >> (64 - bits); }

static void sip_round(uint64_t v[4])
{
    v[0] += v[1]; v[2] += v[3];
    v[1] = rotated(v[1], 13) ^ v[0]; v[3] = rotated(v[3], 16) ^ v[2];
    v[0] = rotated(v[0], 32);
    v[2] += v[1]; v[0] += v[3];
    v[1] = rotated(v[1], 17) ^ v[2]; v[3] = rotated(v[3], 21) ^ v[0];
    v[2] = rotated(v[2], 32);
}

// The hash of the four bytes of a number, the lowest first.
static uint32_t folded_hash(uint32_t number)
{
    uint64_t v[4] = {0x736f6d6570736575, 0x646f72616e646f6d, 0x6c7967656e657261, 0x7465646279746573};
    uint64_t last = (uint64_t)4 << 56 | number;
    v[3] ^= last;
    sip_round(v);
    v[0] ^= last;
    v[2] ^= 0xff;
    for (int i = 0; i < 3; i++) sip_round(v);
    uint64_t hash = v[0] ^ v[1] ^ v[2] ^ v[3];
    return (uint32_t)(hash ^ hash >> 32);
}

int main(int words, char **word)
{
    if (words != 3) return 2;
    uint32_t left = (uint32_t)atol(word[1]), bits = (uint32_t)atol(word[2]);
    uint32_t mask = (1u << bits) - 1, bound = (left >> (29 - bits)) + 2;
    for (uint32_t id = 0; id < 1u << 29 && left > 0; id++) {
        // (the number of a message with such an identifier has its highest bit set)
        if ((folded_hash(id | 1u << 31) & mask) < bound) {
            printf("%08X\n", id);
            left--;
        }
    }
    return left > 0;
}
