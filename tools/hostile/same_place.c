/* Prints names of six letters whose hashes agree in their last 14 bits, so that a table of up to 147,456 names seeks all of them from one place on.
 *
 *     same_place COUNT
 *
 * The hash is that of the kit's `FoldHasher` over the name's length and its bytes, one by one. Its seed is fixed.
 */
#include <stdint.h>
#include <stdio.h>
#include <stdlib.h>

#define LENGTH 6
#define MASK ((1u << 14) - 1)

static const uint64_t multiplier = 0x9e3779b97f4a7c15ull, seed = 0x243f6a8885a308d3ull;
static const char letters[] = "ABCDEFGHIJKLMNOPQRSTUVWXYZ_abcdefghijklmnopqrstuvwxyz0123456789";
static char name[LENGTH + 1];
static long left;

static uint64_t folded(uint64_t a, uint64_t b) {
    unsigned __int128 product = (unsigned __int128)a * b;
    return (uint64_t)product ^ (uint64_t)(product >> 64);
}

static uint64_t behind(uint64_t state, uint64_t byte) {
    return folded(state ^ (byte | byte << 8 | byte << 16), multiplier ^ 2);
}

static void search(int place, uint64_t state) {
    if (place == LENGTH) {
        if (((state ^ state >> 32) & MASK) == 0 && left-- > 0) puts(name);
        return;
    }
    for (const char *letter = letters; *letter && (place > 0 || *letter < '0' || *letter > '9') && left > 0; letter++) {
        name[place] = *letter;
        search(place + 1, behind(state, (unsigned char)*letter));
    }
}

int main(int count, char **words) {
    left = count > 1 ? atol(words[1]) : 0;
    search(0, folded(seed ^ LENGTH, multiplier ^ 16));
    return 0;
}
