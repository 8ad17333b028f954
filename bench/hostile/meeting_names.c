/* Prints names of eight letters that the program's tables of names all look for at the same places: meeting_names COUNT BITS
 *
 * The tables are open tables whose hash has no seed (`hash_of` of the crate base_tables: FNV-1a of 64 bits, which `mixed` makes 32), and
 * where a search begins is told by the lowest of these. So anyone can find such names, by trying: one of 2^BITS fits. */
#include <stdint.h>
#include <stdio.h>
#include <stdlib.h>

enum { LENGTH = 8, FRONT = 5 };

static const char LETTERS[] = "abcdefghijklmnopqrstuvwxyz0123456789ABCDEFGHIJKLMNOPQRSTUVWXYZ_$";

/* The state behind one more byte. */
static uint64_t with_byte(uint64_t state, char byte) {
    return (state ^ (uint8_t)byte) * 0x100000001b3u;
}

static uint32_t mixed(uint64_t state) {
    uint64_t word = state * 0x9e3779b97f4a7c15u;
    return (word ^ word >> 32) * 0xd6e8feb86659fd93u >> 32;
}

int main(int count, char **words) {
    if (count != 3) return 2;
    long wanted = atol(words[1]);
    uint32_t mask = ((uint32_t)1 << atoi(words[2])) - 1;
    char name[LENGTH + 1] = {0};
    for (uint64_t number = 0; wanted > 0; number++) {
        uint64_t state = 0xcbf29ce484222325u;
        for (int i = 0; i < FRONT; i++) {
            name[i] = LETTERS[number >> 6 * i & 63];
            state = with_byte(state, name[i]);
        }
        for (uint32_t back = 0; back < 1u << 18 && wanted > 0; back++) {
            uint64_t last = state;
            for (int i = FRONT; i < LENGTH; i++) {
                name[i] = LETTERS[back >> 6 * (i - FRONT) & 63];
                last = with_byte(last, name[i]);
            }
            if ((mixed(last) & mask) == 0) {
                puts(name);
                wanted--;
            }
        }
    }
    return 0;
}
