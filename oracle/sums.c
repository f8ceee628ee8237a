/* Every f32 there is, lent as the sum of a new board: vrc6_level must refuse by 3 all but the whole numbers 0 to 61. */
#include <stdio.h>
#include <string.h>

#include "../include/vrc6.h"

static uint8_t fixed[1024], changing[2048];

/* A whole number 0 to 61, and no negative zero, told from the bits of an f32: sign, exponent and fraction. */
static bool is_sum(uint32_t bits) {
    uint32_t exponent = bits >> 23, fraction = bits & 0x7FFFFF;
    if (bits == 0)
        return true;
    /* Also where the sign is set, since it stands above the exponent. */
    if (exponent < 127 || exponent > 127 + 5)
        return false;
    uint32_t whole = (fraction | 0x800000) >> (150 - exponent);
    return whole << (150 - exponent) == (fraction | 0x800000) && whole <= 61;
}

int main(void) {
    Vrc6Board board;
    Vrc6Settings settings = {.mirroring = VRC6_VERTICAL, .revision = VRC6_REVISION_A};
    if (vrc6_create(&board, (Vrc6MemoryLayout){0}, settings, fixed, sizeof fixed, changing, sizeof changing))
        return 2;
    uint64_t sums = 0, different = 0;
    uint32_t bits = 0;
    do {
        memcpy(&board.audio.out, &bits, sizeof bits);
        bool taken = vrc6_level(&board).refusal == VRC6_OK;
        sums += taken;
        different += taken != is_sum(bits);
    } while (++bits != 0);
    printf("4294967296 bit patterns: %llu taken for sums, %llu answers differ\n", (unsigned long long)sums,
           (unsigned long long)different);
    return different != 0;
}
