/* Tables for the two hand-written correctors (see tables.h), from x^4 = x + 1 alone. */
#include "tables.h"

uint8_t exponent[2 * LOG_ZERO + 1], logarithm[16];
uint32_t syndrome_row[15][16];
uint8_t ones[16];

void tables_prepare(void)
{
    uint8_t x = 1;
    for (unsigned i = 0; i < 30; i++) {
        exponent[i] = x;
        if (i < 15)
            logarithm[x] = (uint8_t)i;
        x = (uint8_t)(x << 1 ^ (x >> 3) * 0x13);
    }
    logarithm[0] = LOG_ZERO;
    for (unsigned v = 1; v < 16; v++)
        ones[v] = (uint8_t)(ones[v / 2] + v % 2);
    for (unsigned k = 0; k < 15; k++)
        for (unsigned v = 1; v < 16; v++) {
            syndrome_row[k][v] = 0;
            for (unsigned j = 1; j <= 6; j++)
                syndrome_row[k][v] |= (uint32_t)exponent[(logarithm[v] + j * k) % 15] << 4 * (j - 1);
        }
}
