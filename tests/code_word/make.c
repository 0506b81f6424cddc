/* A hand-written C encoder of one word (see hand.h): division by the generator in a shift register, one table row a
   semi-octet. */
#include "hand.h"
#include "tables.h"

/* Document 01's generating polynomials for modes 2, 3 and 4 without the leading 1, lowest power in the lowest four bits. */
static const uint32_t generator[3] = {0x68, 0xdc87, 0x793cac};

/* v times such a polynomial. */
static uint32_t generator_row[3][16];

void hand_prepare(void)
{
    tables_prepare();
    for (unsigned m = 0; m < 3; m++)
        for (unsigned v = 0; v < 16; v++) {
            generator_row[m][v] = 0;
            for (unsigned c = 0; c < 2 * m + 2; c++)
                generator_row[m][v] |= (uint32_t)times((uint8_t)v, generator[m] >> 4 * c & 15) << 4 * c;
        }
}

uint8_t hand_make(uint8_t *word, size_t length, uint32_t mode)
{
    if (!fits(length, mode))
        return 1;
    unsigned checks = 2 * mode - 2, top = 4 * (checks - 1);
    uint32_t rest = 0;
    const uint32_t *rows = generator_row[mode - 2];
    uint8_t bits = 0;
    for (size_t k = length; k-- > checks;) {
        bits |= word[k];
        rest = (rest << 4 & syndromes_of(mode)) ^ rows[(rest >> top ^ word[k]) & 15];
    }
    if (bits > 15)
        return 1;
    for (unsigned k = 0; k < checks; k++)
        word[k] = rest >> 4 * k & 15;
    return 0;
}
