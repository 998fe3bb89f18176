/* Rows of burst tables, stored in one way or another; tests/tables/run.py has to notice each. None of it is linked into
 * anything. Without a way it stores a count, which is no table. */
#include <stdint.h>

/* The interleaved order of eight beats. */
#define ORDERS \
    0, 1, 2, 3, 4, 5, 6, 7, \
    1, 0, 3, 2, 5, 4, 7, 6, \
    2, 3, 0, 1, 6, 7, 4, 5, \
    3, 2, 1, 0, 7, 6, 5, 4, \
    4, 5, 6, 7, 0, 1, 2, 3, \
    5, 4, 7, 6, 1, 0, 3, 2, \
    6, 7, 4, 5, 2, 3, 0, 1, \
    7, 6, 5, 4, 3, 2, 1, 0

#if defined BYTES
static const uint8_t rows[] = {ORDERS};
#elif defined HALFWORDS
static const uint16_t rows[] = {ORDERS};
#elif defined WORDS
static const uint32_t rows[] = {ORDERS};
#elif defined LENGTH_FOUR
static const uint8_t rows[] = {0, 1, 2, 3, 1, 2, 3, 0, 2, 3, 0, 1, 3, 0, 1, 2};
#elif defined NIBBLES
static const uint32_t rows[] = {
    0x76543210, 0x67452301, 0x54761032, 0x45670123,
    0x32107654, 0x23016745, 0x10325476, 0x01234567
};
#else
static const uint32_t rows[] = {0, 1, 2, 3, 4, 5, 6, 7};
#endif

uint32_t morgazell_place(uint32_t at)
{
    return (uint32_t)rows[at % (sizeof rows / sizeof rows[0])];
}
