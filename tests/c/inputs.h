/* Captures and request lists for the C tests, written here from the header's words. */
#include <string.h>

#include "morgazell.h"

enum {
    NOP = 0xE0000,
    ACTIVE = 0xC0000,
    READ = 0xA0000,
    WRITE = 0x20000,
    REFRESH = 0x80000,
    PRECHARGE = 0x40000,
    AUTO = 0x400, /* all banks, of a PRECHARGE */
};

enum { MOST_EVENTS = 8000, LONGEST = 88 + 8 * MOST_EVENTS };

static const uint32_t SETTINGS[16] = {1, 13, 10, 0x34, 3, 3, 7, 10, 2, 3, 1, 12, 2, 1000000, 2, 20};

static void put(uint8_t *at, uint32_t word)
{
    for (int i = 0; i < 4; i++)
        at[i] = (uint8_t)(word >> 8 * i);
}

/* Room for n events with 14 or 16 settings, in edition 0 or 1; answers the length. */
static size_t begin(uint8_t *capture, uint32_t settings, uint32_t n, uint32_t edition)
{
    uint32_t start = 24 + 4 * settings;
    const uint32_t header[6] = {start + 8 * n, settings, 24, n, start, edition};
    for (int i = 0; i < 6; i++)
        put(capture + 4 * i, header[i]);
    for (uint32_t i = 0; i < settings; i++)
        put(capture + 24 + 4 * i, SETTINGS[i]);
    return start + 8 * n;
}

static void event(uint8_t *capture, uint32_t settings, uint32_t i, uint32_t cycle, uint32_t pins)
{
    put(capture + 24 + 4 * settings + 8 * i, cycle);
    put(capture + 24 + 4 * settings + 8 * i + 4, pins);
}

/* Of an export: a stamp of two bytes, and behind it the pins. Not every test has one. */
__attribute__((unused)) static void record(uint8_t *records, uint32_t i, uint32_t stamp, uint32_t pins)
{
    records[6 * i] = (uint8_t)stamp;
    records[6 * i + 1] = (uint8_t)(stamp >> 8);
    put(records + 6 * i + 2, pins);
}
