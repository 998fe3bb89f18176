/* Which row was open, with the index of all openings: the capture is judged, the ACTIVEs of
 * each bank are counted, and one walk writes every opening where it ends. */
#include "judge.h"

#include <string.h>

enum { BANKS = 4, EVENTS_AT_WORD = 4, WORDS = 3, A10 = 1 << 10 };

/* Pins 16-19, CS# the lowest. */
enum { WRITE = 2, PRECHARGE = 4, READ = 10, ACTIVE = 12 };

enum { REFUSED_BUFFER = 7, REFUSED_BROKEN = 8, REFUSED_QUESTION = 13 };

static uint32_t load(const uint8_t *at)
{
    uint32_t word;
    memcpy(&word, at, sizeof word);
    return word;
}

static uint64_t refused(uint64_t number, uint32_t place) { return number << 56 | place; }

static const uint8_t *pins_in(const uint8_t *bytes) { return bytes + load(bytes + 4 * EVENTS_AT_WORD) + 4; }

static void count(const uint8_t *pins, uint32_t n, struct c_bank *found)
{
    for (uint32_t i = 0; i < n; i++) {
        uint32_t word = load(pins + 8 * (size_t)i);
        if ((word >> 16 & 15) == ACTIVE)
            found[word >> 14 & 3].count++;
    }
    for (uint32_t bank = 1; bank < BANKS; bank++)
        found[bank].before = found[bank - 1].before + found[bank - 1].count;
}

/* The opening that stands open in each bank has its row and first event written already. */
static void write(const uint8_t *pins, uint32_t n, const struct c_bank *found, uint32_t *index)
{
    uint32_t *at[BANKS], open = 0;
    for (uint32_t bank = 0; bank < BANKS; bank++)
        at[bank] = index + WORDS * (size_t)found[bank].before;
    for (uint32_t i = 0; i < n; i++) {
        uint32_t word = load(pins + 8 * (size_t)i), bank = word >> 14 & 3, closed = 0;
        switch (word >> 16 & 15) {
        case ACTIVE:
            at[bank][0] = word & 0x3FFF;
            at[bank][1] = i;
            open |= 1u << bank;
            continue;
        case READ:
        case WRITE:
            closed = word & A10 ? 1u << bank : 0;
            break;
        case PRECHARGE:
            closed = word & A10 ? open : open & 1u << bank;
            break;
        }
        open &= ~closed;
        for (bank = 0; closed; bank++, closed >>= 1)
            if (closed & 1) {
                at[bank][2] = i - 1;
                at[bank] += WORDS;
            }
    }
    for (uint32_t bank = 0; bank < BANKS; bank++)
        if (open >> bank & 1)
            at[bank][2] = n - 1;
}

/* By the last opening of the bank that begins at the event or before it. */
static uint64_t found_at(const struct c_bank *bank, const uint32_t *index, uint32_t event)
{
    const uint32_t *own = index + WORDS * (size_t)bank->before;
    uint32_t low = 0, high = bank->count;
    while (low < high) {
        uint32_t half = low + (high - low) / 2;
        if (own[WORDS * (size_t)half + 1] <= event)
            low = half + 1;
        else
            high = half;
    }
    if (low == 0 || own[WORDS * (size_t)(low - 1) + 2] < event)
        return 0;
    return (uint64_t)1 << 48 | own[WORDS * (size_t)(low - 1)];
}

uint64_t c_open_row(const uint8_t *bytes, size_t len, uint32_t bank, uint32_t event,
                    struct c_bank *records, size_t records_len, uint32_t *index, size_t index_len)
{
    uint64_t judged = c_judge(bytes, len);
    uint32_t n = (uint32_t)judged;
    if (judged >> 56)
        return judged;
    if (judged >> 48)
        return refused(REFUSED_BROKEN, n);
    if (bank >= BANKS || event >= n)
        return refused(REFUSED_QUESTION, 0);
    if (records_len < BANKS)
        return refused(REFUSED_BUFFER, BANKS);
    struct c_bank found[BANKS] = {{0, 0}};
    count(pins_in(bytes), n, found);
    uint32_t words = WORDS * (found[BANKS - 1].before + found[BANKS - 1].count);
    if (index_len < words)
        return refused(REFUSED_BUFFER, words);
    memcpy(records, found, sizeof found);
    write(pins_in(bytes), n, found, index);
    return found_at(&found[bank], index, event);
}
