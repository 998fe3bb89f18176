/* Morgazell's archive and the C next door on the same input, in one process.
 *
 *     bench time WHAT FILE         the least nanoseconds a call, ours and C's
 *     bench call WHAT FILE WHO N   N calls of one of them, for counting instructions
 *
 * WHAT is judge, recording (beside the C's judge), cells, rows (which row bank 0 has open after the last event, with the whole
 * index), play (on a window from the row of the first ACTIVE on), open or closed, a schedule by that row policy, write, an
 * export, or read, what the C wrote as an export; WHO is ours or c. FILE is a capture, or for a schedule the settings and the requests as words. */
#define _POSIX_C_SOURCE 199309L
#include <stdio.h>
#include <stdlib.h>
#include <string.h>
#include <time.h>

#include "judge.h"
#include "morgazell.h"

enum { MOST_BYTES = 64089, MOST_CELLS = 16 * 8000, SETTINGS = 14, RUNS = 60 };

static uint32_t words[MOST_BYTES / 4 + 1];
static size_t size;
static uint32_t cells[MOST_CELLS];
static uint8_t bytes[MOST_BYTES];
static uint8_t records[MORGAZELL_LONGEST_EXPORT];
static size_t recorded;

typedef uint64_t call(void);

static const uint8_t *capture(void) { return (const uint8_t *)words; }
static size_t requests(void) { return size / 4 - SETTINGS; }

static uint64_t our_judge(void) { return morgazell_judge(capture(), size); }
static uint64_t c_s_judge(void) { return c_judge(capture(), size); }
static uint64_t our_recording(void) { return morgazell_recording(capture(), size); }
static uint64_t our_cells(void) { return morgazell_cells(capture(), size, cells, MOST_CELLS); }
static uint64_t c_s_cells(void) { return c_cells(capture(), size, cells, MOST_CELLS); }

static uint64_t our_schedule(uint32_t policy)
{
    return morgazell_schedule(words, SETTINGS, words + SETTINGS, requests(), policy, bytes, MOST_BYTES);
}

static uint64_t c_s_schedule(uint32_t policy)
{
    return c_schedule(words, SETTINGS, words + SETTINGS, requests(), policy, bytes, MOST_BYTES);
}

static uint64_t our_open(void) { return our_schedule(MORGAZELL_OPEN_ROWS); }
static uint64_t c_s_open(void) { return c_s_schedule(MORGAZELL_OPEN_ROWS); }
static uint64_t our_closed(void) { return our_schedule(MORGAZELL_CLOSED_ROWS); }
static uint64_t c_s_closed(void) { return c_s_schedule(MORGAZELL_CLOSED_ROWS); }

/* Each into words of its own, which are compared too. */
enum { MOST_WORDS = 3 * 8000 };

static uint32_t our_index[MOST_WORDS], c_s_index[MOST_WORDS];
static struct morgazell_bank our_banks[4];
static struct c_bank c_s_banks[4];

static uint32_t last_event(void) { return words[3] - 1; }

static uint64_t our_rows(void) { return morgazell_open_row(capture(), size, 0, last_event(), our_banks, 4, our_index, MOST_WORDS); }
static uint64_t c_s_rows(void) { return c_open_row(capture(), size, 0, last_event(), c_s_banks, 4, c_s_index, MOST_WORDS); }

static int same_rows(void)
{
    return memcmp(our_banks, c_s_banks, sizeof our_banks) == 0 && memcmp(our_index, c_s_index, sizeof our_index) == 0;
}

/* Each plays on a window of its own, which is compared too, and reads to words of its own. */
static uint32_t our_window[MORGAZELL_MOST_WINDOW], c_s_window[MORGAZELL_MOST_WINDOW];
static uint32_t our_reads[MOST_CELLS], c_s_reads[MOST_CELLS];
static uint32_t supply[2 * MOST_CELLS];

/* The first cell of the row that the first event opens: settings are words 6 to 19, pins word 21 of 14 settings. */
static uint32_t first_cell(void)
{
    uint32_t rows = words[7], columns = words[8], pins = words[21];
    return ((pins >> 14 & 3) << rows | (pins & 0x3fff)) << columns;
}

static uint64_t our_play(void)
{
    return morgazell_play(capture(), size, first_cell(), our_window, MORGAZELL_MOST_WINDOW, supply, 2 * MOST_CELLS, our_reads, MOST_CELLS);
}

static uint64_t c_s_play(void)
{
    return c_play(capture(), size, first_cell(), c_s_window, MORGAZELL_MOST_WINDOW, supply, 2 * MOST_CELLS, c_s_reads, MOST_CELLS);
}

static int same_play(void)
{
    return memcmp(our_window, c_s_window, sizeof our_window) == 0 && memcmp(our_reads, c_s_reads, sizeof our_reads) == 0;
}

static uint64_t our_write(void) { return morgazell_write_export(capture(), size, bytes, MOST_BYTES); }
static uint64_t c_s_write(void) { return c_write_export(capture(), size, bytes, MOST_BYTES); }

/* Under the capture's settings and edition. */
static uint64_t our_read(void)
{
    return morgazell_read_export(records, recorded, words + 6, SETTINGS, words[5], bytes, MOST_BYTES);
}

static uint64_t c_s_read(void)
{
    return c_read_export(records, recorded, words + 6, SETTINGS, words[5], bytes, MOST_BYTES);
}

static const struct {
    const char *what;
    call *ours, *c;
} questions[] = {
    {"judge", our_judge, c_s_judge},
    {"recording", our_recording, c_s_judge},
    {"cells", our_cells, c_s_cells},
    {"rows", our_rows, c_s_rows},
    {"play", our_play, c_s_play},
    {"open", our_open, c_s_open},
    {"closed", our_closed, c_s_closed},
    {"write", our_write, c_s_write},
    {"read", our_read, c_s_read},
};

static uint64_t nanoseconds(call *ask)
{
    struct timespec start, end;
    clock_gettime(CLOCK_MONOTONIC, &start);
    ask();
    clock_gettime(CLOCK_MONOTONIC, &end);
    return (uint64_t)((end.tv_sec - start.tv_sec) * 1000000000LL + end.tv_nsec - start.tv_nsec);
}

static uint64_t lesser(uint64_t a, uint64_t b) { return a < b ? a : b; }

/* In turns, so that what slows the machine slows both. */
static void print_times(call *ours, call *c)
{
    uint64_t our_least = UINT64_MAX, c_least = UINT64_MAX;
    for (int run = 0; run < RUNS; run++) {
        our_least = lesser(our_least, nanoseconds(ours));
        c_least = lesser(c_least, nanoseconds(c));
    }
    printf("%llu %llu\n", (unsigned long long)our_least, (unsigned long long)c_least);
}

static int load(const char *name)
{
    FILE *file = fopen(name, "rb");
    if (!file)
        return 0;
    size = fread(words, 1, MOST_BYTES, file);
    return fclose(file) == 0;
}

int main(int count, char **word)
{
    if (count < 4 || !load(word[3]))
        return 2;
    recorded = (uint32_t)c_write_export(capture(), size, records, sizeof records);
    for (uint32_t i = 0; i < 2 * MOST_CELLS; i++)
        supply[i] = i % 2 == 0 ? 0x9e3779b9 * i : i / 2 % 16;
    for (size_t i = 0; i < sizeof questions / sizeof *questions; i++) {
        if (strcmp(questions[i].what, word[2]) != 0)
            continue;
        call *ours = questions[i].ours, *c = questions[i].c;
        if (ours() != c() || !same_rows() || !same_play())
            return 1;
        if (strcmp(word[1], "time") == 0) {
            print_times(ours, c);
            return 0;
        }
        call *ask = count > 5 && strcmp(word[4], "ours") == 0 ? ours : c;
        for (long n = count > 5 ? atol(word[5]) : 0; n > 0; n--)
            ask();
        return 0;
    }
    return 2;
}
