/* stack: the stack that each function takes, by painting a stack of its own before a call and looking afterwards how far the
 * paint is gone. A line a function: its name and the most bytes over all inputs. */
#define _XOPEN_SOURCE 700
#include <stdio.h>
#include <ucontext.h>

#include "inputs.h"

enum { ROOM = 1 << 18, PAINT = 0x5c, REQUESTS = 2000 };

static uint8_t stack[ROOM];
static uint8_t capture[LONGEST], bytes[LONGEST];
static uint32_t cells[16 * MOST_EVENTS], requests[REQUESTS], words[MORGAZELL_MOST_INDEX];
static uint32_t window[MORGAZELL_MOST_WINDOW], written[32 * MOST_EVENTS];
static struct morgazell_bank banks[4];
static uint8_t records[MORGAZELL_LONGEST_EXPORT];
static size_t len, recorded;
static ucontext_t here, there;

/* Where the stack pointer stands when the function is called. */
static uint8_t *called_at;

static volatile uint64_t answered;

#define CALL(name, call)                       \
    static void name(void)                     \
    {                                          \
        called_at = __builtin_frame_address(0); \
        answered = call;                       \
    }

CALL(version, morgazell_version())
CALL(judge, morgazell_judge(capture, len))
CALL(record_whole, morgazell_recording(capture, len))
CALL(list, morgazell_cells(capture, len, cells, 16 * MOST_EVENTS))
CALL(list_short, morgazell_cells(capture, len, cells, 100))
CALL(blank, morgazell_blank(capture, len, bytes, LONGEST))
CALL(blank_short, morgazell_blank(capture, len, bytes, 100))
CALL(row, morgazell_open_row(capture, len, 0, 3999, banks, 4, words, MORGAZELL_MOST_INDEX))
CALL(row_short, morgazell_open_row(capture, len, 3, 0, banks, 4, words, 2))
CALL(read_records, morgazell_read_export(records, recorded, SETTINGS, 14, 1, bytes, LONGEST))
CALL(read_short, morgazell_read_export(records, recorded, SETTINGS, 14, 1, bytes, 100))
CALL(write_records, morgazell_write_export(capture, len, bytes, LONGEST))
CALL(write_short, morgazell_write_export(capture, len, bytes, 100))
CALL(play, morgazell_play(capture, len, 0, window, MORGAZELL_MOST_WINDOW, written, 32 * MOST_EVENTS, cells, 16 * MOST_EVENTS))
CALL(play_short, morgazell_play(capture, len, 0, window, MORGAZELL_MOST_WINDOW, written, 32 * MOST_EVENTS, cells, 2))
CALL(play_none, morgazell_play(capture, len, 5, window, 7, written, 3, cells, 2))
CALL(schedule, morgazell_schedule(SETTINGS, 14, requests, REQUESTS, MORGAZELL_OPEN_ROWS, bytes, LONGEST))

/* The frame of the caller itself is counted too. */
static size_t taken(void (*function)(void))
{
    memset(stack, PAINT, ROOM);
    getcontext(&there);
    there.uc_stack.ss_sp = stack;
    there.uc_stack.ss_size = ROOM;
    there.uc_link = &here;
    makecontext(&there, function, 0);
    swapcontext(&here, &there);
    size_t untouched = 0;
    while (stack[untouched] == PAINT)
        untouched++;
    return (size_t)(called_at - stack) - untouched;
}

static size_t most(size_t a, size_t b)
{
    return a > b ? a : b;
}

/* Bursts of both kinds, sleep, a mode set and refresh; in edition 1 writes that a PRECHARGE cuts to one pair; and the same
 * with its last event in every way wrong. */
static void make(uint32_t settings, uint32_t edition, uint32_t last)
{
    const uint32_t n = 4000;
    len = begin(capture, settings, n, edition);
    for (uint32_t i = 0; i < n; i += 4) {
        event(capture, settings, i, 50 * i, ACTIVE | i % 8192);
        event(capture, settings, i + 1, 50 * i + 10, (i % 8 == 0 ? READ : WRITE) | (edition ? 0 : AUTO) | i % 1024);
        if (edition)
            event(capture, settings, i + 2, 50 * i + 15, PRECHARGE | AUTO);
        else
            event(capture, settings, i + 2, 50 * i + 60, REFRESH);
        event(capture, settings, i + 3, 50 * i + 80, settings == 16 ? NOP | 0x100000 : NOP);
        if (settings == 16 && i != 0)
            event(capture, settings, i, 50 * i, NOP);
    }
    event(capture, settings, n - 1, 50 * n + 100, last);
}

/* Writes and reads of the first row, all in the window. */
static void make_low(uint32_t edition)
{
    const uint32_t n = 1000;
    len = begin(capture, 14, n, edition);
    event(capture, 14, 0, 0, ACTIVE);
    for (uint32_t i = 1; i < n; i++)
        event(capture, 14, i, 20 * i, (i % 2 == 0 ? READ : WRITE) | i % 1024);
}

/* Events that are further apart than stamps can tell, and records of them; the last pins may be some that there are not. */
static void make_far(uint32_t n, uint32_t apart, uint32_t last)
{
    len = begin(capture, 14, n, 1);
    for (uint32_t i = 0; i < n; i++)
        event(capture, 14, i, apart * i, i + 1 < n ? NOP : last);
    for (uint32_t i = 0; i < n; i++)
        record(records, i, 7 * i, i + 1 < n ? NOP : last);
    recorded = 6 * (size_t)n;
}

int main(void)
{
    static const uint32_t LAST[] = {NOP,     ACTIVE | 1, READ,    WRITE,        0x40400,  0x60000,  REFRESH,
                                    0x32,    0x10000,    0x1E0000, REFRESH | 0x100000, ACTIVE | 0x100000, 0xFFFFFFFF};
    size_t judging = 0, recording = 0, listing = 0, blanking = 0, asking = 0, reading = 0, writing = 0, playing = 0, scheduling;
    for (uint32_t settings = 14; settings <= 16; settings++)
        for (size_t i = 0; i < 2 * sizeof LAST / sizeof LAST[0]; i++) {
            make(settings, i % 2, LAST[i / 2]);
            judging = most(judging, taken(judge));
            recording = most(recording, taken(record_whole));
            listing = most(listing, most(taken(list), taken(list_short)));
            blanking = most(blanking, most(taken(blank), taken(blank_short)));
            asking = most(asking, most(taken(row), taken(row_short)));
            playing = most(playing, most(taken(play), most(taken(play_short), taken(play_none))));
        }
    for (uint32_t i = 0; i < 4; i++) {
        make_low(i % 2);
        playing = most(playing, most(taken(play), most(taken(play_short), taken(play_none))));
    }
    for (uint32_t i = 0; i < 8; i++) {
        make_far(i % 2 == 0 ? 1000 : 8000, i % 4 < 2 ? 200000 : 20, i < 4 ? WRITE : 0xFFFFFFFF);
        reading = most(reading, most(taken(read_records), taken(read_short)));
        writing = most(writing, most(taken(write_records), taken(write_short)));
    }
    for (uint32_t i = 0; i < REQUESTS; i++)
        requests[i] = i % 3 << 31 | (i * 7919) % 0x2000000;
    scheduling = taken(schedule);
    requests[REQUESTS - 1] = 0xFFFFFFFF;
    scheduling = most(scheduling, taken(schedule));
    printf("morgazell_judge %zu\nmorgazell_recording %zu\nmorgazell_cells %zu\nmorgazell_schedule %zu\nmorgazell_blank %zu\n"
           "morgazell_open_row %zu\nmorgazell_read_export %zu\nmorgazell_write_export %zu\nmorgazell_play %zu\n"
           "morgazell_version %zu\n",
           judging, recording, listing, scheduling, blanking, asking, reading, writing, playing, taken(version));
    return 0;
}
