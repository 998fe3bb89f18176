/* The archive behind standard input and output, so that a program on any processor can ask it.
 *
 * A question is five words and what they count:
 *     0      1 morgazell_judge, 2 morgazell_cells, 3 morgazell_schedule, 4 morgazell_blank, 5 morgazell_recording,
 *            6 morgazell_read_export, 7 morgazell_write_export, 8 morgazell_open_row, 9 morgazell_play
 *     1, 2   elements of the inputs: bytes of a capture and 0; words of settings and of requests; bytes of records and words
 *            of settings; bytes of a capture and lent records; bytes of a capture and words of a window
 *     3      elements of the lent buffer
 *     4      elements behind it, and behind the records or the window, that the call must not touch
 * then for a schedule its row policy, for an export the edition, a word, for an open row the bank and the event, and for a play
 * the first cell and how many words of writes there are; then the inputs, records or a window with what lies behind them, then
 * the buffer with what lies behind it, then the writes. The answer is the packed number and, in the same length, the records
 * or the window and the buffer with what lies behind them. Words are little-endian, as the processor
 * has them.
 *
 * Inputs end where a page begins that nothing may touch, so a read behind an input ends the program. */
#define _GNU_SOURCE
#include <stdio.h>
#include <stdlib.h>
#include <sys/mman.h>

#include "morgazell.h"

enum {
    JUDGE = 1,
    CELLS = 2,
    SCHEDULE = 3,
    BLANK = 4,
    RECORDING = 5,
    READ_EXPORT = 6,
    WRITE_EXPORT = 7,
    OPEN_ROW = 8,
    PLAY = 9
};

#define PAGE 4096
/* Room for any question of the tests: recordings somewhat over the longest capture, buffers for any answer. */
#define ROOM (256 * PAGE)

static void fail(const char *what)
{
    fprintf(stderr, "serve: %s\n", what);
    exit(1);
}

/* The end of ROOM bytes, behind which nothing may be touched. */
static uint8_t *fenced_end(void)
{
    uint8_t *start = mmap(NULL, ROOM + PAGE, PROT_READ | PROT_WRITE, MAP_PRIVATE | MAP_ANONYMOUS, -1, 0);
    if (start == MAP_FAILED || mprotect(start + ROOM, PAGE, PROT_NONE) != 0)
        fail("no memory");
    return start + ROOM;
}

static void take(void *to, size_t bytes)
{
    if (fread(to, 1, bytes, stdin) != bytes)
        fail("the question ends too soon");
}

static void give(const void *from, size_t bytes)
{
    if (fwrite(from, 1, bytes, stdout) != bytes)
        fail("the answer cannot be written");
}

/* The next bytes of the question, placed so that they end where nothing may be touched. */
static uint8_t *placed(uint8_t *end, size_t bytes)
{
    if (bytes > ROOM)
        fail("a question is too long");
    take(end - bytes, bytes);
    return end - bytes;
}

/* What is empty is passed as NULL, which the header allows. */
static void *lent(uint8_t *start, uint32_t elements)
{
    return elements == 0 ? NULL : start;
}

static uint64_t call(const uint32_t *question, const uint32_t *asked, uint8_t *inputs[2], uint8_t *buffer, uint8_t *writes)
{
    const void *first = lent(inputs[0], question[1]);
    void *second = lent(inputs[1], question[2]);
    void *out = lent(buffer, question[3]);
    switch (question[0]) {
    case JUDGE:
        return morgazell_judge(first, question[1]);
    case CELLS:
        return morgazell_cells(first, question[1], out, question[3]);
    case SCHEDULE:
        return morgazell_schedule(first, question[1], second, question[2], asked[0], out, question[3]);
    case BLANK:
        return morgazell_blank(first, question[1], out, question[3]);
    case RECORDING:
        return morgazell_recording(first, question[1]);
    case READ_EXPORT:
        return morgazell_read_export(first, question[1], second, question[2], asked[0], out, question[3]);
    case WRITE_EXPORT:
        return morgazell_write_export(first, question[1], out, question[3]);
    case OPEN_ROW:
        return morgazell_open_row(first, question[1], asked[0], asked[1], second, question[2], out, question[3]);
    case PLAY:
        return morgazell_play(first, question[1], asked[0], second, question[2], lent(writes, asked[1]), asked[1], out, question[3]);
    default:
        fail("no such function");
        return 0;
    }
}

int main(void)
{
    static uint32_t question[5];
    uint8_t *ends[4] = {fenced_end(), fenced_end(), fenced_end(), fenced_end()};
    while (fread(question, sizeof question, 1, stdin) == 1) {
        int rows = question[0] == OPEN_ROW;
        int plays = question[0] == PLAY;
        int chosen = question[0] == SCHEDULE || question[0] == READ_EXPORT;
        size_t first = question[0] == SCHEDULE ? 4 : 1;
        size_t element = question[0] == CELLS || rows || plays ? 4 : 1;
        size_t lends = rows ? sizeof(struct morgazell_bank) : 4;
        size_t second = rows || plays ? lends * ((size_t)question[2] + question[4]) : (chosen ? 4 : 1) * (size_t)question[2];
        size_t whole = element * ((size_t)question[3] + question[4]);
        uint8_t *inputs[2];
        uint32_t asked[2] = {0, 0};
        if (chosen)
            take(asked, sizeof asked[0]);
        if (rows || plays)
            take(asked, sizeof asked);
        inputs[0] = placed(ends[0], first * question[1]);
        inputs[1] = placed(ends[1], second);
        uint8_t *buffer = placed(ends[2], whole);
        uint8_t *writes = placed(ends[3], plays ? 4 * (size_t)asked[1] : 0);
        uint64_t answer = call(question, asked, inputs, buffer, writes);
        give(&answer, sizeof answer);
        if (rows || plays)
            give(inputs[1], second);
        give(buffer, whole);
        fflush(stdout);
    }
    return 0;
}
