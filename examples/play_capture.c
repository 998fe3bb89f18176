/* play_capture CAPTURE FIRST SIZE [WORD MASK ..]: a capture played against a window of SIZE cells from cell FIRST on, which hold
 * their own numbers at first. The words and masks are what its writes take, in turn. A line for each word read, and then one
 * for each cell that holds something else afterwards, go to standard output.
 *
 * In the folder that was sent:
 *
 *     export PKG_CONFIG_PATH=$PWD/lib/pkgconfig
 *     cc -o play_capture examples/play_capture.c $(pkg-config --cflags --libs morgazell)
 *     ./play_capture some.capture 0 8 0x11111111 0 0x22222222 1 0x33333333 2 0x44444444 3
 *
 * It ends with 0 if the capture was played, 2 if that was refused, and 3 if a word is no number, or something cannot be read or
 * written. */
#include <errno.h>
#include <inttypes.h>
#include <stdio.h>
#include <stdlib.h>

#include "morgazell.h"

enum { PLAYED, REFUSED = 2, FAILED };

/* One byte and one word more than there may be, so that too many are seen to be too many. */
static uint8_t capture[MORGAZELL_LONGEST_CAPTURE + 1];
static uint32_t window[MORGAZELL_MOST_WINDOW + 1];
static uint32_t writes[2 * MORGAZELL_MOST_CELLS + 2];
static uint32_t reads[MORGAZELL_MOST_CELLS];

static const char USAGE[] =
    "usage: play_capture CAPTURE FIRST SIZE [WORD MASK ..]\n"
    "plays a capture against SIZE cells from cell FIRST on, which hold their own numbers at first; its writes take the words and\n"
    "masks. Prints each word read, and each cell that holds something else afterwards.\n"
    "ends with 0 played, 2 refused, 3 a word is no number, or something cannot be read or written\n";

static int failed(const char *what)
{
    fprintf(stderr, "play_capture: %s\n", what);
    return FAILED;
}

/* A number and nothing else, of 32 bits; behind 0x by its sixteens. */
static int is_number(const char *text, uint32_t *number)
{
    char *end;
    if (text[0] < '0' || text[0] > '9')
        return 0;
    errno = 0;
    unsigned long long value = strtoull(text, &end, 0);
    if (errno != 0 || *end != '\0' || value > UINT32_MAX)
        return 0;
    *number = (uint32_t)value;
    return 1;
}

static int say_refused(unsigned number, uint32_t place)
{
    switch (number) {
    case MORGAZELL_REFUSED_BROKEN:
        fprintf(stderr, "refused (8): event %" PRIu32 " breaks a rule\n", place);
        break;
    case MORGAZELL_REFUSED_PLAY:
        fprintf(stderr, "refused (15): place %" PRIu32 ": the window leaves the part, or does not hold a beat of that event, or its words are too few\n",
                place);
        break;
    default:
        fprintf(stderr, "refused (%u): place %" PRIu32 "\n", number, place);
    }
    return REFUSED;
}

static int played(size_t len, uint32_t first, uint32_t size, size_t words)
{
    uint64_t answer = morgazell_play(capture, len, first, window, size, writes, words, reads, MORGAZELL_MOST_CELLS);
    if (morgazell_refusal(answer) != 0)
        return say_refused(morgazell_refusal(answer), morgazell_value(answer));
    for (uint32_t i = 0; i < morgazell_value(answer); i++)
        printf("word 0x%08" PRIx32 "\n", reads[i]);
    for (uint32_t i = 0; i < size; i++)
        if (window[i] != first + i)
            printf("cell %" PRIu32 " 0x%08" PRIx32 "\n", first + i, window[i]);
    return fflush(stdout) == 0 && !ferror(stdout) ? PLAYED : failed("standard output could not be written to its end");
}

int main(int argc, char **argv)
{
    uint32_t first, size;
    if (argc < 4) {
        fputs(USAGE, stderr);
        return FAILED;
    }
    if (!is_number(argv[2], &first) || !is_number(argv[3], &size))
        return failed("the first cell and the size are numbers");
    if (size > MORGAZELL_MOST_WINDOW + 1)
        size = MORGAZELL_MOST_WINDOW + 1;
    size_t words = (size_t)argc - 4;
    if (words > sizeof writes / sizeof writes[0])
        words = sizeof writes / sizeof writes[0];
    for (size_t i = 0; i < words; i++)
        if (!is_number(argv[4 + i], &writes[i]))
            return failed("words and masks are numbers of 32 bits");
    FILE *file = fopen(argv[1], "rb");
    if (file == NULL)
        return failed("the capture cannot be opened");
    size_t len = fread(capture, 1, sizeof capture, file);
    int bad = ferror(file);
    fclose(file);
    if (bad)
        return failed("the capture cannot be read");
    for (uint32_t i = 0; i < size; i++)
        window[i] = first + i;
    return played(len, first, size, words);
}
