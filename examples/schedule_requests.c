/* schedule_requests open|closed SETTING .. [-]: the schedule of some requests as a capture, with rows left open or closed
 * behind every burst. The settings are fourteen numbers in the order of morgazell.h. The requests are the lines of standard
 * input, `read CELL` or `write CELL`; empty lines are passed over, and so is # and what follows it on its line; a line may
 * end as on Windows. The capture goes to standard output, unless that is a terminal. schedule_requests --help says so in
 * short.
 *
 * In the folder that was sent:
 *
 *     export PKG_CONFIG_PATH=$PWD/lib/pkgconfig
 *     cc -o schedule_requests examples/schedule_requests.c $(pkg-config --cflags --libs morgazell)
 *     printf 'read 5\nwrite 8388608\n' |
 *         ./schedule_requests open 1 13 10 0x32 3 3 7 10 2 3 1 12 2 1000 >two.capture
 *
 * It ends with 0 if the schedule is written, 2 if it is refused, and 3 if a word or a line is no such thing, or something
 * cannot be read or written. Nothing is written but a whole schedule, or with a complaint the front of one. */
#define _POSIX_C_SOURCE 200809L
#include <errno.h>
#include <inttypes.h>
#include <stdio.h>
#include <stdlib.h>
#include <string.h>
#include <unistd.h>

#include "morgazell.h"

enum { WRITTEN, REFUSED = 2, FAILED };

enum { T_RC = 7 };

/* One request more than a schedule may have, so that too many are seen to be too many; one setting more likewise. */
#define ROOM_FOR_REQUESTS (MORGAZELL_MOST_REQUESTS + 1)
#define ROOM_FOR_SETTINGS 15
#define WRITE_BIT 0x80000000u

static uint8_t capture[MORGAZELL_LONGEST_SCHEDULE];
static uint32_t requests[ROOM_FOR_REQUESTS];
static uint32_t settings[ROOM_FOR_SETTINGS];

static const char *const SETTINGS[ROOM_FOR_SETTINGS] = {
    "lane code", "row bits", "column bits", "mode word", "tRCD", "tRP", "tRAS", "tRC",
    "tRRD", "tWR", "tWTR", "tRFC", "tMRD", "tREFI", "one too many",
};

static const char USAGE[] =
    "usage: schedule_requests open|closed SETTING .. [-] <REQUESTS >CAPTURE\n"
    "       schedule_requests --help\n"
    "open leaves rows open, closed closes them behind every burst; the settings are fourteen numbers: lane code, row bits,\n"
    "column bits, mode word, tRCD, tRP, tRAS, tRC, tRRD, tWR, tWTR, tRFC, tMRD, tREFI. A request is a line of standard\n"
    "input, `read CELL` or `write CELL`; - stands for standard input. Empty lines and what follows # are passed over.\n"
    "ends with 0 written, 2 refused, 3 a word or line is no such thing, or something cannot be read or written\n";

static int failed(const char *what)
{
    fprintf(stderr, "schedule_requests: %s\n", what);
    return FAILED;
}

static int say_refused(unsigned number, uint32_t place)
{
    switch (number) {
    case MORGAZELL_REFUSED_HEADER:
        fprintf(stderr, "refused (2): a schedule takes fourteen settings\n");
        break;
    case MORGAZELL_REFUSED_SETTING:
        fprintf(stderr, "refused (3): setting %" PRIu32 ", %s, is out of its range%s\n", place, SETTINGS[place],
                place == T_RC ? " or above tRAS + tRP" : "");
        break;
    case MORGAZELL_REFUSED_REQUEST:
        fprintf(stderr, "refused (5): request %" PRIu32 " asks for a cell that the part lacks, or is one too many\n", place);
        break;
    default:
        fprintf(stderr, "refused (%u): refresh cannot be kept at request %" PRIu32 "\n", number, place);
    }
    return REFUSED;
}

/* A number and nothing else, at most `most`; behind 0x by its sixteens. */
static int is_number(const char *text, uint32_t most, uint32_t *number)
{
    char *end;
    if (*text < '0' || *text > '9')
        return 0;
    errno = 0;
    unsigned long read = strtoul(text, &end, strncmp(text, "0x", 2) == 0 ? 16 : 10);
    *number = (uint32_t)read;
    return *end == '\0' && errno == 0 && read <= most;
}

static int is_request(const char *line, uint32_t *request)
{
    uint32_t cell;
    if (strncmp(line, "read ", 5) == 0 && is_number(line + 5, WRITE_BIT - 1, &cell)) {
        *request = cell;
        return 1;
    }
    if (strncmp(line, "write ", 6) == 0 && is_number(line + 6, WRITE_BIT - 1, &cell)) {
        *request = WRITE_BIT | cell;
        return 1;
    }
    return 0;
}

static int is_blank(int byte)
{
    return byte == ' ' || byte == '\t' || byte == '\r';
}

/* The next line up to # or its end, which may be that of the input, without the blanks there; the return of a Windows line
 * is one. A line with more in it than any request, or with a byte 0, comes out as one that is no request. */
static int next_line(char *line, size_t room)
{
    size_t len = 0;
    int commented = 0, byte = getchar();
    if (byte == EOF)
        return 0;
    for (; byte != EOF && byte != '\n'; byte = getchar()) {
        commented |= byte == '#';
        if (!commented && len + 1 < room)
            line[len++] = (char)(byte == '\0' ? '?' : byte);
        else if (!commented && !is_blank(byte))
            line[0] = '?';
    }
    while (len > 0 && is_blank(line[len - 1]))
        len--;
    line[len] = '\0';
    return 1;
}

/* How many requests there are; -1 if a line is none, or cannot be read. */
static int read_requests(void)
{
    char line[32];
    int count = 0;
    for (int number = 1; count < ROOM_FOR_REQUESTS && next_line(line, sizeof line); number++) {
        if (*line == '\0')
            continue;
        if (!is_request(line, &requests[count])) {
            fprintf(stderr, "schedule_requests: line %d is neither `read CELL` nor `write CELL`\n", number);
            return -1;
        }
        count++;
    }
    if (ferror(stdin)) {
        fprintf(stderr, "schedule_requests: standard input cannot be read: %s\n", strerror(errno));
        return -1;
    }
    return count;
}

/* How many settings there are; -1 if one is no number. Behind them - may stand for standard input. */
static int read_settings(char **words)
{
    int count = 0;
    for (; words[count] != NULL && count < ROOM_FOR_SETTINGS; count++) {
        if (strcmp(words[count], "-") == 0 && words[count + 1] == NULL)
            break;
        if (!is_number(words[count], UINT32_MAX, &settings[count])) {
            fprintf(stderr, "schedule_requests: setting %d, %s, is not a number\n", count, SETTINGS[count]);
            return -1;
        }
    }
    return count;
}

static int write_schedule(uint32_t policy, size_t settings_len, size_t count)
{
    uint64_t answer = morgazell_schedule(settings, settings_len, requests, count, policy, capture, sizeof capture);
    if (morgazell_refusal(answer) != 0)
        return say_refused(morgazell_refusal(answer), morgazell_value(answer));
    if (fwrite(capture, 1, morgazell_value(answer), stdout) != morgazell_value(answer) || fflush(stdout) != 0)
        return failed("standard output could not be written to its end; what was written is not whole");
    return WRITTEN;
}

int main(int argc, char **argv)
{
    if (argc == 2 && strcmp(argv[1], "--help") == 0)
        return fputs(USAGE, stdout) == EOF || fflush(stdout) != 0 ? FAILED : WRITTEN;
    if (argc < 2 || (strcmp(argv[1], "open") != 0 && strcmp(argv[1], "closed") != 0)) {
        fputs(USAGE, stderr);
        return FAILED;
    }
    if (isatty(STDOUT_FILENO))
        return failed("a capture is bytes, and standard output is a terminal; send it to a file");
    int settings_len = read_settings(argv + 2);
    int count = settings_len < 0 ? -1 : read_requests();
    if (count < 0)
        return FAILED;
    uint32_t policy = strcmp(argv[1], "open") == 0 ? MORGAZELL_OPEN_ROWS : MORGAZELL_CLOSED_ROWS;
    return write_schedule(policy, (size_t)settings_len, (size_t)count);
}
