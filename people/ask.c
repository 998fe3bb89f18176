/* Answers questions about captures through pipes, for the command morgazell: one process for any number of files, and it runs
 * wherever the archive does, also under an emulator.
 *
 * A question is six words of 32 bits, lowest byte first: what is asked, two counts of bytes that follow as input, and three
 * numbers; then the input. An answer is eight bytes, the packed number, then a word that counts the bytes behind it, and these.
 * What stands where is said at each function below.
 *
 * It ends with 0 at the end of its input, and with 1 where a question is cut short, or is none, or an answer cannot be
 * written.
 *
 * tools/people names the calls that not every header has: ASK_WHY for morgazell_why and morgazell_kept, ASK_PLAY for
 * morgazell_play. Without them the answer to ABLE says so, and nobody asks. */
#define _POSIX_C_SOURCE 200809L
#include <errno.h>
#include <fcntl.h>
#include <stdlib.h>
#include <string.h>
#include <sys/mman.h>
#include <sys/stat.h>
#include <unistd.h>

#include "morgazell.h"

enum {
    VERSION = 1,
    JUDGE,
    JUDGE_FILE,
    CELLS,
    SCHEDULE,
    BLANK,
    WHY,
    KEPT,
    OPENINGS,
    READ_EXPORT,
    WRITE_EXPORT,
    PLAY,
    ABLE,
    JUDGE_RECORDING
};
enum { ASKED, FIRST_LENGTH, SECOND_LENGTH, NUMBERS, WORDS = 6 };
enum { ABLE_TO_EXPLAIN = 1, ABLE_TO_PLAY = 2 };

/* One byte more than the longest capture: a longer file is seen to be too long. */
#define ROOM (MORGAZELL_LONGEST_CAPTURE + 1)
/* More than either input has: a window and the words to write, a name, a file. */
#define MOST_INPUT (1 << 21)

static _Alignas(uint32_t) uint8_t input[2 * MOST_INPUT];
static uint8_t file_bytes[ROOM];
static uint32_t numbers[MORGAZELL_MOST_CELLS];
static uint8_t bytes[MORGAZELL_LONGEST_CAPTURE];

static void stop(void) { exit(EXIT_FAILURE); }

/* Whether so many bytes came; none at the end of the input. */
static int take(void *to, size_t length)
{
    size_t done = 0;
    while (done < length) {
        ssize_t got = read(STDIN_FILENO, (char *)to + done, length - done);
        if (got < 0 && errno == EINTR)
            continue;
        if (got < 0 || (got == 0 && done != 0))
            stop();
        if (got == 0)
            return 0;
        done += (size_t)got;
    }
    return 1;
}

static void give(const void *from, size_t length)
{
    size_t done = 0;
    while (done < length) {
        ssize_t put = write(STDOUT_FILENO, (const char *)from + done, length - done);
        if (put < 0 && errno == EINTR)
            continue;
        if (put < 0)
            stop();
        done += (size_t)put;
    }
}

/* The answer in one write: its number, and two runs of bytes behind it. */
static void answer_both(uint64_t number, const void *first, size_t first_length, const void *second, size_t second_length)
{
    static uint8_t whole[12 + sizeof input + sizeof numbers];
    uint32_t length = (uint32_t)(first_length + second_length);
    memcpy(whole, &number, 8);
    memcpy(whole + 8, &length, 4);
    memcpy(whole + 12, first, first_length);
    memcpy(whole + 12 + first_length, second, second_length);
    give(whole, 12 + length);
}

static void answer(uint64_t number, const void *behind, size_t length) { answer_both(number, behind, length, behind, 0); }

/* The elements that a call wrote. */
static size_t written(uint64_t number) { return morgazell_refusal(number) != 0 ? 0 : morgazell_value(number); }

static void answer_bytes(uint64_t number) { answer(number, bytes, written(number)); }

static void answer_numbers(uint64_t number) { answer(number, numbers, 4 * written(number)); }

/* ---- files */

/* The bytes of an open file up to its end, or up to one more than the longest capture has; -1 if a read fails. */
static long read_whole(int file)
{
    size_t done = 0;
    while (done < ROOM) {
        ssize_t got = read(file, file_bytes + done, ROOM - done);
        if (got < 0 && errno == EINTR)
            continue;
        if (got < 0)
            return -1;
        if (got == 0)
            break;
        done += (size_t)got;
    }
    return (long)done;
}

/* Whether a file became another one meanwhile. */
static int differ(const struct stat *before, const struct stat *after)
{
    return before->st_size != after->st_size || before->st_mtim.tv_sec != after->st_mtim.tv_sec
           || before->st_mtim.tv_nsec != after->st_mtim.tv_nsec;
}

static int changed(const struct stat *before, const struct stat *after, long length)
{
    if (!S_ISREG(after->st_mode) || length == ROOM)
        return 0;
    return differ(before, after) || after->st_size != (off_t)length;
}

/* 0 where the file was read; or else the system's number of why it cannot be, or -1 where it changed meanwhile. Only a file
 * that was read whole has a verdict; of one that is too long the bytes read are enough to refuse it. */
enum { FILE_CHANGED = -1 };

static int read_file(const char *name, long *length)
{
    struct stat before, after;
    int why = 0, file = open(name, O_RDONLY | O_CLOEXEC);
    if (file < 0)
        return errno;
    if (fstat(file, &before) != 0 || (*length = read_whole(file)) < 0 || fstat(file, &after) != 0)
        why = errno;
    else if (changed(&before, &after, *length))
        why = FILE_CHANGED;
    close(file);
    return why;
}

static uint32_t word_at(const uint8_t *of, size_t at)
{
    uint32_t word;
    memcpy(&word, of + at, 4);
    return word;
}

/* Behind the judge's number: what became of reading the file, the number of events, and the cycle of the broken one. */
static void answer_verdict(int became, uint64_t number, const uint8_t *of)
{
    uint32_t told[3] = {(uint32_t)became, 0, 0};
    if (became != 0)
        number = 0;
    else if (morgazell_refusal(number) == 0) {
        told[1] = word_at(of, 12);
        if (morgazell_rule(number) != 0)
            told[2] = word_at(of, (size_t)word_at(of, 16) + 8 * (size_t)morgazell_value(number));
    }
    answer(number, told, sizeof told);
}

/* The first input is a file's name. */
static void judge_file(const char *name)
{
    long length = 0;
    int became = read_file(name, &length);
    answer_verdict(became, became != 0 ? 0 : morgazell_judge(file_bytes, (size_t)length), file_bytes);
}

/* The same of a recording, which is mapped and not read, however long it is; only a file can be mapped. Where it becomes shorter
 * meanwhile the system ends this program, and there is no verdict. */
static void judge_recording(const char *name)
{
    struct stat before, after;
    int file = open(name, O_RDONLY | O_CLOEXEC);
    if (file < 0 || fstat(file, &before) != 0) {
        answer_verdict(errno, 0, file_bytes);
        return;
    }
    if (S_ISDIR(before.st_mode)) {
        close(file);
        answer_verdict(EISDIR, 0, file_bytes);
        return;
    }
    size_t length = (size_t)before.st_size;
    void *mapped = mmap(NULL, length != 0 ? length : 1, PROT_READ, MAP_PRIVATE, file, 0);
    if (mapped == MAP_FAILED)
        answer_verdict(errno, 0, file_bytes);
    else {
        uint64_t number = morgazell_recording(mapped, length);
        int became = fstat(file, &after) != 0 ? errno : differ(&before, &after) ? FILE_CHANGED : 0;
        answer_verdict(became, number, mapped);
        munmap(mapped, length != 0 ? length : 1);
    }
    close(file);
}

/* ---- calls with several inputs */

/* The inputs are settings and requests, the number is the row policy. */
static void schedule(size_t settings, size_t requests, uint32_t policy)
{
    const uint32_t *words = (const uint32_t *)(const void *)input;
    answer_bytes(
        morgazell_schedule(words, settings / 4, words + settings / 4, requests / 4, policy, bytes, sizeof bytes));
}

/* The inputs are records and settings, the number is the edition. */
static void read_export(size_t records, size_t settings, uint32_t edition)
{
    uint32_t words[64];
    size_t count = settings < sizeof words ? settings : sizeof words;
    memcpy(words, input + records, count);
    answer_bytes(morgazell_read_export(input, records, words, count / 4, edition, bytes, sizeof bytes));
}

/* The numbers are a bank and an event. Behind the answer: the four records, then the index. */
static void openings(size_t length, uint32_t bank, uint32_t event)
{
    struct morgazell_bank banks[4] = {{0, 0}, {0, 0}, {0, 0}, {0, 0}};
    uint64_t number =
        morgazell_open_row(input, length, bank, event, banks, 4, numbers, sizeof numbers / sizeof *numbers);
    int refused = morgazell_refusal(number) != 0;
    answer_both(number, banks, refused ? 0 : sizeof banks, numbers,
                refused ? 0 : 12 * ((size_t)banks[3].before + banks[3].count));
}

#ifdef ASK_WHY
/* Behind the judge's number: the eight numbers of an explanation, where a rule is broken. */
static void why(size_t length)
{
    uint64_t number = morgazell_why(input, length, numbers, 8);
    answer(number, numbers, morgazell_refusal(number) == 0 && morgazell_rule(number) != 0 ? 32 : 0);
}

static void kept(size_t length)
{
    answer_numbers(morgazell_kept(input, length, numbers, sizeof numbers / sizeof *numbers));
}
#else
static void why(size_t length) { (void)length, stop(); }
static void kept(size_t length) { (void)length, stop(); }
#endif

#ifdef ASK_PLAY
/* The second input is the window, then the words to write with their masks; the numbers are the first cell and the words of
 * the window. Behind the answer: the window, then the words read. */
static void play(size_t length, size_t second, uint32_t first_cell, uint32_t window_words)
{
    static uint32_t words[MOST_INPUT / 4];
    memcpy(words, input + length, second);
    if (window_words > second / 4)
        stop();
    uint64_t number = morgazell_play(input, length, first_cell, words, window_words, words + window_words,
                                     second / 4 - window_words, numbers, sizeof numbers / sizeof *numbers);
    answer_both(number, words, morgazell_refusal(number) != 0 ? 0 : 4 * (size_t)window_words, numbers, 4 * written(number));
}
#else
static void play(size_t length, size_t second, uint32_t first_cell, uint32_t window_words)
{
    (void)length, (void)second, (void)first_cell, (void)window_words, stop();
}
#endif

static uint64_t able(void)
{
    uint64_t able = 0;
#ifdef ASK_WHY
    able |= ABLE_TO_EXPLAIN;
#endif
#ifdef ASK_PLAY
    able |= ABLE_TO_PLAY;
#endif
    return able;
}

/* ---- questions */

static void reply(const uint32_t *question)
{
    size_t first = question[FIRST_LENGTH], second = question[SECOND_LENGTH];
    const uint32_t *told = question + NUMBERS;
    switch (question[ASKED]) {
    case VERSION: answer(morgazell_version(), bytes, 0); break;
    case JUDGE: answer(morgazell_judge(input, first), bytes, 0); break;
    case JUDGE_FILE: input[first] = 0; judge_file((const char *)input); break;
    case JUDGE_RECORDING: input[first] = 0; judge_recording((const char *)input); break;
    case CELLS: answer_numbers(morgazell_cells(input, first, numbers, sizeof numbers / sizeof *numbers)); break;
    case SCHEDULE: schedule(first, second, told[0]); break;
    case BLANK: answer_bytes(morgazell_blank(input, first, bytes, sizeof bytes)); break;
    case WHY: why(first); break;
    case KEPT: kept(first); break;
    case OPENINGS: openings(first, told[0], told[1]); break;
    case READ_EXPORT: read_export(first, second, told[0]); break;
    case WRITE_EXPORT: answer_bytes(morgazell_write_export(input, first, bytes, sizeof bytes)); break;
    case PLAY: play(first, second, told[0], told[1]); break;
    case ABLE: answer(able(), bytes, 0); break;
    default: stop();
    }
}

int main(void)
{
    uint32_t question[WORDS];
    while (take(question, sizeof question)) {
        size_t first = question[FIRST_LENGTH], second = question[SECOND_LENGTH];
        if (first >= MOST_INPUT || second >= MOST_INPUT)
            stop();
        if (first + second != 0 && !take(input, first + second))
            stop();
        reply(question);
    }
    return EXIT_SUCCESS;
}
