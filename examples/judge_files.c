/* judge_files FILE ..: a line a file, saying in words what Morgazell says of it as a capture; - is standard input. For a
 * nightly job, which logs what judged by judge_files --version. judge_files --help says how it is used.
 *
 * In the folder that was sent:
 *
 *     export PKG_CONFIG_PATH=$PWD/lib/pkgconfig
 *     cc -o judge_files examples/judge_files.c $(pkg-config --cflags --libs morgazell)
 *     ./judge_files FILE ..
 *
 * It ends with the worst of all files: 0 clean, 1 a rule is broken, 2 refused, 3 a file cannot be read, or a line cannot be
 * written. A file is judged as a whole or not at all: one that changes while it is read is refused. A line begins with the
 * file's name, in which control characters, line breaks and backslashes are written as \x and two digits a byte: so a line
 * is what this program says, whatever the name.
 *
 * judge_files --recording FILE .. takes them for recordings, with any number of events. A recording is mapped and not read, so
 * that little memory is taken however long it is; only a file can be mapped, no pipe. Where one becomes shorter meanwhile the
 * system sends SIGBUS, and no verdict is given. */
#define _POSIX_C_SOURCE 200809L
#include <errno.h>
#include <fcntl.h>
#include <inttypes.h>
#include <setjmp.h>
#include <signal.h>
#include <stdio.h>
#include <string.h>
#include <sys/mman.h>
#include <sys/stat.h>
#include <unistd.h>

#include "morgazell.h"

enum { CLEAN, BROKEN, REFUSED, UNREADABLE };

/* One byte more than the longest capture: a longer file is seen to be too long. */
#define ROOM (MORGAZELL_LONGEST_CAPTURE + 1)

static const char USAGE[] = "usage: judge_files FILE ..                a line a file; - is standard input\n"
                            "       judge_files --recording FILE ..    the same of files with any number of events\n"
                            "       judge_files --version              the version that judges\n"
                            "       judge_files --help                 these lines\n"
                            "ends with 0 clean, 1 a rule is broken, 2 refused, 3 something cannot be read or written\n";

static uint8_t capture[ROOM];

static const char *const RULES[] = {
    "", "a row that the part does not have", "a register that may not be set so",
    "a bank that is open or idle when it must not be", "tRFC or tMRD is not over", "tRP is not over", "",
    "tRRD is not over", "tRCD is not over", "tRAS is not over", "tWR is not over", "tWTR is not over",
    "the data of a READ are still on the bus", "a burst is cut that may not be cut", "more than eight refreshes are owed",
    "sleep is entered or left wrongly, or tXP or tXSR is not over",
};

static const char *const SETTINGS[] = {
    "lane code", "row bits", "column bits", "mode word", "tRCD", "tRP", "tRAS", "tRC",
    "tRRD", "tWR", "tWTR", "tRFC", "tMRD", "tREFI", "tXP", "tXSR",
};

enum { T_RC = 7 };

/* An answer, and where a rule is broken the cycle of the event that breaks it, which stands in the bytes. */
struct told {
    uint64_t answer;
    uint32_t cycle;
};

static uint32_t word_at(const uint8_t *bytes, size_t at)
{
    return (uint32_t)bytes[at] | (uint32_t)bytes[at + 1] << 8 | (uint32_t)bytes[at + 2] << 16 | (uint32_t)bytes[at + 3] << 24;
}

/* The settings end where the events begin; the second word counts them. */
static struct told told_of(const uint8_t *bytes, uint64_t answer)
{
    struct told told = {answer, 0};
    if (morgazell_refusal(answer) == 0 && morgazell_rule(answer) != 0)
        told.cycle = word_at(bytes, 24 + 4 * (size_t)word_at(bytes, 4) + 8 * (size_t)morgazell_value(answer));
    return told;
}

/* How many bytes here are a control character, a line break or a backslash, in ASCII or UTF-8; 0 if none. */
static int unseen(const unsigned char *at)
{
    if (at[0] < 0x20 || at[0] == 0x7f || at[0] == '\\')
        return 1;
    if (at[0] == 0xc2 && at[1] >= 0x80 && at[1] < 0xa0)
        return 2;
    return at[0] == 0xe2 && at[1] == 0x80 && (at[2] == 0xa8 || at[2] == 0xa9) ? 3 : 0;
}

static void say_name(const char *name)
{
    const unsigned char *at = (const unsigned char *)name;
    while (*at != '\0') {
        int escaped = unseen(at);
        if (escaped == 0)
            putchar(*at++);
        for (; escaped > 0; escaped--)
            printf("\\x%02x", (unsigned)*at++);
    }
    printf(": ");
}

static int say_refused(unsigned number, uint32_t place, const char *too_long)
{
    switch (number) {
    case MORGAZELL_REFUSED_LENGTH:
        printf("refused (1): it is not as long as it says%s\n", too_long);
        break;
    case MORGAZELL_REFUSED_HEADER:
        printf("refused (2): its header is wrong\n");
        break;
    case MORGAZELL_REFUSED_SETTING:
        printf("refused (3): setting %" PRIu32 ", %s, is out of its range%s\n", place, SETTINGS[place],
               place == T_RC ? " or above tRAS + tRP" : "");
        break;
    default:
        printf("refused (4): event %" PRIu32 " has pins that do not exist, or a cycle that is too large or does not rise\n",
               place);
    }
    return REFUSED;
}

static int say(struct told told, const char *too_long)
{
    uint32_t value = morgazell_value(told.answer);
    unsigned rule = morgazell_rule(told.answer);
    if (morgazell_refusal(told.answer) != 0)
        return say_refused(morgazell_refusal(told.answer), value, too_long);
    if (rule != 0) {
        printf("breaks rule %u at event %" PRIu32 ", cycle %" PRIu32 ": %s\n", rule, value, told.cycle, RULES[rule]);
        return BROKEN;
    }
    printf("clean, %" PRIu32 " events judged\n", value);
    return CLEAN;
}

static int unreadable(int why)
{
    printf("cannot be read: %s\n", strerror(why));
    return UNREADABLE;
}

/* The bytes of an open file up to its end, or up to one more than the longest capture has; -1 if a read fails. */
static long read_whole(int file)
{
    size_t len = 0;
    while (len < ROOM) {
        ssize_t got = read(file, capture + len, ROOM - len);
        if (got == 0)
            break;
        if (got < 0 && errno == EINTR)
            continue;
        if (got < 0)
            return -1;
        len += (size_t)got;
    }
    return (long)len;
}

static int is_same(const struct stat *before, const struct stat *after)
{
    return before->st_size == after->st_size && before->st_mtim.tv_sec == after->st_mtim.tv_sec
           && before->st_mtim.tv_nsec == after->st_mtim.tv_nsec;
}

/* Whether what was read is all of a file that stayed as it was. A pipe has no length to ask for: its end is its end. */
static int is_whole(const struct stat *before, const struct stat *after, long len)
{
    if (!S_ISREG(after->st_mode) || len == ROOM)
        return 1;
    return is_same(before, after) && after->st_size == (off_t)len;
}

static int say_changed(void)
{
    printf("refused: it changed while it was read\n");
    return REFUSED;
}

static int judge_capture(int file)
{
    struct stat before, after;
    if (fstat(file, &before) != 0)
        return unreadable(errno);
    long len = read_whole(file);
    if (len < 0 || fstat(file, &after) != 0)
        return unreadable(errno);
    if (!is_whole(&before, &after, len))
        return say_changed();
    return say(told_of(capture, morgazell_judge(capture, (size_t)len)), ", or no capture is so long");
}

/* Where to go on when mapped bytes are not there any more: the file became shorter, or its disk failed. */
static sigjmp_buf gone;

static void bytes_gone(int number)
{
    (void)number;
    siglongjmp(gone, 1);
}

/* 0 if some of the bytes are not there any more. The header is looked at more than once; a byte written to its page makes
 * the page our own, so that it stays the same. */
static int judge_mapped(uint8_t *recording, size_t len, struct told *told)
{
    if (sigsetjmp(gone, 1) != 0)
        return 0;
    if (len != 0) {
        volatile uint8_t *first = recording;
        *first = *first;
    }
    *told = told_of(recording, morgazell_recording(recording, len));
    return 1;
}

/* The answer counts only if the file is, afterwards too, what was mapped. */
static int judge_recording(int file)
{
    struct stat before, after;
    struct told told;
    if (fstat(file, &before) != 0)
        return unreadable(errno);
    if (!S_ISREG(before.st_mode)) {
        printf("cannot be mapped: a recording has to be a file, no pipe, folder or device\n");
        return UNREADABLE;
    }
    size_t len = (size_t)before.st_size;
    void *mapped = len == 0 ? NULL : mmap(NULL, len, PROT_READ | PROT_WRITE, MAP_PRIVATE, file, 0);
    if (mapped == MAP_FAILED)
        return unreadable(errno);
    int is_there = judge_mapped((uint8_t *)mapped, len, &told);
    if (len != 0)
        munmap(mapped, len);
    if (fstat(file, &after) != 0)
        return unreadable(errno);
    if (!is_same(&before, &after))
        return say_changed();
    return is_there ? say(told, "") : unreadable(EIO);
}

static int judge(const char *name, int (*judge_open)(int))
{
    int is_input = strcmp(name, "-") == 0;
    int file = is_input ? STDIN_FILENO : open(name, O_RDONLY);
    int why = errno;
    say_name(name);
    if (file < 0)
        return unreadable(why);
    int status = judge_open(file);
    if (!is_input)
        close(file);
    return status;
}

static int judge_all(char **names, int (*judge_open)(int))
{
    int worst = CLEAN;
    for (; *names != NULL; names++) {
        int status = judge(*names, judge_open);
        if (status > worst)
            worst = status;
    }
    return worst;
}

static int say_version(void)
{
    unsigned number = (unsigned)morgazell_version();
    printf("morgazell %u.%u.%u\n", number / 10000, number / 100 % 100, number % 100);
    return CLEAN;
}

static int say_usage(void)
{
    fputs(USAGE, stdout);
    return CLEAN;
}

static int judge_recordings(char **names)
{
    struct sigaction action;
    memset(&action, 0, sizeof action);
    action.sa_handler = bytes_gone;
    sigaction(SIGBUS, &action, NULL);
    return judge_all(names, judge_recording);
}

int main(int argc, char **argv)
{
    int is_recording = argc > 1 && strcmp(argv[1], "--recording") == 0;
    if (argc < 2 + is_recording) {
        fputs(USAGE, stderr);
        return UNREADABLE;
    }
    int worst = strcmp(argv[1], "--version") == 0 ? say_version()
                : strcmp(argv[1], "--help") == 0  ? say_usage()
                : is_recording                    ? judge_recordings(argv + 2)
                                                  : judge_all(argv + 1, judge_capture);
    if (fflush(stdout) != 0 || ferror(stdout)) {
        fprintf(stderr, "judge_files: standard output could not be written to its end; what was printed is not whole\n");
        return UNREADABLE;
    }
    return worst;
}
