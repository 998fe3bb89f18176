/* A library that is loaded into a program before the C library, and fails the program's calls of open, read and write. The
   environment says which:

       FAULT_FD      0 for reads of standard input, 1 for writes of standard output, 2 for writes of standard error, 3 for
                     reads of the file that was opened last, 4 for calls of open
       FAULT_AT      the first call that is changed, counted from 0
       FAULT_TIMES   how many calls in a row
       FAULT_ERRNO   what they fail with; 0 for calls that move one byte
       FAULT_PIECE   the most that any other call on that descriptor moves; 0 for no limit
       FAULT_NOTE    a descriptor on which a byte is written for every call that was changed

   Of the C library it needs errno and the environment alone, which every version has. */
#include <stddef.h>

extern char **environ;
int *__errno_location(void);

static long kernel(long number, long first, const void *second, size_t third)
{
    long answer;
    __asm__ volatile("syscall"
                     : "=a"(answer)
                     : "0"(number), "D"(first), "S"(second), "d"(third)
                     : "rcx", "r11", "memory");
    return answer;
}

enum { READ = 0, WRITE = 1, OPEN = 2 };

enum { FILE_READ = 3, FILE_OPENED = 4 };

static long setting(const char *name)
{
    for (char **at = environ; *at; at++) {
        const char *text = *at;
        const char *asked = name;
        while (*asked && *text == *asked) {
            text++;
            asked++;
        }
        if (*asked || *text != '=')
            continue;
        long value = 0;
        while (*++text)
            value = 10 * value + (*text - '0');
        return value;
    }
    return -1;
}

static long answered(long answer)
{
    if (answer >= 0)
        return answer;
    *__errno_location() = (int)-answer;
    return -1;
}

/* Whether the call is one of those that are changed, of all that were counted. */
static int changed(void)
{
    static long calls;
    long behind = calls++ - setting("FAULT_AT");
    if (behind < 0 || setting("FAULT_TIMES") <= behind)
        return 0;
    kernel(WRITE, setting("FAULT_NOTE"), "!", 1);
    return 1;
}

static int opened = -1;

static int meant(int fd)
{
    long asked = setting("FAULT_FD");
    return asked == FILE_READ ? fd == opened : asked < FILE_READ && fd == asked;
}

static long moved(long call, int fd, const void *buf, size_t size)
{
    if (!meant(fd))
        return answered(kernel(call, fd, buf, size));
    size_t piece = (size_t)setting("FAULT_PIECE");
    if (!changed())
        return answered(kernel(call, fd, buf, piece && piece < size ? piece : size));
    long error = setting("FAULT_ERRNO");
    return answered(error ? -error : kernel(call, fd, buf, size ? 1 : 0));
}

long read(int fd, void *buf, size_t size)
{
    return moved(READ, fd, buf, size);
}

long write(int fd, const void *buf, size_t size)
{
    return moved(WRITE, fd, buf, size);
}

int open(const char *path, int flags, int mode)
{
    long fd = -setting("FAULT_ERRNO");
    if (setting("FAULT_FD") != FILE_OPENED || !changed())
        fd = kernel(OPEN, (long)path, (const void *)(long)flags, (size_t)mode);
    opened = (int)answered(fd);
    return opened;
}
