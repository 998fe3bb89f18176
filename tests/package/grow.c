/* Linked into the example by -Wl,--wrap=read: a file, FILE_TO_CHANGE, that changes while it is read. CHANGE is the number of
 * a read and how the file changes: a, it grows before that read; l, it grows after it; t, it is cut short; w, its first bytes
 * are written over. By -Wl,--wrap=morgazell_recording the same with calls for reads. */
#define _POSIX_C_SOURCE 200809L
#include <fcntl.h>
#include <stdint.h>
#include <stdio.h>
#include <stdlib.h>
#include <sys/types.h>
#include <unistd.h>

ssize_t __real_read(int file, void *to, size_t bytes);
ssize_t __wrap_read(int file, void *to, size_t bytes);
uint64_t __real_morgazell_recording(const uint8_t *recording, size_t len);
uint64_t __wrap_morgazell_recording(const uint8_t *recording, size_t len);

static void change(char how)
{
    int file = open(getenv("FILE_TO_CHANGE"), O_WRONLY | (how == 'w' || how == 't' ? 0 : O_APPEND));
    if (file < 0 || (how == 't' ? ftruncate(file, 80) : (int)write(file, "changed!", 8) - 8) != 0)
        abort();
    close(file);
}

static int times;

static void before(void)
{
    const char *when = getenv("CHANGE");
    if (when != NULL && ++times == when[0] - '0' && when[1] != 'l')
        change(when[1]);
}

static void after(void)
{
    const char *when = getenv("CHANGE");
    if (when != NULL && times == when[0] - '0' && when[1] == 'l')
        change(when[1]);
}

ssize_t __wrap_read(int file, void *to, size_t bytes)
{
    before();
    ssize_t got = __real_read(file, to, bytes);
    after();
    return got;
}

uint64_t __wrap_morgazell_recording(const uint8_t *recording, size_t len)
{
    before();
    uint64_t answer = __real_morgazell_recording(recording, len);
    after();
    return answer;
}
