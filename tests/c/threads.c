/* threads: two threads that judge, list, schedule, blank, ask and play different inputs and write and read exports at the same
 * time, many times over. What each call answers and leaves has to be what the same call answered and left when it was made alone. */
#define _POSIX_C_SOURCE 200809L
#include <inttypes.h>
#include <pthread.h>
#include <stdio.h>

#include "inputs.h"

enum { ROUNDS = 300, INPUTS = 4, MOST_CELLS = 128000, MOST_BYTES = 64080, REQUESTS = 500, WORDS = 64000 };

struct left {
    uint64_t judged, recorded, listed, scheduled, blanked, asked, written, read, played;
    uint32_t window[MORGAZELL_MOST_WINDOW], words[MOST_CELLS];
    uint32_t cells[MOST_CELLS], index[MORGAZELL_MOST_INDEX];
    struct morgazell_bank banks[4];
    uint8_t bytes[MOST_BYTES];
    uint8_t capture[LONGEST];
    uint8_t records[MORGAZELL_LONGEST_EXPORT];
    uint8_t back[LONGEST];
};

struct input {
    uint8_t capture[LONGEST];
    size_t len;
    uint32_t requests[REQUESTS], words[WORDS];
    struct left alone;
};

static struct input inputs[INPUTS];

static pthread_barrier_t together;

static void call(const struct input *in, struct left *out)
{
    memset(out, 0xa5, sizeof *out);
    out->judged = morgazell_judge(in->capture, in->len);
    out->recorded = morgazell_recording(in->capture, in->len);
    out->listed = morgazell_cells(in->capture, in->len, out->cells, MOST_CELLS);
    out->scheduled = morgazell_schedule(SETTINGS, 14, in->requests, REQUESTS, MORGAZELL_OPEN_ROWS, out->bytes, MOST_BYTES);
    out->blanked = morgazell_blank(in->capture, in->len, out->capture, LONGEST);
    out->asked = morgazell_open_row(in->capture, in->len, 0, 1000, out->banks, 4, out->index, MORGAZELL_MOST_INDEX);
    out->written = morgazell_write_export(in->capture, in->len, out->records, sizeof out->records);
    out->read = morgazell_read_export(out->records, 6000, SETTINGS, 14, 1, out->back, LONGEST);
    out->played = morgazell_play(in->capture, in->len, 0, out->window, MORGAZELL_MOST_WINDOW, in->words, WORDS, out->words, MOST_CELLS);
}

/* Rows opened and read to the end; in two of the four an ACTIVE finds the row open at the end. Two are of edition 1, in
 * which every second read is a write that the read behind it cuts to three pairs. Requests differ from input to input. */
static void make(struct input *in, uint32_t number)
{
    uint32_t settings = number % 2 == 0 ? 14 : 16, n = 2000 + 1000 * number;
    uint32_t edition = number == 1 || number == 2;
    in->len = begin(in->capture, settings, n, edition);
    event(in->capture, settings, 0, 0, ACTIVE | number);
    for (uint32_t i = 1; i < n; i++) {
        uint32_t writes = edition == 1 && i % 2 == 0, cuts = edition == 1 && i % 2 == 1;
        event(in->capture, settings, i, 10 * i - 5 * cuts, (writes ? WRITE : READ) | (i * (number + 3)) % 1024);
    }
    if (number >= 2)
        event(in->capture, settings, n - 1, 10 * n, ACTIVE | number);
    for (uint32_t i = 0; i < REQUESTS; i++)
        in->requests[i] = (i * (number + 1)) % 2 << 31 | (i * 7919 * (number + 1)) % 0x2000000;
    for (uint32_t i = 0; i < WORDS; i++)
        in->words[i] = i % 2 == 0 ? i * 2654435761u : i / 2 % 16;
}

/* A thread's first input, each second one after it, and how many calls differed. */
struct worker {
    size_t first, differ;
    struct left left;
};

static void *work(void *given)
{
    struct worker *worker = given;
    pthread_barrier_wait(&together);
    for (size_t round = 0; round < ROUNDS; round++) {
        const struct input *in = &inputs[(worker->first + 2 * round) % INPUTS];
        call(in, &worker->left);
        worker->differ += memcmp(&worker->left, &in->alone, sizeof worker->left) != 0;
    }
    return NULL;
}

int main(void)
{
    static struct worker even = {.first = 0}, odd = {.first = 1};
    pthread_t other;
    for (uint32_t i = 0; i < INPUTS; i++) {
        make(&inputs[i], i);
        call(&inputs[i], &inputs[i].alone);
        printf("%#" PRIx64 " %#" PRIx64 " %#" PRIx64 " %#" PRIx64 "\n", inputs[i].alone.judged, inputs[i].alone.listed,
               inputs[i].alone.scheduled, inputs[i].alone.blanked);
    }
    pthread_barrier_init(&together, NULL, 2);
    if (pthread_create(&other, NULL, work, &odd) != 0)
        return 1;
    work(&even);
    pthread_join(other, NULL);
    printf("%d rounds in each of two threads, %zu differ\n", ROUNDS, even.differ + odd.differ);
    return even.differ + odd.differ != 0;
}
