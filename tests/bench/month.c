/* The month in numbers by hand, for tests/bench: the C judge of this folder, and beats counted where they stand. It reads and
 * writes as the program month does: the total word, the rest, and a line by one call. Text alone, from standard input. */
#include "judge.c"

#include <stdio.h>
#include <unistd.h>

enum { LONGEST = 64088, MOST_CAPTURES = 10000 };

struct sums {
    uint64_t captures, clean, broken, refused, events, judged, read, written, cycles;
};

/* As many bytes as there are, up to size; -1 where a read fails. */
static ssize_t fill(uint8_t *at, size_t size)
{
    size_t done = 0;
    while (done < size) {
        ssize_t got = read(STDIN_FILENO, at + done, size - done);
        if (got < 0)
            return -1;
        if (got == 0)
            break;
        done += (size_t)got;
    }
    return (ssize_t)done;
}

static ssize_t next_capture(uint8_t *buffer)
{
    ssize_t got = fill(buffer, 4);
    if (got < 4)
        return got;
    uint32_t total = load(buffer);
    if (total < EVENTS_AT || total > LONGEST)
        return 4;
    ssize_t more = fill(buffer + 4, total - 4);
    return more < 0 ? -1 : 4 + more;
}

static void count_beats(const struct capture *c, struct sums *line)
{
    uint8_t kept[MOST_EVENTS];
    uint32_t pairs = pairs_of(c->settings.mode);
    if (c->edition == 1)
        keep_pairs(&c->settings, c->events, c->count, kept);
    for (uint32_t i = 0; i < c->count; i++) {
        uint32_t pins = pins_of(c->events, i);
        uint32_t command = command_of(pins);
        if (command == READ || command == WRITE) {
            uint32_t beats = 2 * (c->edition == 1 ? kept[i] : kept_pairs(c->events, c->count, i, pairs));
            *(command == READ ? &line->read : &line->written) += beats;
        } else if (command == MODE_SET && bank_of(pins) == 0) {
            pairs = pairs_of(pins);
        }
    }
}

/* The verdict's words; its numbers go into the line. */
static int tell(const uint8_t *bytes, size_t len, struct sums *line, char *text)
{
    struct capture c;
    uint64_t answer = check_capture(bytes, len, &c);
    if (is_refused(answer)) {
        line->refused = 1;
        return sprintf(text, "refused %u place %u", (unsigned)(answer >> 56), (unsigned)answer);
    }
    answer = walk(&c);
    line->events = c.count;
    line->judged = (uint32_t)answer;
    if (is_broken(answer)) {
        line->broken = 1;
        uint32_t event = (uint32_t)answer;
        return sprintf(text, "broken rule %u event %u cycle %u", (unsigned)(answer >> 48 & 255), event, cycle_of(c.events, event));
    }
    line->clean = 1;
    line->cycles = c.count == 0 ? 0 : 2ull * cycle_of(c.events, c.count - 1);
    count_beats(&c, line);
    return sprintf(text, "clean");
}

static void add(struct sums *all, const struct sums *line)
{
    all->captures++;
    all->clean += line->clean;
    all->broken += line->broken;
    all->refused += line->refused;
    all->events += line->events;
    all->judged += line->judged;
    all->read += line->read;
    all->written += line->written;
    all->cycles += line->cycles;
}

static void put(const char *text, int size)
{
    if (write(STDOUT_FILENO, text, (size_t)size) != size)
        _exit(1);
}

#define BUS " read %llu written %llu bus %llu over %llu\n"
#define NUMBER(x) ((unsigned long long)(x))
#define BUS_OF(x) NUMBER((x).read), NUMBER((x).written), NUMBER((x).read + (x).written), NUMBER((x).cycles)

int main(void)
{
    static uint8_t buffer[LONGEST];
    struct sums all = {0};
    char text[400], verdict[100];
    while (all.captures < MOST_CAPTURES) {
        ssize_t got = next_capture(buffer);
        if (got < 0)
            return 1;
        if (got == 0)
            break;
        struct sums line = {0};
        tell(buffer, (size_t)got, &line, verdict);
        put(text, sprintf(text, "capture %llu events %llu judged %llu %s" BUS, NUMBER(all.captures), NUMBER(line.events),
                          NUMBER(line.judged), verdict, BUS_OF(line)));
        add(&all, &line);
        if (strncmp(verdict, "refused 1 ", 10) == 0) {
            put(text, sprintf(text, "stream ends at capture %llu\n", NUMBER(all.captures - 1)));
            break;
        }
    }
    if (all.captures == MOST_CAPTURES && fill(buffer, 1) == 1) {
        put(text, sprintf(text, "refused 14 place %d\n", MOST_CAPTURES));
        return 0;
    }
    put(text, sprintf(text, "all captures %llu clean %llu broken %llu refused %llu events %llu judged %llu" BUS, NUMBER(all.captures),
                      NUMBER(all.clean), NUMBER(all.broken), NUMBER(all.refused), NUMBER(all.events), NUMBER(all.judged), BUS_OF(all)));
    return 0;
}
