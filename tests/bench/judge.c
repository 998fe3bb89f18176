#include "judge.h"

#include <string.h>

_Static_assert(__BYTE_ORDER__ == __ORDER_LITTLE_ENDIAN__,
               "captures are read word by word as they lie in memory");

enum {
    SETTINGS = 14,
    SLEEP_SETTINGS = 16,
    HEADER_BYTES = 24,
    EVENTS_AT = 80, /* behind 14 settings */
    EVENT_BYTES = 8,
    MOST_EVENTS = 8000,
    MOST_REQUESTS = 2000,
    LONGEST_BURST = 16,
    BANKS = 4,
};

static const uint32_t LAST_CYCLE = 2000000000;

/* Pins 16-19 of an event: CS#, RAS#, CAS#, WE# from the lowest bit up. With CS# high,
 * an odd number, the event is a DESELECT. Pin 20 is CKE low. */
enum {
    MODE_SET = 0,
    WRITE = 2,
    PRECHARGE = 4,
    TERMINATE = 6,
    REFRESH = 8,
    READ = 10,
    ACTIVE = 12,
    NOP = 14,
};

enum { A10 = 1 << 10, LOW = 1 << 20 };

/* The settings in the order of the list; every value fits, and so does any sum of a cycle,
 * all of them and tREFI eight times more. */
struct settings {
    uint32_t lane, row_bits, column_bits, mode;
    int32_t rcd, rp, ras, rc, rrd, wr, wtr, rfc, mrd, refi;
    int32_t xp, xsr; /* of 16 settings alone */
};

static const uint32_t LEAST[SLEEP_SETTINGS] = {1, 12, 8, 0, 1, 1, 1, 1,
                                               1, 1,  1, 1, 1, 1, 1, 1};
static const uint32_t MOST[SLEEP_SETTINGS] = {2,     14,    11,    127,   10000, 10000,
                                              10000, 10000, 10000, 10000, 10000, 10000,
                                              10000, 1000000, 10000, 10000};

static inline uint32_t load(const uint8_t *at)
{
    uint32_t word;
    memcpy(&word, at, sizeof word);
    return word;
}

static inline uint32_t cycle_of(const uint8_t *events, uint32_t i)
{
    return load(events + EVENT_BYTES * (size_t)i);
}

static inline uint32_t pins_of(const uint8_t *events, uint32_t i)
{
    return load(events + EVENT_BYTES * (size_t)i + 4);
}

static inline int32_t later(int32_t a, int32_t b) { return a > b ? a : b; }
static inline int32_t sooner(int32_t a, int32_t b) { return a < b ? a : b; }

static inline uint32_t bank_of(uint32_t pins) { return pins >> 14 & 3; }
static inline uint32_t command_of(uint32_t pins) { return pins >> 16 & 15; }
static inline int is_quiet(uint32_t command) { return command & 1 || command == NOP; }

static inline int is_mode(uint32_t word)
{
    return (word & 7) - 1 < 4 && (word >> 4 & 7) - 2 < 2;
}

static inline uint32_t pairs_of(uint32_t mode) { return 1u << (mode & 7) >> 1; }
static inline uint32_t latency_of(uint32_t mode) { return mode >> 4; }

static inline uint64_t refused(uint32_t number, uint32_t place)
{
    return (uint64_t)number << 56 | place;
}

static inline int is_refused(uint64_t answer) { return answer >> 56 != 0; }

static inline uint64_t broken(uint32_t rule, uint32_t event)
{
    return (uint64_t)rule << 48 | event;
}

static inline int is_broken(uint64_t answer) { return (answer >> 48 & 255) != 0; }

/* Refusal 3, or 0: each setting by itself, then tRC beside tRAS and tRP. */
static uint64_t check_settings(const struct settings *settings, uint32_t count)
{
    uint32_t list[SLEEP_SETTINGS];
    memcpy(list, settings, sizeof list);
    for (uint32_t i = 0; i < count; i++) {
        if (list[i] - LEAST[i] > MOST[i] - LEAST[i] || (i == 3 && !is_mode(list[i])))
            return refused(3, i);
    }
    return settings->rc > settings->ras + settings->rp ? refused(3, 7) : 0;
}

__attribute__((cold, noinline)) static uint64_t
first_bad_event(const uint8_t *events, uint32_t count, uint32_t pin_bits)
{
    uint32_t i = 0;
    for (; i < count; i++) {
        uint32_t cycle = cycle_of(events, i);
        if (pins_of(events, i) >> pin_bits != 0 || cycle > LAST_CYCLE
            || (i > 0 && cycle <= cycle_of(events, i - 1)))
            break;
    }
    return refused(4, i);
}

/* Refusal 4, or 0. The common case is told without a branch an event: with all cycles
 * under 2^31, a cycle that does not rise makes the difference less one negative. */
static uint64_t check_events(const uint8_t *events, uint32_t count, uint32_t pin_bits)
{
    if (count == 0)
        return 0;
    uint32_t cycles = cycle_of(events, 0);
    uint32_t pins = pins_of(events, 0);
    uint32_t falls = 0;
    for (uint32_t i = 1; i < count; i++) {
        uint32_t cycle = cycle_of(events, i);
        cycles |= cycle;
        pins |= pins_of(events, i);
        falls |= cycle - cycle_of(events, i - 1) - 1;
    }
    if (((cycles | falls) >> 31 | pins >> pin_bits) != 0
        || cycle_of(events, count - 1) > LAST_CYCLE)
        return first_bad_event(events, count, pin_bits);
    return 0;
}

struct capture {
    struct settings settings;
    const uint8_t *events;
    uint32_t count;
    uint32_t edition;
};

/* Refusals 1 to 4, or 0 with the capture taken apart. */
static uint64_t check_capture(const uint8_t *bytes, size_t len, struct capture *capture)
{
    if (len < EVENTS_AT)
        return refused(1, 0);
    int sleeps = load(bytes + 4) == SLEEP_SETTINGS;
    uint32_t settings = sleeps ? SLEEP_SETTINGS : SETTINGS;
    uint32_t events_at = HEADER_BYTES + 4 * settings;
    uint32_t count = load(bytes + 12);
    if (len < events_at || len > events_at + EVENT_BYTES * MOST_EVENTS || load(bytes) != len)
        return refused(1, 0);
    if (load(bytes + 4) != settings || load(bytes + 8) != HEADER_BYTES || count > MOST_EVENTS
        || load(bytes + 16) != events_at || load(bytes + 20) > 1
        || len != events_at + EVENT_BYTES * (size_t)count)
        return refused(2, 0);
    *capture = (struct capture){
        .events = bytes + events_at, .count = count, .edition = load(bytes + 20)};
    memcpy(&capture->settings, bytes + HEADER_BYTES, 4 * settings);
    uint64_t refusal = check_settings(&capture->settings, settings);
    return refusal != 0 ? refusal : check_events(capture->events, count, sleeps ? 21 : 20);
}

/* The part as the judge needs it: the first cycles at which rules let commands through.
 * A test of "too early" is the sign of a difference, so that many join in one branch; no
 * cycle with all settings added to it reaches 2^31.
 *
 * Entries from 4 on in the longer arrays are never read for a rule: they take the stores
 * that a command does not call for, in place of a branch around them. */
struct part {
    int32_t active[BANKS];         /* the last ACTIVE, for rules 8 and 9 */
    int32_t precharged[2 * BANKS]; /* rule 5 */
    int32_t recovered[4 * BANKS];  /* rule 10 */
    /* By direction, 0 for WRITE and 1 for READ: rules 12 and 13, and rules 11 and 13. */
    int32_t from[2];
    /* By direction of a burst: from its end to the first burst of the other direction,
     * and to its auto precharge. */
    int32_t turn[2];
    int32_t settle[2];
};

/* What changes most, apart so that it stays in registers. */
struct now {
    uint32_t open;        /* a bit for each bank */
    uint32_t active_bank; /* of the last ACTIVE */
    int32_t spaced;       /* rule 7, for all banks but that one */
    int32_t spaced_same;  /* rule 7, for that one */
    int32_t busy;         /* rule 4 */
    int32_t due;          /* rule 14: the last cycle it passes; UNASKED in self refresh */
    int32_t ready;        /* rule 15, after the last sleep */
    int32_t wake;         /* asleep: tXP or tXSR, which counts from its end; awake: 0 */
    /* The last burst: its bank, 4 more for a read, 8 more for auto precharge; and what its
     * entry of `recovered` is to be, unless a WRITE cuts it first. */
    uint32_t last;
    int32_t recovered;
    int32_t written; /* in edition 1, of a write: where its data ends */
    int32_t pairs;
    int32_t latency;
};

enum { READ_SLOT = 4, AUTO_SLOT = 8 };

/* Long enough before cycle 0 for every wait to be over. */
static const int32_t NEVER = -20000;

static const int32_t UNASKED = INT32_MAX;

/* Rule 14: the last cycle before nine refreshes are owed. It is 9 tREFI - 1 from where none
 * is, and an AUTO REFRESH moves it by tREFI if one is owed by then. */
static inline int32_t due_from(const struct settings *s, int32_t t) { return t + 9 * s->refi - 1; }

static inline int32_t due_after_refresh(const struct settings *s, int32_t due, int32_t t)
{
    return due + (due < t + 8 * s->refi ? s->refi : 0);
}

static inline int is_good_mode_set(uint32_t pins)
{
    uint32_t address = pins & 0x3fff;
    uint32_t bank = bank_of(pins);
    return bank == 2 || (bank == 0 && address >> 7 == 0 && is_mode(address));
}

static inline int32_t other_active(struct now now, uint32_t bank)
{
    return bank == now.active_bank ? now.spaced_same : now.spaced;
}

/* Rule 5 over all banks. */
static inline int32_t all_precharged(const struct part *part)
{
    const int32_t *p = part->precharged;
    return later(later(p[0], p[1]), later(p[2], p[3]));
}

/* The end of the last burst's data, if it is a write. */
static inline int32_t write_over(const struct settings *s, const struct part *part,
                                 struct now now, int edition)
{
    return edition == 0 ? part->from[1] - s->wtr : now.written;
}

/* Rule 13 for BURST TERMINATE: the end of the last burst, if it must not be cut. */
static inline int32_t terminable(const struct settings *s, const struct part *part,
                                 struct now now, int edition)
{
    return now.last & READ_SLOT ? part->from[1] : write_over(s, part, now, edition);
}

/* Rule 15: the data of the last burst. What came before it was over when it was given, by
 * rules 11 and 12. */
static inline int32_t data_over(const struct settings *s, const struct part *part,
                                struct now now, int edition)
{
    return now.last & READ_SLOT ? part->from[0] : write_over(s, part, now, edition);
}

/* The lowest rule that an event breaks; it breaks one. */
__attribute__((cold, noinline)) static uint32_t lowest_rule(const struct settings *s,
                                                            const struct part *part,
                                                            struct now now, int32_t t,
                                                            uint32_t pins, int edition)
{
    uint32_t bank = bank_of(pins);
    uint32_t command = command_of(pins);
    uint32_t is_open = now.open >> bank & 1;
    int is_access = command == READ || command == WRITE;
    int wants_idle = command == REFRESH || command == MODE_SET;
    int after_read = (now.last & READ_SLOT) != 0;
    int falls_asleep = now.wake == 0 && pins & LOW;
    uint32_t last_rule = t > now.due ? 14 : 15;
    if (is_quiet(command))
        return falls_asleep && t < now.busy ? 4 : last_rule;
    if (command == ACTIVE && (pins & 0x3fff) >> s->row_bits != 0)
        return 1;
    if (command == MODE_SET && !is_good_mode_set(pins))
        return 2;
    if ((command == ACTIVE && is_open) || (is_access && !is_open) || (wants_idle && now.open))
        return 3;
    if (t < now.busy)
        return 4;
    if ((command == ACTIVE && t < part->precharged[bank])
        || (wants_idle && t < all_precharged(part)))
        return 5;
    if (command == ACTIVE && t < other_active(now, bank))
        return 7;
    if (is_access && t < part->active[bank] + s->rcd)
        return 8;
    if (command == PRECHARGE) {
        uint32_t closing = now.open & (pins & A10 ? 15 : 1u << bank);
        uint32_t rule = last_rule;
        for (bank = 0; bank < BANKS; bank++) {
            if (closing >> bank & 1 && t < part->active[bank] + s->ras)
                return 9;
            if (closing >> bank & 1 && t < part->recovered[bank])
                rule = 10;
        }
        return rule;
    }
    if (command == READ && t < part->from[1])
        return after_read ? 13 : 11;
    if (command == WRITE && t < part->from[0])
        return after_read ? 12 : 13;
    if (wants_idle && t < part->from[0])
        return 12;
    if (command == TERMINATE && t < terminable(s, part, now, edition))
        return 13;
    return last_rule;
}

/* The walk over the events, once for each edition, so that neither pays for the other. */
#define EDITION 0
#define WALK walk_edition_0
#include "walk.h"
#undef WALK
#undef EDITION
#define EDITION 1
#define WALK walk_edition_1
#include "walk.h"
#undef WALK
#undef EDITION

static inline uint64_t walk(const struct capture *c)
{
    return (c->edition == 0 ? walk_edition_0 : walk_edition_1)(&c->settings, c->events, c->count);
}

uint64_t c_judge(const uint8_t *bytes, size_t len)
{
    struct capture capture;
    uint64_t refusal = check_capture(bytes, len, &capture);
    if (refusal != 0)
        return refusal;
    return walk(&capture);
}

static inline int cuts(uint32_t burst, uint32_t pins)
{
    uint32_t command = command_of(pins);
    if (command_of(burst) == WRITE)
        return command == WRITE;
    return command == READ || command == TERMINATE
        || (command == PRECHARGE && (pins & A10 || bank_of(pins) == bank_of(burst)));
}

/* The pairs that burst i keeps in edition 0, and in edition 1 if it is a read: the first
 * event that cuts it cuts it shortest. */
static inline uint32_t kept_pairs(const uint8_t *events, uint32_t count, uint32_t i,
                                  uint32_t pairs)
{
    uint32_t burst = pins_of(events, i);
    uint32_t given = cycle_of(events, i);
    if (burst & A10)
        return pairs;
    for (uint32_t j = i + 1; j < count && cycle_of(events, j) - given < pairs; j++) {
        if (cuts(burst, pins_of(events, j)))
            return cycle_of(events, j) - given;
    }
    return pairs;
}

static uint32_t count_cells(uint32_t mode, const uint8_t *events, uint32_t count)
{
    uint32_t pairs = pairs_of(mode);
    uint32_t needed = 0;
    for (uint32_t i = 0; i < count; i++) {
        uint32_t pins = pins_of(events, i);
        uint32_t command = command_of(pins);
        if (command == READ || command == WRITE)
            needed += 2 * kept_pairs(events, count, i, pairs);
        else if (command == MODE_SET && bank_of(pins) == 0)
            pairs = pairs_of(pins);
    }
    return needed;
}

/* A write that edition 1 may still cut: its place in the list of kept pairs, and its cycle. */
struct cuttable {
    uint8_t *pairs;
    uint32_t given;
};

static inline void cut(struct cuttable write, uint32_t pairs)
{
    *write.pairs = pairs < *write.pairs ? (uint8_t)pairs : *write.pairs;
}

/* Edition 1: the pairs that the burst at each event keeps in the end, 0 where there is none.
 * What cuts a write may come tWTR or tWR after its data, with any number of events between,
 * so each event cuts what is before it. */
static void keep_pairs(const struct settings *s, const uint8_t *events, uint32_t count,
                       uint8_t *kept)
{
    uint8_t nothing = 0;
    const struct cuttable none = {&nothing, 0};
    struct cuttable last = none;                           /* of any bank */
    struct cuttable row[BANKS] = {none, none, none, none}; /* of each open row */
    uint32_t pairs = pairs_of(s->mode);
    for (uint32_t i = 0; i < count; i++) {
        uint32_t pins = pins_of(events, i);
        uint32_t t = cycle_of(events, i);
        uint32_t bank = bank_of(pins);
        kept[i] = 0;
        switch (command_of(pins)) {
        case READ:
            kept[i] = (uint8_t)kept_pairs(events, count, i, pairs);
            cut(last, t - s->wtr - last.given - 1);
            if (pins & A10)
                row[bank] = none;
            break;
        case WRITE: {
            struct cuttable write = {kept + i, t};
            kept[i] = (uint8_t)pairs;
            cut(last, t - last.given);
            last = row[bank] = pins & A10 ? none : write;
            break;
        }
        case PRECHARGE: {
            uint32_t end = pins & A10 ? BANKS : bank + 1;
            for (bank = pins & A10 ? 0 : bank; bank < end; bank++) {
                cut(row[bank], t - s->wr - row[bank].given - 1);
                row[bank] = none;
            }
            break;
        }
        case MODE_SET:
            pairs = bank == 0 ? pairs_of(pins) : pairs;
            break;
        default:
            break;
        }
    }
}

static inline uint32_t column_of(uint32_t pins, uint32_t column_bits)
{
    return ((pins & 0x3ff) | (pins >> 1 & 0x400)) & ((1u << column_bits) - 1);
}

/* Writes the beats of one burst and returns where the next burst's go. */
static inline uint32_t *put_beats(uint32_t *out, uint32_t row_start, uint32_t column,
                                  uint32_t mode, uint32_t beats)
{
    uint32_t within = (2 * pairs_of(mode)) - 1;
    uint32_t block = row_start + (column & ~within);
    if (mode & 8) {
        for (uint32_t j = 0; j < beats; j++)
            out[j] = block + ((column ^ j) & within);
    } else {
        for (uint32_t j = 0; j < beats; j++)
            out[j] = block + ((column + j) & within);
    }
    return out + beats;
}

/* With the pairs that bursts keep if they are known. */
static inline __attribute__((always_inline)) uint32_t
write_cells(const struct settings *s, const uint8_t *events, uint32_t count, const uint8_t *kept,
            uint32_t *out)
{
    uint32_t *end = out;
    uint32_t mode = s->mode;
    uint32_t row_start[BANKS] = {0};
    for (uint32_t i = 0; i < count; i++) {
        uint32_t pins = pins_of(events, i);
        uint32_t bank = bank_of(pins);
        switch (command_of(pins)) {
        case ACTIVE:
            row_start[bank] = ((bank << s->row_bits) + (pins & 0x3fff)) << s->column_bits;
            break;
        case READ:
        case WRITE: {
            uint32_t pairs = kept ? kept[i] : kept_pairs(events, count, i, pairs_of(mode));
            uint32_t beats = 2 * pairs;
            end = put_beats(end, row_start[bank], column_of(pins, s->column_bits), mode, beats);
            break;
        }
        case MODE_SET:
            mode = bank == 0 ? pins & 127 : mode;
            break;
        default:
            break;
        }
    }
    return (uint32_t)(end - out);
}

static uint64_t cells_edition_1(const struct capture *c, uint32_t *out, size_t out_len)
{
    uint8_t kept[MOST_EVENTS];
    uint32_t needed = 0;
    keep_pairs(&c->settings, c->events, c->count, kept);
    for (uint32_t i = 0; i < c->count; i++)
        needed += 2u * kept[i];
    if (out_len < needed)
        return refused(7, needed);
    return write_cells(&c->settings, c->events, c->count, kept, out);
}

uint64_t c_cells(const uint8_t *bytes, size_t len, uint32_t *out, size_t out_len)
{
    struct capture capture;
    uint64_t refusal = check_capture(bytes, len, &capture);
    if (refusal != 0)
        return refusal;
    const uint8_t *events = capture.events;
    uint32_t count = capture.count;
    uint64_t answer = walk(&capture);
    if (is_broken(answer))
        return refused(8, (uint32_t)answer);
    if (capture.edition == 1)
        return cells_edition_1(&capture, out, out_len);
    /* Room for whole bursts at every event needs no counting. */
    if (out_len < (size_t)count * LONGEST_BURST) {
        uint32_t needed = count_cells(capture.settings.mode, events, count);
        if (out_len < needed)
            return refused(7, needed);
    }
    return write_cells(&capture.settings, events, count, NULL, out);
}

/* The part between requests: all banks idle, every burst with auto precharge. */
struct plan {
    int32_t next; /* the first cycle free for an event */
    int32_t precharged[BANKS];
    uint32_t active_bank;
    int32_t spaced, spaced_same;
    int32_t busy, all_idle, due;
    int32_t from[2]; /* by direction, 0 for WRITE and 1 for READ */
};

/* Where a request's two commands would go. */
struct placing {
    int32_t others, active, access, over, idle;
};

static inline struct placing place(const struct settings *s, const struct plan *plan,
                                   uint32_t read, uint32_t bank)
{
    int32_t others = bank == plan->active_bank ? plan->spaced_same : plan->spaced;
    int32_t active = later(later(plan->next, plan->busy), later(plan->precharged[bank], others));
    int32_t access = later(active + s->rcd, plan->from[read]);
    int32_t over = access + (int32_t)pairs_of(s->mode);
    int32_t done = read ? over : over + 1 + s->wr;
    int32_t idle = later(done, active + s->ras) + s->rp;
    return (struct placing){others, active, access, over, idle};
}

/* The earliest AUTO REFRESH after a request. */
static inline int32_t refresh_after(const struct settings *s, const struct plan *plan,
                                    const struct placing *placing, uint32_t read)
{
    int32_t bus = read ? placing->over + (int32_t)latency_of(s->mode) : 0;
    return later(later(placing->access + 1, bus), later(plan->all_idle, placing->idle));
}

static inline void accept(const struct settings *s, struct plan *plan,
                          const struct placing *placing, uint32_t read, uint32_t bank)
{
    int32_t over = placing->over;
    plan->spaced_same = placing->others;
    plan->spaced = placing->active + s->rrd;
    plan->active_bank = bank;
    plan->precharged[bank] = placing->idle;
    plan->all_idle = later(plan->all_idle, placing->idle);
    plan->from[read] = over;
    plan->from[read ^ 1] = read ? over + (int32_t)latency_of(s->mode) : over + 1 + s->wtr;
    plan->next = placing->access + 1;
}

static inline uint8_t *put_event(uint8_t *at, int32_t cycle, uint32_t pins)
{
    memcpy(at, &cycle, sizeof cycle);
    memcpy(at + 4, &pins, sizeof pins);
    return at + EVENT_BYTES;
}

/* Refusal 6, or the number of events written: every row closed behind its burst. */
static uint64_t plan_closed(const struct settings *s, const uint32_t *requests, uint32_t count,
                            uint8_t *events)
{
    struct plan plan = {.due = due_from(s, 0)};
    uint8_t *at = events;
    for (uint32_t i = 0; i < count; i++) {
        uint32_t request = requests[i];
        uint32_t read = request >> 31 ^ 1;
        uint32_t cell = request & 0x7ffffff;
        uint32_t column = cell & ((1u << s->column_bits) - 1);
        uint32_t row = cell >> s->column_bits & ((1u << s->row_bits) - 1);
        uint32_t bank = cell >> (s->column_bits + s->row_bits);
        struct placing placing = place(s, &plan, read, bank);
        if (refresh_after(s, &plan, &placing, read) > plan.due) {
            int32_t refresh = later(later(plan.next, plan.busy),
                                    later(plan.all_idle, plan.from[0]));
            plan.busy = refresh + s->rfc;
            plan.due = due_after_refresh(s, plan.due, refresh);
            plan.next = refresh + 1;
            at = put_event(at, refresh, (uint32_t)REFRESH << 16);
            placing = place(s, &plan, read, bank);
            if (refresh_after(s, &plan, &placing, read) > plan.due)
                return refused(6, i);
        }
        accept(s, &plan, &placing, read, bank);
        uint32_t access = (read ? READ : WRITE) << 16 | bank << 14 | A10;
        uint32_t address = (column & 0x3ff) | (column & 0x400) << 1;
        at = put_event(at, placing.active, (uint32_t)ACTIVE << 16 | bank << 14 | row);
        at = put_event(at, placing.access, access | address);
    }
    return (uint64_t)(at - events) / EVENT_BYTES;
}

/* The part between requests whose rows stay open. The latest over all banks may count banks that are idle or were opened
 * again: what these ask for is past. */
struct rows {
    int32_t next, busy, due;
    int32_t row[BANKS]; /* -1 while idle */
    int32_t precharged[BANKS], opened[BANKS], closable[BANKS];
    int32_t all_closable, all_idle, bus;
    uint32_t active_bank;
    int32_t spaced, spaced_same;
    int32_t from[2]; /* by direction, 0 for WRITE and 1 for READ; past the burst before it too */
};

/* Where PRECHARGE all and AUTO REFRESH would go; not before -1 where no bank is open. */
struct refreshing {
    int32_t close, refresh;
};

static inline struct refreshing refresh_next(const struct settings *s, const struct rows *rows, int any_open)
{
    int32_t quiet = later(rows->bus, rows->all_idle);
    if (!any_open)
        return (struct refreshing){-1, later(later(rows->next, rows->busy), quiet)};
    int32_t close = later(rows->next, rows->all_closable);
    return (struct refreshing){close, later(close + s->rp, quiet)};
}

/* What opens the row, and the burst; the events go to at. */
static inline uint8_t *open_request(const struct settings *s, struct rows *rows, uint32_t request, uint8_t *at)
{
    uint32_t read = request >> 31 ^ 1;
    uint32_t cell = request & 0x7ffffff;
    uint32_t column = cell & ((1u << s->column_bits) - 1);
    int32_t row = (int32_t)(cell >> s->column_bits & ((1u << s->row_bits) - 1));
    uint32_t bank = cell >> (s->column_bits + s->row_bits);
    if (rows->row[bank] != row) {
        if (rows->row[bank] >= 0) {
            int32_t close = later(rows->next, rows->closable[bank]);
            at = put_event(at, close, (uint32_t)PRECHARGE << 16 | bank << 14);
            rows->next = close + 1;
            rows->precharged[bank] = close + s->rp;
            rows->all_idle = later(rows->all_idle, close + s->rp);
        }
        int32_t others = bank == rows->active_bank ? rows->spaced_same : rows->spaced;
        int32_t active = later(later(rows->next, rows->busy), later(rows->precharged[bank], others));
        at = put_event(at, active, (uint32_t)ACTIVE << 16 | bank << 14 | (uint32_t)row);
        rows->spaced_same = others;
        rows->spaced = active + s->rrd;
        rows->active_bank = bank;
        rows->row[bank] = row;
        rows->opened[bank] = active + s->rcd;
        rows->closable[bank] = active + s->ras;
        rows->next = active + 1;
    }
    int32_t access = later(later(rows->next, rows->opened[bank]), rows->from[read]);
    int32_t over = access + (int32_t)pairs_of(s->mode);
    int32_t free = over + (int32_t)latency_of(s->mode);
    rows->bus = read ? free : rows->bus;
    rows->from[read] = over;
    rows->from[read ^ 1] = read ? free : over + 1 + s->wtr;
    rows->closable[bank] = later(rows->closable[bank], read ? over : over + 1 + s->wr);
    rows->all_closable = later(rows->all_closable, rows->closable[bank]);
    rows->next = access + 1;
    uint32_t address = (column & 0x3ff) | (column & 0x400) << 1;
    return put_event(at, access, (uint32_t)(read ? READ : WRITE) << 16 | bank << 14 | address);
}

/* The same with every row left open. */
static uint64_t plan_open(const struct settings *s, const uint32_t *requests, uint32_t count, uint8_t *events)
{
    struct rows rows = {.due = due_from(s, 0), .row = {-1, -1, -1, -1}};
    uint8_t *at = events;
    for (uint32_t i = 0; i < count; i++) {
        struct rows before = rows;
        uint8_t *end = open_request(s, &rows, requests[i], at);
        if (refresh_next(s, &rows, 1).refresh > rows.due) {
            rows = before;
            struct refreshing refreshing = refresh_next(s, &rows, i > 0);
            if (i > 0) {
                at = put_event(at, refreshing.close, (uint32_t)PRECHARGE << 16 | A10);
                for (int bank = 0; bank < BANKS; bank++) {
                    if (rows.row[bank] >= 0)
                        rows.precharged[bank] = refreshing.close + s->rp;
                    rows.row[bank] = -1;
                }
                rows.all_idle = later(rows.all_idle, refreshing.close + s->rp);
            }
            at = put_event(at, refreshing.refresh, (uint32_t)REFRESH << 16);
            rows.busy = refreshing.refresh + s->rfc;
            rows.due = due_after_refresh(s, rows.due, refreshing.refresh);
            rows.next = refreshing.refresh + 1;
            end = open_request(s, &rows, requests[i], at);
            if (refresh_next(s, &rows, 1).refresh > rows.due)
                return refused(6, i);
        }
        at = end;
    }
    return (uint64_t)(at - events) / EVENT_BYTES;
}

/* Refusal 5, or 0. */
static uint64_t check_requests(const struct settings *s, const uint32_t *requests, size_t count)
{
    if (count > MOST_REQUESTS)
        return refused(5, MOST_REQUESTS);
    uint32_t lacking = ~(((uint32_t)BANKS << (s->row_bits + s->column_bits)) - 1) & 0x7fffffff;
    for (uint32_t i = 0; i < count; i++) {
        if (requests[i] & lacking)
            return refused(5, i);
    }
    return 0;
}

uint64_t c_schedule(const uint32_t *list, size_t list_len, const uint32_t *requests,
                    size_t requests_len, uint32_t policy, uint8_t *out, size_t out_len)
{
    if (list_len != SETTINGS)
        return refused(2, 0);
    struct settings settings = {0};
    memcpy(&settings, list, 4 * SETTINGS);
    uint64_t refusal = check_settings(&settings, SETTINGS);
    if (refusal == 0 && policy > 1)
        refusal = refused(10, 0);
    if (refusal == 0)
        refusal = check_requests(&settings, requests, requests_len);
    if (refusal != 0)
        return refusal;

    /* Beside the lent buffer, which a refusal must leave as it is. */
    uint8_t events[4 * EVENT_BYTES * MOST_REQUESTS];
    uint32_t asked = (uint32_t)requests_len;
    uint64_t answer = policy == 0 ? plan_open(&settings, requests, asked, events)
                                  : plan_closed(&settings, requests, asked, events);
    if (is_refused(answer))
        return answer;
    uint32_t count = (uint32_t)answer;
    uint32_t total = EVENTS_AT + EVENT_BYTES * count;
    if (out_len < total)
        return refused(7, total);
    uint32_t header[6] = {total, SETTINGS, HEADER_BYTES, count, EVENTS_AT, 0};
    memcpy(out, header, sizeof header);
    memcpy(out + HEADER_BYTES, list, 4 * SETTINGS);
    memcpy(out + EVENTS_AT, events, EVENT_BYTES * (size_t)count);
    return total;
}

/* ---- exports of the handheld analyser: a stamp of 16 bits and the pins, six bytes a record */

enum { RECORD_BYTES = 6, MOST_RECORDS = 8000, REACH = 65535 };

static inline uint16_t stamp_of(const uint8_t *records, uint32_t i)
{
    uint16_t stamp;
    memcpy(&stamp, records + RECORD_BYTES * (size_t)i, sizeof stamp);
    return stamp;
}

static inline uint32_t record_pins(const uint8_t *records, uint32_t i)
{
    return load(records + RECORD_BYTES * (size_t)i + 2);
}

__attribute__((cold, noinline)) static uint64_t
first_bad_record(const uint8_t *records, uint32_t count)
{
    for (uint32_t i = 1; i < count; i++) {
        if (stamp_of(records, i) == stamp_of(records, i - 1))
            return refused(11, i);
    }
    uint32_t i = 0;
    while (record_pins(records, i) >> 20 == 0)
        i++;
    return refused(4, i);
}

/* Refusals 11 and 4 of whole records, or 0, told without a branch a record. */
static uint64_t check_records(const uint8_t *records, uint32_t count)
{
    if (count == 0)
        return 0;
    uint32_t pins = record_pins(records, 0);
    uint32_t stands = 0;
    for (uint32_t i = 1; i < count; i++) {
        stands |= stamp_of(records, i) == stamp_of(records, i - 1);
        pins |= record_pins(records, i);
    }
    return (stands | pins >> 20) != 0 ? first_bad_record(records, count) : 0;
}

uint64_t c_read_export(const uint8_t *records, size_t len, const uint32_t *list, size_t list_len,
                       uint32_t edition, uint8_t *out, size_t out_len)
{
    if (list_len != SETTINGS || edition > 1)
        return refused(2, 0);
    struct settings settings = {0};
    memcpy(&settings, list, 4 * SETTINGS);
    uint64_t refusal = check_settings(&settings, SETTINGS);
    if (refusal == 0 && len % RECORD_BYTES != 0)
        refusal = refused(11, 0);
    if (refusal == 0 && len / RECORD_BYTES > MOST_RECORDS)
        refusal = refused(11, MOST_RECORDS);
    if (refusal != 0)
        return refusal;
    uint32_t count = (uint32_t)(len / RECORD_BYTES);
    refusal = check_records(records, count);
    if (refusal != 0)
        return refusal;
    uint32_t total = EVENTS_AT + EVENT_BYTES * count;
    if (out_len < total)
        return refused(7, total);
    uint32_t header[6] = {total, SETTINGS, HEADER_BYTES, count, EVENTS_AT, edition};
    memcpy(out, header, sizeof header);
    memcpy(out + HEADER_BYTES, list, 4 * SETTINGS);
    uint8_t *at = out + EVENTS_AT;
    uint32_t cycle = 0;
    uint16_t before = 0;
    for (uint32_t i = 0; i < count; i++) {
        uint16_t stamp = stamp_of(records, i);
        cycle += (uint16_t)(stamp - before);
        before = stamp;
        at = put_event(at, (int32_t)cycle, record_pins(records, i));
    }
    return total;
}

static inline uint8_t *put_record(uint8_t *at, uint32_t cycle, uint32_t pins)
{
    uint16_t stamp = (uint16_t)cycle;
    memcpy(at, &stamp, sizeof stamp);
    memcpy(at + 2, &pins, sizeof pins);
    return at + RECORD_BYTES;
}

/* Each event and the NOPs before it; events are at most 2,000,000,000 cycles apart in all. */
static uint32_t count_records(const struct capture *c)
{
    uint32_t records = c->count;
    uint32_t last = 0;
    for (uint32_t i = 0; i < c->count; i++) {
        uint32_t cycle = cycle_of(c->events, i);
        if (cycle - last > REACH)
            records += (cycle - last - 1) / REACH;
        last = cycle;
    }
    return records;
}

uint64_t c_write_export(const uint8_t *bytes, size_t len, uint8_t *out, size_t out_len)
{
    struct capture c;
    uint64_t refusal = check_capture(bytes, len, &c);
    if (refusal != 0)
        return refusal;
    if (c.events != bytes + EVENTS_AT || (c.count > 0 && cycle_of(c.events, 0) > REACH))
        return refused(12, 0);
    uint32_t records = count_records(&c);
    if (records > MOST_RECORDS)
        return refused(12, 0);
    uint32_t total = RECORD_BYTES * records;
    if (out_len < total)
        return refused(7, total);
    uint32_t last = 0;
    for (uint32_t i = 0; i < c.count; i++) {
        uint32_t cycle = cycle_of(c.events, i);
        for (; cycle - last > REACH; last += REACH)
            out = put_record(out, last + REACH, NOP << 16);
        out = put_record(out, cycle, pins_of(c.events, i));
        last = cycle;
    }
    return total;
}

/* ---- the bench player */

enum { MOST_WINDOW = 16384 };

/* A burst that is played: the start of its row, its column and mode, its kept beats. */
struct burst {
    uint32_t row_start, column, mode, beats, writes;
};

static inline uint32_t beat_cell(const struct burst *burst, uint32_t j)
{
    uint32_t within = 2 * pairs_of(burst->mode) - 1;
    uint32_t place = burst->mode & 8 ? burst->column ^ j : burst->column + j;
    return burst->row_start + (burst->column & ~within) + (place & within);
}

/* The bits of a word that a mask keeps. */
static inline uint32_t masked(uint32_t mask)
{
    uint32_t lanes = (mask & 1) | (mask & 2) << 7 | (mask & 4) << 14 | (mask & 8) << 21;
    return lanes * 255;
}

static inline int in_window(const struct burst *burst, uint32_t first, size_t size)
{
    for (uint32_t j = 0; j < burst->beats; j++) {
        if (beat_cell(burst, j) - first >= size)
            return 0;
    }
    return 1;
}

/* The bursts of a clean capture with how many words are read, or refusal 15 by the lowest event. */
static uint64_t find_bursts(const struct capture *c, uint32_t first, size_t size, size_t supply,
                            struct burst *bursts, uint32_t *found)
{
    const struct settings *s = &c->settings;
    uint8_t kept[MOST_EVENTS];
    uint32_t row_start[BANKS] = {0};
    uint32_t mode = s->mode, needed = 0;
    *found = 0;
    if (c->edition == 1)
        keep_pairs(s, c->events, c->count, kept);
    for (uint32_t i = 0; i < c->count; i++) {
        uint32_t pins = pins_of(c->events, i);
        uint32_t bank = bank_of(pins), command = command_of(pins);
        if (command == ACTIVE) {
            row_start[bank] = ((bank << s->row_bits) + (pins & 0x3fff)) << s->column_bits;
        } else if (command == READ || command == WRITE) {
            uint32_t whole = pairs_of(mode);
            uint32_t pairs = c->edition == 1 ? kept[i] : kept_pairs(c->events, c->count, i, whole);
            uint32_t takes = command == WRITE ? 2 * whole : 0;
            struct burst burst = {row_start[bank], column_of(pins, s->column_bits), mode, 2 * pairs, takes};
            if (!in_window(&burst, first, size) || supply < takes)
                return refused(15, i);
            supply -= takes;
            needed += takes ? 0 : burst.beats;
            bursts[(*found)++] = burst;
        } else if (command == MODE_SET && bank == 0) {
            mode = pins & 127;
        }
    }
    return needed;
}

uint64_t c_play(const uint8_t *bytes, size_t len, uint32_t first, uint32_t *window, size_t size,
                const uint32_t *writes, size_t writes_len, uint32_t *reads, size_t reads_len)
{
    struct capture capture;
    struct burst bursts[MOST_EVENTS];
    uint32_t found;
    uint64_t answer = check_capture(bytes, len, &capture);
    if (answer != 0)
        return answer;
    answer = walk(&capture);
    if (is_broken(answer))
        return refused(8, (uint32_t)answer);
    const struct settings *s = &capture.settings;
    if (size > MOST_WINDOW || (uint64_t)first + size > (uint64_t)BANKS << (s->row_bits + s->column_bits))
        return refused(15, 0);
    answer = find_bursts(&capture, first, size, writes_len / 2, bursts, &found);
    if (is_refused(answer))
        return answer;
    if (reads_len < answer)
        return refused(7, (uint32_t)answer);
    uint32_t stays = s->lane == 1 ? 0xffff0000 : 0;
    for (uint32_t i = 0; i < found; i++) {
        const struct burst *burst = bursts + i;
        for (uint32_t j = 0; j < burst->beats; j++) {
            uint32_t *cell = window + (beat_cell(burst, j) - first);
            if (burst->writes) {
                uint32_t keeps = stays | masked(writes[2 * j + 1]);
                *cell = (*cell & keeps) | (writes[2 * j] & ~keeps);
            } else {
                *reads++ = *cell & ~stays;
            }
        }
        writes += 2 * burst->writes;
    }
    return answer;
}
