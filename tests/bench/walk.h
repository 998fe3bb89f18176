/* Included by judge.c, once for each EDITION under the name WALK. */

/* The number of events if they are clean, else the first broken rule and its event. */
static uint64_t WALK(const struct settings *settings, const uint8_t *events, uint32_t count)
{
    /* Every handler jumps to the next itself, which branch predictors like better than one
     * shared jump. Labels as values are an extension that gcc and clang have.
     *
     * By pins 16-20: the first 16 with CKE high, then those with CKE low. A table for each
     * state of sleep, so that what is awake pays nothing for it: awake, asleep, and awake
     * with no command since sleep, whose wait may not be over. */
    static const void *const awake[32] = {
        &&mode_set, &&idle,  &&access, &&idle,  &&precharge, &&idle,  &&terminate,  &&idle,
        &&refresh,  &&idle,  &&access, &&idle,  &&active,    &&idle,  &&idle,       &&idle,
        &&breaks,   &&enter, &&breaks, &&enter, &&breaks,    &&enter, &&breaks,     &&enter,
        &&retire,   &&enter, &&breaks, &&enter, &&breaks,    &&enter, &&enter,      &&enter,
    };
    static const void *const asleep[32] = {
        &&breaks, &&leave, &&breaks, &&leave, &&breaks, &&leave, &&breaks, &&leave,
        &&breaks, &&leave, &&breaks, &&leave, &&breaks, &&leave, &&leave,  &&leave,
        &&breaks, &&stay,  &&breaks, &&stay,  &&breaks, &&stay,  &&breaks, &&stay,
        &&breaks, &&stay,  &&breaks, &&stay,  &&breaks, &&stay,  &&stay,   &&stay,
    };
    static const void *const waking[32] = {
        &&woken,  &&rest,  &&woken,  &&rest,  &&woken,  &&rest,  &&woken,  &&rest,
        &&woken,  &&rest,  &&woken,  &&rest,  &&woken,  &&rest,  &&rest,   &&rest,
        &&breaks, &&enter, &&breaks, &&enter, &&breaks, &&enter, &&breaks, &&enter,
        &&retire, &&enter, &&breaks, &&enter, &&breaks, &&enter, &&enter,  &&enter,
    };
    const struct settings s = *settings;
    const int32_t highest_row = (1 << s.row_bits) - 1;
    struct part part = {
        .active = {NEVER, NEVER, NEVER, NEVER},
        .turn = {1 + s.wtr, latency_of(s.mode)},
        .settle = {1 + s.wr, 0},
    };
    struct now now = {
        .due = due_from(&s, 0),
        .last = READ_SLOT,
        .pairs = pairs_of(s.mode),
        .latency = latency_of(s.mode),
    };
    const uint8_t *at = events;
    const uint8_t *end = events + EVENT_BYTES * (size_t)count;
    int32_t t;
    uint32_t pins, bank;

#define NEXT_IN(handlers)             \
    do {                              \
        if (at == end)                \
            return count;             \
        t = (int32_t)load(at);        \
        pins = load(at + 4);          \
        at += EVENT_BYTES;            \
        bank = bank_of(pins);         \
        goto *(handlers)[pins >> 16]; \
    } while (0)
#define NEXT NEXT_IN(awake)

    NEXT;

active: {
    int32_t row = pins & 0x3fff;
    int32_t is_open = (int32_t)(now.open << (31 - bank));
    int32_t others = other_active(now, bank);
    if (((t - part.precharged[bank]) | (t - others) | (t - now.busy) | (now.due - t)
         | (highest_row - row) | is_open) < 0)
        goto breaks;
    now.open |= 1u << bank;
    part.active[bank] = t;
    part.recovered[bank] = 0;
    now.spaced_same = others;
    now.spaced = t + s.rrd;
    now.active_bank = bank;
    NEXT;
}

access: {
    /* An open bank had its ACTIVE when the part was no longer busy: rule 4 is kept. */
    uint32_t read = pins >> 19 & 1;
    uint32_t automatic = pins >> 10 & 1;
    int32_t is_idle = ~(int32_t)(now.open << (31 - bank));
    int32_t active = part.active[bank];
    if (((t - active - s.rcd) | (t - part.from[read]) | (now.due - t) | is_idle) < 0)
        goto breaks;
    int32_t over = t + now.pairs;
    /* A cut write's data ends one cycle after the cut; a whole one's has ended by then. */
    part.recovered[now.last] = sooner(now.recovered, t + 1 + s.wr);
    now.last = bank | read << 2 | automatic << 3;
    now.recovered = (EDITION == 0 ? over + 1 : t + 2) + s.wr;
    part.from[read] = t + (now.pairs & -(int32_t)automatic);
    part.from[read ^ 1] = over + part.turn[read];
    if (EDITION == 1) {
        now.written = over + 1;
        if (now.last < READ_SLOT)
            part.from[1] = t + 2 + s.wtr;
    }
    if (automatic) {
        part.precharged[bank] = later(over + part.settle[read], active + s.ras) + s.rp;
        now.open ^= 1u << bank;
    }
    NEXT;
}

precharge:
    part.recovered[now.last] = now.recovered;
    if (pins & A10)
        goto precharge_all;
    {
        uint32_t is_open = now.open >> bank & 1;
        int32_t early = (t - part.active[bank] - s.ras) | (t - part.recovered[bank]);
        if (((early & -(int32_t)is_open) | (t - now.busy) | (now.due - t)) < 0)
            goto breaks;
        part.precharged[bank | (is_open ^ 1) << 2] = t + s.rp;
        now.open &= ~(1u << bank);
        if (now.last == (bank | READ_SLOT))
            part.from[0] = sooner(part.from[0], t + now.latency);
        if (EDITION == 1 && now.last == bank)
            now.written = sooner(now.written, t - s.wr);
        NEXT;
    }

precharge_all: {
    int32_t early = (t - now.busy) | (now.due - t);
    for (uint32_t b = 0; b < BANKS; b++) {
        int32_t wait = (t - part.active[b] - s.ras) | (t - part.recovered[b]);
        early |= wait & -(int32_t)(now.open >> b & 1);
    }
    if (early < 0)
        goto breaks;
    for (uint32_t b = 0; b < BANKS; b++)
        part.precharged[b] = now.open >> b & 1 ? t + s.rp : part.precharged[b];
    now.open = 0;
    if ((now.last & (READ_SLOT | AUTO_SLOT)) == READ_SLOT)
        part.from[0] = sooner(part.from[0], t + now.latency);
    if (EDITION == 1 && now.last < READ_SLOT)
        now.written = sooner(now.written, t - s.wr);
    NEXT;
}

terminate:
    if (((t - now.busy) | (t - terminable(&s, &part, now, EDITION)) | (now.due - t)) < 0)
        goto breaks;
    /* A burst that must not be cut is over here, so its end is not moved. */
    part.from[0] = sooner(part.from[0], t + now.latency);
    NEXT;

refresh:
    if (((t - now.busy) | (t - all_precharged(&part)) | (t - part.from[0]) | (now.due - t)) < 0
        || now.open != 0)
        goto breaks;
    now.busy = t + s.rfc;
    now.due = due_after_refresh(&s, now.due, t);
    NEXT;

mode_set:
    if (((t - now.busy) | (t - all_precharged(&part)) | (t - part.from[0]) | (now.due - t)) < 0
        || now.open != 0 || !is_good_mode_set(pins))
        goto breaks;
    now.busy = t + s.mrd;
    if (bank == 0) {
        now.pairs = pairs_of(pins);
        now.latency = latency_of(pins & 127);
        part.turn[1] = now.latency;
    }
    NEXT;

idle:
    if (t > now.due)
        goto breaks;
    NEXT;

enter:
    if (((t - now.busy) | (t - data_over(&s, &part, now, EDITION)) | (t - now.ready) | (now.due - t))
        < 0)
        goto breaks;
    now.wake = s.xp;
    NEXT_IN(asleep);

    /* By rule 5 the data of every write is over. */
retire:
    if (((t - now.busy) | (t - all_precharged(&part)) | (t - part.from[0]) | (t - now.ready)
         | (now.due - t)) < 0 || now.open != 0)
        goto breaks;
    now.wake = s.xsr;
    now.due = UNASKED;
    NEXT_IN(asleep);

stay:
    if (t > now.due)
        goto breaks;
    NEXT_IN(asleep);

leave:
    if (t > now.due)
        goto breaks;
    now.ready = t + now.wake;
    now.wake = 0;
    if (now.due == UNASKED)
        now.due = due_from(&s, t);
    NEXT_IN(waking);

rest:
    if (t > now.due)
        goto breaks;
    NEXT_IN(waking);

woken:
    if (t < now.ready)
        goto breaks;
    goto *awake[pins >> 16];

breaks:
    part.recovered[now.last] = now.recovered;
    return broken(lowest_rule(&s, &part, now, t, pins, EDITION),
                  (uint32_t)((at - events) / EVENT_BYTES - 1));
#undef NEXT
#undef NEXT_IN
}
