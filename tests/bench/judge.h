/* A hand-written judge, burst list, schedule writer, index of open rows, player, and reader
 * and writer of exports for document 01 and the customer requests that have landed, made for
 * speed.
 *
 * Every answer is one number: bits 56-63 the refusal (0: none), bits 48-55 the broken
 * rule (0: none), bits 0-31 the place, the event, or the count: events judged, cells
 * written, bytes written; of an open row 1 in bits 48-55 and the row. */
#ifndef MORGAZELL_BENCH_JUDGE_H
#define MORGAZELL_BENCH_JUDGE_H

#include <stddef.h>
#include <stdint.h>

uint64_t c_judge(const uint8_t *bytes, size_t len);

uint64_t c_cells(const uint8_t *bytes, size_t len, uint32_t *out, size_t out_len);

uint64_t c_schedule(const uint32_t *settings, size_t settings_len,
                    const uint32_t *requests, size_t requests_len, uint32_t policy,
                    uint8_t *out, size_t out_len);

/* Of a bank: how many openings stand before its own, and how many it has. */
struct c_bank {
    uint32_t before, count;
};

uint64_t c_open_row(const uint8_t *bytes, size_t len, uint32_t bank, uint32_t event,
                    struct c_bank *records, size_t records_len, uint32_t *index, size_t index_len);

uint64_t c_read_export(const uint8_t *records, size_t len, const uint32_t *settings,
                       size_t settings_len, uint32_t edition, uint8_t *out, size_t out_len);

uint64_t c_write_export(const uint8_t *bytes, size_t len, uint8_t *out, size_t out_len);

uint64_t c_play(const uint8_t *bytes, size_t len, uint32_t first, uint32_t *window, size_t window_len,
                const uint32_t *writes, size_t writes_len, uint32_t *reads, size_t reads_len);

#endif
