/* Morgazell for C and C++ programs on x86-64 Linux: judging captures of Mobile DDR commands, listing the cells of their
 * bursts, writing schedules, blanking addresses, reading and writing exports of a handheld analyser, telling which rows were
 * open, playing captures against lent cells. Valid C99 and C++17.
 *
 * Every call but morgazell_version answers one number:
 *
 *     bits 56-63   the refusal, by its number below; 0: not refused
 *     bits 48-55   the broken rule, 1 to 15 without 6; 0: none (only morgazell_judge and morgazell_recording give one); 1
 *                  where a row is open (only morgazell_open_row)
 *     bits 32-47   0
 *     bits  0-31   refused:           the place
 *                  a rule is broken:  the event, from 0; the events before it were judged and broke none
 *                  neither, a count:  events judged, cells written, bytes written, words read
 *                  morgazell_open_row: the row, 0 where the bank is idle
 *
 * Nothing is lost by that: refusal and place, rule and event, and the count are got back from the number, and what else the
 * judge knows of a broken event, its cycle, stands in the capture.
 *
 *     refusal  given when                                                     place
 *        1     the capture is under 80 or over 64,080 bytes, or where its     0
 *              settings count is 16 under 88 or over 64,088, or not as long
 *              as it says; a recording may be longer
 *        2     the capture's header is wrong; a settings list not of 14       0
 *              words, or with an edition above 1
 *        3     a setting is out of its range, or the mode word not valid;     the lowest such setting; 7
 *              else tRC is above tRAS + tRP
 *       11     records not of 6 bytes each; over 8,000 of them; a stamp that    0; 8,000; the lowest such record
 *              is that of the record before
 *        4     pin bits 20-31 are set, or 21-31 with 16 settings, or a        the lowest such event or record
 *              cycle is above 2,000,000,000 or does not rise
 *       10     a row policy that is none, neither 0 nor 1                     0
 *        5     over 2,000 requests; else bits 27-30 of a request are set,     2,000; the lowest such request
 *              or the part lacks its cell
 *        6     refresh cannot be kept                                         the request
 *        8     cells or rows are asked of a capture that is not clean, or     the event that breaks a rule
 *              it is to be played
 *       13     a bank above 3, or an event at or above the number of events   0
 *       12     an export of a capture with 16 settings, or with a first       0
 *              cycle above 65,535, or that would have over 8,000 records
 *       15     a window of over 16,384 words, or that leaves the part; else   0; the lowest such event
 *              a kept beat outside the window, or too few words or masks
 *        7     the buffer is shorter than the answer                          the length needed, in its elements
 *
 * They are tried in this order and the first that applies is given. morgazell_judge and morgazell_recording can give 1 to 4,
 * morgazell_cells 1 to 4, 8 and 7, morgazell_schedule 2, 3, 10, 5, 6 and 7, morgazell_blank 1 to 4 and 7,
 * morgazell_open_row 1 to 4, 8, 13 and 7, for its records before its index, morgazell_read_export 2, 3, 11, 4 and 7,
 * morgazell_write_export 1 to 4, 12 and 7, morgazell_play 1 to 4, 8, 15 and 7.
 *
 * A capture is words of 32 bits, lowest byte first: six of header (its length in bytes; 14 or 16, the settings count; 24,
 * where they start; the number of events, at most 8,000; 80 or 88, where these start; 0 or 1, the edition), the settings,
 * and two words an event, cycle and pins: A0-A13 in bits 0-13, BA0 and BA1 in 14 and 15, CS#, RAS#, CAS# and WE# in 16-19
 * and, with 16 settings, CKE low in 20. So event i stands at byte 80 + 8 * i with 14 settings, at byte 88 + 8 * i with 16.
 *
 * In edition 1 a READ may cut the last write short, and a PRECHARGE the last write of a row that it closes, unless the write
 * has auto precharge: a WRITE at cycle k keeps of its pairs of beats at most t - tWTR - k - 1 if READ comes at t,
 * t - tWR - k - 1 if PRECHARGE does. Rules 10 and 11 ask that it is one at least. In edition 0 they ask that all data is in.
 *
 *     setting  name and range                        setting  name and range, all 1 to 10,000 cycles but tREFI
 *        0     lane code, 1 or 2: 2 or 4 bytes wide     4-12  tRCD, tRP, tRAS, tRC, tRRD, tWR, tWTR, tRFC, tMRD
 *        1     row bits, 12 to 14                         13  tREFI, 1 to 1,000,000: one refresh is owed for each
 *        2     column bits, 8 to 11                       14  tXP, from the end of power-down  (with 16 settings)
 *        3     mode word at cycle 0                       15  tXSR, from the end of self refresh  (with 16 settings)
 *
 *     rule  what it asks of an event
 *       1   the row of an ACTIVE is one of the part's
 *       2   MODE REGISTER SET writes a valid mode word to register 00, or anything to register 10
 *       3   ACTIVE finds its bank idle, READ and WRITE find theirs open, AUTO REFRESH and MODE REGISTER SET all idle
 *       4   a command, or CKE falling, waits tRFC from AUTO REFRESH and tMRD from MODE REGISTER SET
 *       5   ACTIVE waits tRP from its bank's precharge, AUTO REFRESH and MODE REGISTER SET from every bank's
 *       7   ACTIVE waits tRRD from the ACTIVEs of other banks
 *       8   READ and WRITE wait tRCD from their bank's ACTIVE
 *       9   PRECHARGE waits tRAS from the ACTIVE of what it closes
 *      10   PRECHARGE waits tWR from the write data of what it closes; in edition 1, tWR + 2 from the WRITE
 *      11   READ waits tWTR from the last write data; in edition 1, tWTR + 2 from the last WRITE if that has no auto precharge
 *      12   WRITE, AUTO REFRESH and MODE REGISTER SET wait until the data of the last READ have left the bus
 *      13   READ does not cut a read with auto precharge, WRITE no such write, BURST TERMINATE neither, nor any write
 *      14   at most eight refreshes are owed: one more at each multiple of tREFI since cycle 0 or the end of self refresh,
 *           one less at each AUTO REFRESH with CKE high if one is owed; not asked in self refresh
 *      15   CKE falls with NOP, DESELECT or AUTO REFRESH and after the data, rises with NOP or DESELECT, and nothing else
 *           comes asleep; what follows waits tXP from the end of power-down, tXSR from that of self refresh
 *           (only with 16 settings)
 *
 * Memory. Lengths count elements of the pointer's type. A pointer may be NULL where its length is 0; else it points to
 * that many elements, aligned for their type (a capture, being bytes, may stand anywhere). What is lent to be written must
 * not overlap an input or anything else that is lent. Inputs may overlap each other, and must stay as they are until the call
 * returns: a mapped file may be written to or become shorter (examples/judge_files.c says what to do then). Nothing at or
 * behind out + out_len is read or written, inputs are not written, and a refused call leaves every lent buffer as it was. So a
 * call with an empty buffer asks what length is needed: refusal 7 says.
 *
 * Threads. No call allocates, keeps anything between calls, or asks anything of the system: any number of threads may
 * call at the same time, each with buffers of its own; inputs may be shared.
 *
 * Stack. The most that a call takes, in bytes, the return address included: morgazell_judge 1280, morgazell_recording 1280,
 * morgazell_cells 1280, morgazell_schedule 66560, morgazell_blank 640, morgazell_open_row 1408, morgazell_read_export 512,
 * morgazell_write_export 512, morgazell_play 1536, morgazell_version 136; besides, what memcpy and memset of the C library take.
 * The archive wants nothing of anyone but these two, and not even these where it is built for the smallest size. */
#ifndef MORGAZELL_H
#define MORGAZELL_H

#include <stddef.h>
#include <stdint.h>

#ifdef __cplusplus
extern "C" {
#endif

/* The version of this header, in the form of morgazell_version: a program that was compiled with one version and linked with
 * another can see it. */
#define MORGAZELL_VERSION @NUMBER@

/* The refusals by name. */
#define MORGAZELL_REFUSED_LENGTH 1
#define MORGAZELL_REFUSED_HEADER 2
#define MORGAZELL_REFUSED_SETTING 3
#define MORGAZELL_REFUSED_EVENT 4
#define MORGAZELL_REFUSED_REQUEST 5
#define MORGAZELL_REFUSED_REFRESH 6
#define MORGAZELL_REFUSED_BUFFER 7
#define MORGAZELL_REFUSED_BROKEN 8
#define MORGAZELL_REFUSED_POLICY 10
#define MORGAZELL_REFUSED_RECORDS 11
#define MORGAZELL_REFUSED_EXPORT 12
#define MORGAZELL_REFUSED_QUESTION 13
#define MORGAZELL_REFUSED_PLAY 15

/* The most that there can be: events and bytes of a capture, bytes of a schedule, cells of a burst list, requests, records and
 * bytes of an export, words of an index of open rows, words of a window. A buffer of that many bytes, cells or words is never
 * too short; words read are at most as many as cells. */
#define MORGAZELL_MOST_EVENTS 8000
#define MORGAZELL_LONGEST_CAPTURE 64088
#define MORGAZELL_LONGEST_SCHEDULE 64080
#define MORGAZELL_MOST_CELLS 128000
#define MORGAZELL_MOST_REQUESTS 2000
#define MORGAZELL_MOST_RECORDS 8000
#define MORGAZELL_LONGEST_EXPORT 48000
#define MORGAZELL_MOST_INDEX 24000
#define MORGAZELL_MOST_WINDOW 16384

/* What judges: 10000 * the first number of the version + 100 * the second + the third; 10203 for 1.2.3. */
uint32_t morgazell_version(void);

/* What the rules say of these bytes as a capture. */
uint64_t morgazell_judge(const uint8_t *capture, size_t len);

/* What the rules say of these bytes as a recording: a capture with any number of events whose length in bytes fits its first
 * word, so 536,870,901 with 14 settings and 536,870,900 with 16. It is judged whole, as a capture is, and of a capture both
 * calls say the same. Nothing else takes recordings. */
uint64_t morgazell_recording(const uint8_t *recording, size_t len);

/* The cell numbers of every kept beat of a clean capture, in event order, from out[0] on; what lies behind them in the
 * buffer stays. MORGAZELL_MOST_CELLS elements are always enough. */
uint64_t morgazell_cells(const uint8_t *capture, size_t len, uint32_t *out, size_t out_len);

/* Row policies: a row stays open behind its burst, until another row of its bank is asked for or a refresh is due; or
 * every burst closes its row by auto precharge. */
#define MORGAZELL_OPEN_ROWS 0
#define MORGAZELL_CLOSED_ROWS 1

/* The schedule of the requests, as a whole capture from out[0] on; bytes behind it stay. MORGAZELL_LONGEST_SCHEDULE
 * bytes are always enough. The settings are the first fourteen: a schedule never sleeps. Its edition is 0. A request has bit 31 set for a
 * write, and in bits 0-26 the cell where its burst starts. */
uint64_t morgazell_schedule(const uint32_t *settings, size_t settings_len,
                            const uint32_t *requests, size_t requests_len, uint32_t policy,
                            uint8_t *out, size_t out_len);

/* The capture with its addresses blanked, from out[0] on, as long as it was; bytes behind it stay.
 * MORGAZELL_LONGEST_CAPTURE bytes are always enough. At 0 are A0-A9 and A11-A13 of READ and WRITE, and A0-A13 of an ACTIVE whose row is one of the part's, with CKE
 * high or low; all else is as it was: A10, banks, cycles, settings, rows that the part lacks, and all pins of every other
 * event, whatever stands on them. morgazell_judge says of what was written what it says of the capture. */
uint64_t morgazell_blank(const uint8_t *capture, size_t len, uint8_t *out, size_t out_len);

/* The records of a handheld analyser as a capture of the settings, which are fourteen, and of the edition, 0 or 1, from out[0]
 * on; bytes behind it stay. A record is six bytes: a stamp of 16 bits, which counts cycles and goes round, and the pins, lowest
 * byte first. The first cycle is the first stamp; each later one adds the difference of stamps modulo 65,536.
 * MORGAZELL_LONGEST_SCHEDULE bytes are always enough. What is read is never refused as a capture. */
uint64_t morgazell_read_export(const uint8_t *records, size_t len, const uint32_t *settings, size_t settings_len,
                               uint32_t edition, uint8_t *out, size_t out_len);

/* The capture as such records, from out[0] on; bytes behind them stay. Where the next event is more than 65,535 cycles away a
 * NOP comes 65,535 cycles after the last record, again and again. Reading them back under the capture's settings and edition
 * gives the capture with those NOPs. MORGAZELL_LONGEST_EXPORT bytes are always enough. */
uint64_t morgazell_write_export(const uint8_t *capture, size_t len, uint8_t *out, size_t out_len);

/* Of a bank: how many openings stand before its own in the index, and how many it has. */
struct morgazell_bank {
    uint32_t before, count;
};

/* The row of the bank that was open after the event of a clean capture, by event numbers and not cycles. records[0] to
 * records[3] are filled, and the index from index[0] on: three words an opening, bank 0's first, its row, the event of the
 * ACTIVE that began it and the last event after which it still stood open. What lies behind them stays, and a refused call
 * leaves both as they were. MORGAZELL_MOST_INDEX words are always enough. */
uint64_t morgazell_open_row(const uint8_t *capture, size_t len, uint32_t bank, uint32_t event,
                            struct morgazell_bank *records, size_t records_len, uint32_t *index, size_t index_len);

/* A clean capture played, event by event, against a window of the part: window[i] is cell first + i. `writes` has word and mask
 * in turn; a mask bit of 1 keeps the byte of its lane. Each WRITE takes as many words as its burst length, kept or not, and
 * stores those of its kept beats; each READ puts a word for each kept beat behind the last in `reads`. The answer counts the
 * words read; what lies behind them stays. With lane code 1 two bytes of a word count: the upper half of a window word stays,
 * and a word read has zeros there. MORGAZELL_MOST_CELLS words of reads are always enough. A refused call leaves window and
 * reads; window, reads and inputs must not overlap. */
uint64_t morgazell_play(const uint8_t *capture, size_t len, uint32_t first, uint32_t *window, size_t window_len,
                        const uint32_t *writes, size_t writes_len, uint32_t *reads, size_t reads_len);

static inline unsigned morgazell_refusal(uint64_t answer) { return (unsigned)(answer >> 56); }

static inline unsigned morgazell_rule(uint64_t answer) { return (unsigned)(answer >> 48) & 255; }

/* The place, the event, the count or the row. */
static inline uint32_t morgazell_value(uint64_t answer) { return (uint32_t)answer; }

#ifdef __cplusplus
}
#endif

#endif
