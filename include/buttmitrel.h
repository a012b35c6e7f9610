/* The judge of a battery bus analyzer, for programs in C (and Rust): `./buttmitrel install` installs this header with the library, and
 * `cc prog.c $(pkg-config --cflags --libs buttmitrel)` links it.
 *
 * Each function answers for any bytes and any lengths; what it answers and what it writes is proved for the Rattle code behind it.
 * Nothing proves the caller: it must pass pointers to as many readable (or writable) elements as the length beside them says, also
 * where the length is 0 (then the pointer may be any that is not null), and no buffer that is written may overlap another one of
 * the same call. The functions keep no state, allocate nothing and may run in several threads at once, where no call writes a list that
 * another one has. So one recorder, and one live feed, takes one call at a time: no offer, in a thread or in an interrupt, while another
 * call on the same recorder runs.
 *
 * A refusal is its number times 2^32 plus its place (paper 01, 'Refusal numbers'; docs/FORMAT.md has each with its cause and cure); a
 * refused call leaves every buffer as it was. A value is below 2^32.
 *
 * A wrong length means the same in every function. A list that holds a state (rules, words and totals of a running feed, the numbers
 * of a running recorder) and is not as long as said here is no state: 16, before anything else. Where the papers give a length a refusal
 * of its own, that is it: 12 for a report, 13 for verdicts, 6 for the rules of a beginning, 3 for the volts of buttmitrel_cells, 15 for
 * a reply and for volts and temps of a sample. Any other list (bounds, three, and what a beginning or a start fills) has 15, after the
 * papers' refusals.
 */
#ifndef BUTTMITREL_H
#define BUTTMITREL_H

#include <stddef.h>
#include <stdint.h>

#ifdef __cplusplus
extern "C" {
#endif

/* The number and the place of a refusal. */
static inline uint32_t buttmitrel_number(uint64_t answer) { return (uint32_t)(answer >> 32); }
static inline uint32_t buttmitrel_place(uint64_t answer) { return (uint32_t)answer; }

/* How many replies a trace has, and so how long its verdict buffer must be; or the refusal of the walk over its sections (1 to 6,
 * 11), which is 2^32 or more. */
uint64_t buttmitrel_reply_count(const uint8_t *trace, size_t trace_len);

/* Judges a trace: 0, with the report of 187 bytes and a verdict (1 to 6) a reply, or the refusal. */
uint64_t buttmitrel_judge(const uint8_t *trace, size_t trace_len, uint8_t *report, size_t report_len, uint8_t *verdicts,
                          size_t verdicts_len);

/* Writes the least and the greatest net charge of a trace in mA seconds: 0, or the refusal; 15 where bounds_len is not 2. */
uint64_t buttmitrel_net_charge(const uint8_t *trace, size_t trace_len, int64_t *bounds, size_t bounds_len);

/* Writes the highest and the lowest of the cell voltages and their sum to three, in this order and in mV, from one walk over them: 0,
 * or refusal 3 unless there are 3 to 12 voltages; then 15 where three_len is not 3. */
uint64_t buttmitrel_cells(const uint16_t *volts, size_t volts_len, uint32_t *three, size_t three_len);

/* Writes the six bytes of a read-word reply: 0, or 15 where reply_len is not 6. */
uint64_t buttmitrel_seal(uint8_t command, uint16_t word, uint8_t *reply, size_t reply_len);

/* 0 for a whole reply, 1 for a wrong address byte, 2 for a wrong packet error code, or 15 where reply_len is not 6. */
uint64_t buttmitrel_check(const uint8_t *reply, size_t reply_len);

/* The live feed: samples and holes one by one as an analyzer runs. The library keeps no state between calls; the caller does, and
 * lends it to each call:
 *   cells, idle, rules   what the feed began with: the cell count, the idle current in mA and the sixteen rules as the 160 bytes of
 *                        a trace's rule section. The same at each call.
 *   words                BUTTMITREL_WORDS x uint64_t: the possible states of the rules, five words a rule from rule 0 on, the lowest
 *                        first. State s of rule i is possible if bit s % 64 of words[5 * i + s / 64] is 1; a rule of time T has the
 *                        states 0 to T: above 0 it alerts, and at T its status is active.
 *   totals               BUTTMITREL_TOTALS x uint64_t: charge in and charge out in mA seconds, unseen ticks, ticks. The last is
 *                        the expected tick.
 * A call may be handed any of these whatever: what is no state (a rule with no possible state or one above its time, rules outside
 * their limits, totals that so many ticks can't give) is refusal 16, and so are other lengths of rules, words and totals. */
#define BUTTMITREL_WORDS 80
#define BUTTMITREL_TOTALS 4
#define BUTTMITREL_RULES 160
#define BUTTMITREL_REPORT 187

/* Begins a feed: 0, with every rule at state 0 and nothing counted, or refusal 3, 4, 6 or 7; then 15 where words_len is not 80 or
 * totals_len is not 4. */
uint64_t buttmitrel_live_begin(uint8_t cells, uint16_t idle, const uint8_t *rules, size_t rules_len, uint64_t *words,
                               size_t words_len, uint64_t *totals, size_t totals_len);

/* Takes the sample of the expected tick: 0, or 16, then 15 unless volts and temps have a number for each cell, then 9 at the
 * expected tick for any other tick. Millivolts, mA, tenths of a degree. */
uint64_t buttmitrel_live_sample(uint8_t cells, uint16_t idle, const uint8_t *rules, size_t rules_len, uint64_t *words,
                                size_t words_len, uint64_t *totals, size_t totals_len, uint32_t tick, int16_t current,
                                int16_t board, const uint16_t *volts, size_t volts_len, const int16_t *temps, size_t temps_len);

/* Takes a hole from the expected tick up to its last tick: 0, or 16, then 8 at the expected tick for a last tick before it, and
 * for FFFFFFFFh. */
uint64_t buttmitrel_live_hole(uint8_t cells, uint16_t idle, const uint8_t *rules, size_t rules_len, uint64_t *words,
                              size_t words_len, uint64_t *totals, size_t totals_len, uint32_t last);

/* Writes the report of a state, as the judge's but with no first ticks (FFFFFFFFh): 0, or 16, then 12 where report_len is not 187. */
uint64_t buttmitrel_live_report(uint8_t cells, uint16_t idle, const uint8_t *rules, size_t rules_len, const uint64_t *words,
                                size_t words_len, const uint64_t *totals, size_t totals_len, uint8_t *report, size_t report_len);

/* The recorder: the writing side, for a capture card. It is offered samples by tick and keeps them until they are drained; every tick
 * that it does not keep becomes part of a hole. The library keeps no state between calls; the caller does, and lends it to each call:
 *   recorder             BUTTMITREL_RECORDER x uint32_t: the cell count; the number of samples that the store has room for; the next
 *                        tick; how many holes there are; how many samples are stored and not drained; how many were ever stored.
 *   store                BUTTMITREL_STORE(cells, number) bytes or more, that is 8,192 + number x (8 + 4 x cells): first 1,024 places
 *                        of 8 bytes for holes, recorder[3] of them in use, then as many places of 8 + 4 x cells bytes for samples as
 *                        the number says. Where a sample is stored, the oldest is in place (recorder[5] - recorder[4]) % recorder[1],
 *                        the next in the one behind it, and behind the last place is the first. Holes and samples have the bytes of
 *                        a trace. Bytes past that length stay as they were. Before the first offer the store may hold anything.
 * Between calls the caller may read both, and nobody may write them: then every tick below recorder[2] is in exactly one sample,
 * drained or stored, or in exactly one hole. Both may be saved and lent again later, together and of the same moment: a store of another
 * moment is not noticed, and samples drained since they were saved would be drained twice.
 * Once all is drained, these bytes are a trace, which the judge accepts where head and rules pass (u16: the low byte first): 1, cells,
 * u16 idle, u16 16, the 160 bytes of the rules, u16 recorder[3], the first 8 x recorder[3] bytes of store, u16 0, u16 recorder[5], all
 * that was drained, in order. Once recorder[5] is 65,535 every offer that is not refused answers 1, for good: drain, write the trace,
 * start another.
 * A call may be handed any of these whatever: what is no state (cells not 3 to 12, a number that the store has no room for, more than
 * 1,024 holes, more samples stored than the number says) is refusal 16, and so is another length of recorder. */
#define BUTTMITREL_RECORDER 6
#define BUTTMITREL_HOLES 8192 /* bytes: room for 1,024 holes */
#define BUTTMITREL_SAMPLE(cells) (8 + 4 * (size_t)(cells))
#define BUTTMITREL_STORE(cells, number) (BUTTMITREL_HOLES + (size_t)(number) * BUTTMITREL_SAMPLE(cells))

/* Starts a recorder with room for so many samples, which may be none: 0, with next tick 0 and nothing kept, or refusal 3; then 15
 * where recorder_len is not 6. A start on a running recorder forgets what it has stored, and its holes. */
uint64_t buttmitrel_recorder_start(uint8_t cells, uint32_t number, uint32_t *recorder, size_t recorder_len);

/* Offers the sample of the next tick or of a later one: 0 where it is stored, 1 where its tick became part of a hole. It is stored
 * exactly while fewer samples than the number says are stored and not drained, and fewer than 65,535 were ever stored. Ticks that were
 * skipped become part of a hole too, of the same one where the sample is not stored; a hole that touches the last one is joined to it.
 * Or 16, then 15 unless volts and temps have a number for each cell, then 9 at the next tick for a tick before it and for FFFFFFFFh,
 * then 17 where a new hole is needed and there are 1,024. After a 17 the same tick is stored if it is the next one, and a drain has made
 * room for it; a later one is refused again, and the trace is at its end. Millivolts, mA, tenths of a degree. */
uint64_t buttmitrel_recorder_offer(uint32_t *recorder, size_t recorder_len, uint8_t *store, size_t store_len, uint32_t tick,
                                   int16_t current, int16_t board, const uint16_t *volts, size_t volts_len, const int16_t *temps,
                                   size_t temps_len);

/* Drains the oldest stored samples to the front of buffer, as many whole ones as it holds: how many, or 16. What is behind them in
 * buffer stays as it was. Holes are not drained. */
uint64_t buttmitrel_recorder_drain(uint32_t *recorder, size_t recorder_len, const uint8_t *store, size_t store_len, uint8_t *buffer,
                                   size_t buffer_len);

#ifdef __cplusplus
}
#endif

#endif
