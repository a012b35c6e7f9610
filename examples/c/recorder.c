/* A capture card with room for six samples. A sample comes every second, but only every five seconds can the card take three away, so
 * that some find no room; and for three seconds the bus is silent. The trace that it writes has a hole for each second that it lost.
 *
 *     ./buttmitrel install
 *     cc -o recorder_c examples/c/recorder.c $(pkg-config --cflags --libs buttmitrel)
 *     ./recorder_c >card.trace && ./buttmitrel explain card.trace
 */
#include <inttypes.h>
#include <stdio.h>
#include <stdlib.h>
#include <string.h>

#include "buttmitrel.h"

enum { CELLS = 3, ROOM = 6, TICKS = 30, SAMPLE = BUTTMITREL_SAMPLE(CELLS) };

static uint32_t recorder[BUTTMITREL_RECORDER];
static uint8_t store[BUTTMITREL_STORE(CELLS, ROOM)];
static uint8_t disk[TICKS * SAMPLE];
static uint32_t drained;

/* The value of a call. A refusal ends the card. */
static uint32_t value(uint64_t answer)
{
    if (buttmitrel_number(answer) == 0)
        return (uint32_t)answer;
    fprintf(stderr, "refused %" PRIu32 " at %" PRIu32 "\n", buttmitrel_number(answer), buttmitrel_place(answer));
    exit(1);
}

/* What the bus shows: one cell is over 4,200 mV from tick 11 to tick 23. */
static void offer(uint32_t tick)
{
    uint16_t volts[CELLS] = {tick >= 11 && tick <= 23 ? 4250 : 4150, 4140, 4130};
    int16_t temps[CELLS] = {250, 250, 250};
    if (value(buttmitrel_recorder_offer(recorder, BUTTMITREL_RECORDER, store, sizeof store, tick, 1500, 300, volts, CELLS, temps,
                                        CELLS)) == 1)
        fprintf(stderr, "tick %" PRIu32 ": no room\n", tick);
}

static uint32_t drain(void)
{
    uint8_t buffer[3 * SAMPLE];
    uint32_t count = value(buttmitrel_recorder_drain(recorder, BUTTMITREL_RECORDER, store, sizeof store, buffer, sizeof buffer));
    memcpy(disk + drained * SAMPLE, buffer, count * SAMPLE);
    drained += count;
    return count;
}

static void put(const void *bytes, size_t len) { fwrite(bytes, 1, len, stdout); }
static void put_u16(uint32_t number) { put((uint8_t[]){number & 255, number >> 8 & 255}, 2); }

/* Cell over voltage above 4,200 mV for three seconds, recovered below 4,100 mV; the other rules are off. Idle current 100 mA. */
static void write_trace(void)
{
    const uint8_t head[] = {1, CELLS, 100, 0}, rules[BUTTMITREL_RULES] = {0x68, 0x10, 0, 0, 0x04, 0x10, 0, 0, 3, 0};
    put(head, sizeof head);
    put_u16(16);
    put(rules, sizeof rules);
    put_u16(recorder[3]);
    put(store, 8 * recorder[3]); /* the holes */
    put_u16(0);                  /* no replies */
    put_u16(drained);
    put(disk, drained * SAMPLE);
}

int main(void)
{
    value(buttmitrel_recorder_start(CELLS, ROOM, recorder, BUTTMITREL_RECORDER));
    for (uint32_t tick = 0; tick < TICKS; tick++) {
        if (tick < 20 || tick > 22)
            offer(tick);
        if (tick % 5 == 4)
            drain();
    }
    while (drain() > 0)
        continue;
    write_trace();
    return fflush(stdout) == 0 && !ferror(stdout) ? 0 : 2;
}
