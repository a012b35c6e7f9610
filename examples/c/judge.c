/* Judges a trace with the proved library; without a trace it feeds a few samples and a hole live.
 *
 *     ./buttmitrel install
 *     cc -o judge_c examples/c/judge.c $(pkg-config --cflags --libs buttmitrel)
 *     ./judge_c examples/hidden_over_voltage.trace
 */
#include <inttypes.h>
#include <stdio.h>
#include <stdlib.h>

#include "buttmitrel.h"

#define CELLS 3
#define IDLE 100

static int refused(uint64_t answer)
{
    printf("refused %" PRIu32 " at %" PRIu32 "\n", buttmitrel_number(answer), buttmitrel_place(answer));
    return 1;
}

static int judge(const uint8_t *trace, size_t len)
{
    uint8_t report[BUTTMITREL_REPORT];
    int64_t net[2];
    uint64_t count = buttmitrel_reply_count(trace, len);
    if (buttmitrel_number(count) != 0)
        return refused(count);
    size_t replies = (size_t)count;
    uint8_t *verdicts = malloc(replies + 1);
    if (verdicts == NULL)
        return 2;

    uint64_t answer = buttmitrel_judge(trace, len, report, sizeof report, verdicts, replies);
    if (answer == 0)
        answer = buttmitrel_net_charge(trace, len, net, 2);
    if (answer != 0) {
        free(verdicts);
        return refused(answer);
    }
    printf("accepted\nC %d D %d fuse %d\n", report[160], report[161], report[162]);
    printf("net %" PRId64 " to %" PRId64 "\nverdicts ", net[0], net[1]);
    for (size_t i = 0; i < replies; i++)
        printf("%d", verdicts[i]);
    printf("\n");
    free(verdicts);
    return 0;
}

/* What the caller of the live feed keeps. */
static uint8_t rules[BUTTMITREL_RULES];
static uint64_t words[BUTTMITREL_WORDS], totals[BUTTMITREL_TOTALS];

static uint64_t sample(uint32_t tick, uint16_t highest)
{
    uint16_t volts[CELLS] = {highest, 4140, 4130};
    int16_t temps[CELLS] = {250, 250, 250};
    return buttmitrel_live_sample(CELLS, IDLE, rules, BUTTMITREL_RULES, words, BUTTMITREL_WORDS, totals, BUTTMITREL_TOTALS, tick,
                                  1500, 300, volts, CELLS, temps, CELLS);
}

static void show(void)
{
    uint8_t report[BUTTMITREL_REPORT];
    if (buttmitrel_live_report(CELLS, IDLE, rules, BUTTMITREL_RULES, words, BUTTMITREL_WORDS, totals, BUTTMITREL_TOTALS, report,
                               sizeof report) == 0)
        printf("tick %" PRIu64 ": alert %d status %d\n", totals[3], report[0], report[1]);
}

/* Cell over voltage above 4,200 mV for three seconds, recovered below 4,100 mV; the other rules are off. */
static int feed(void)
{
    const uint8_t over_voltage[10] = {0x68, 0x10, 0, 0, 0x04, 0x10, 0, 0, 3, 0};
    for (size_t i = 0; i < sizeof over_voltage; i++)
        rules[i] = over_voltage[i];
    uint64_t answer = buttmitrel_live_begin(CELLS, IDLE, rules, BUTTMITREL_RULES, words, BUTTMITREL_WORDS, totals, BUTTMITREL_TOTALS);
    if (answer != 0)
        return refused(answer);
    if (sample(0, 4150) != 0 || sample(1, 4250) != 0 || sample(2, 4250) != 0)
        return 1;
    show();
    if (buttmitrel_live_hole(CELLS, IDLE, rules, BUTTMITREL_RULES, words, BUTTMITREL_WORDS, totals, BUTTMITREL_TOTALS, 5) != 0)
        return 1;
    if (sample(6, 4150) != 0)
        return 1;
    show();
    return refused(sample(6, 4150));
}

int main(int argc, char **argv)
{
    static uint8_t trace[1 << 23];
    if (argc < 2)
        return feed();
    FILE *file = fopen(argv[1], "rb");
    if (file == NULL) {
        perror(argv[1]);
        return 2;
    }
    size_t len = fread(trace, 1, sizeof trace, file);
    if (ferror(file)) {
        perror(argv[1]);
        return 2;
    }
    fclose(file);
    if (len == sizeof trace) {
        fprintf(stderr, "%s: longer than any trace\n", argv[1]);
        return 2;
    }
    return judge(trace, len);
}
