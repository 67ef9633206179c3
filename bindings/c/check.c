/* Cases a and f of document 01 through the C header, with tags and without, and a division: reads, solves, judges, renews, lists runs and watches
 * recorded ones, and says what differs. */
#include "../yolqushek.h"
#include <stdio.h>
#include <string.h>

/* p = 7, input 1, output 2, A = B = signal 1, C = signal 2 */
static const uint8_t a[] = {67, 81, 84, 1, 0, 7, 0, 0, 0, 2, 0, 1, 0, 1, 0, 1, 0, 1, 1, 0, 1, 0, 0, 0, 1, 1, 0, 1, 0, 0, 0, 1, 2, 0, 1, 0, 0, 0};
static const uint8_t derivation[] = {68, 81, 84, 1, 0, 1, 0, 4, 2, 0, 1, 0, 0, 0};
/* the same with its step given twice, and with a root step, whose rule isn't met, as its second */
static const uint8_t padded[] = {68, 81, 84, 1, 0, 2, 0, 4, 2, 0, 1, 0, 0, 0, 4, 2, 0, 1, 0, 0, 0};
static const uint8_t unmet[] = {68, 81, 84, 1, 0, 2, 0, 4, 2, 0, 1, 0, 0, 0, 1, 2, 0, 1, 0, 0, 0};
/* input 1 is at most 0, and a zero step on it before the product */
static const uint8_t tag0[] = {84, 81, 84, 1, 0, 1, 0, 1, 0, 3, 0, 0, 0, 0};
static const uint8_t zero[] = {68, 81, 84, 1, 0, 2, 0, 3, 1, 0, 0, 0, 0, 0, 4, 2, 0, 1, 0, 0, 0};
/* p = 5, one output, s * s = s: 0 against 1 is an accepted pair */
static const uint8_t f[] = {67, 81, 84, 1, 0, 5, 0, 0, 0, 1, 0, 0, 0, 1, 0, 1, 0, 1, 1, 0, 1, 0, 0, 0, 1, 1, 0, 1, 0, 0, 0, 1, 1, 0, 1, 0, 0, 0};
/* tags for the first: input 1 is a bit, output 2 below 7 and below 6 */
static const uint8_t tags[] = {84, 81, 84, 1, 0, 3, 0, 1, 0, 1, 0, 0, 0, 0, 2, 0, 3, 6, 0, 0, 0, 2, 0, 3, 5, 0, 0, 0};
/* the first with a free output 3, and two runs with input 1 = 2 */
static const uint8_t free3[] = {67, 81, 84, 1, 0, 7, 0, 0, 0, 3, 0, 1, 0, 2, 0, 1, 0, 1, 1, 0, 1, 0, 0, 0, 1, 1, 0, 1, 0, 0, 0, 1, 2, 0, 1, 0, 0, 0};
static const uint8_t twos[] = {80, 81, 84, 1, 0, 3, 0, 2, 0, 0, 0, 4, 0, 0, 0, 0, 0, 0, 0, 2, 0, 0, 0, 4, 0, 0, 0, 1, 0, 0, 0};
/* p = 7, input 1 times output 2 is 1; its derivation says that neither is ever 0, so that the output is a quotient by the input; and the quotient alone */
static const uint8_t inverse[] = {67, 81, 84, 1, 0, 7, 0, 0, 0, 2, 0, 1, 0, 1, 0, 1, 0, 1, 1, 0, 1, 0, 0, 0, 1, 2, 0, 1, 0, 0, 0, 1, 0, 0, 1, 0, 0, 0};
static const uint8_t divided[] = {68, 81, 84, 1, 0, 3, 0, 6, 1, 0, 1, 0, 0, 0, 6, 2, 0, 1, 0, 0, 0, 7, 2, 0, 1, 0, 1, 0};
static const uint8_t quotient[] = {68, 81, 84, 1, 0, 1, 0, 7, 2, 0, 1, 0, 1, 0};
static const uint8_t *const none = yolqushek_no_tags;
static const uint8_t pair[] = {80, 81, 84, 1, 0, 1, 0, 0, 0, 0, 0, 1, 0, 0, 0};
/* p = 257, two signals and no constraints: 66,049 candidates */
static const uint8_t large[] = {67, 81, 84, 1, 0, 1, 1, 0, 0, 2, 0, 1, 0, 1, 0, 0, 0};
/* p = 5, one output, 1 * 1 = 0: no run satisfies it */
static const uint8_t never[] = {67, 81, 84, 1, 0, 5, 0, 0, 0, 1, 0, 0, 0, 1, 0, 1, 0, 1, 0, 0, 1, 0, 0, 0, 1, 0, 0, 1, 0, 0, 0, 0};

/* four records of the circuit with a free output: the first and the last make the pair above, three places apart; the second breaks the constraint */
static const uint8_t recorded[] = {2, 0, 0, 0, 4, 0, 0, 0, 0, 0, 0, 0, 2, 0, 0, 0, 5, 0, 0, 0, 1, 0, 0, 0,
                                   3, 0, 0, 0, 2, 0, 0, 0, 6, 0, 0, 0, 2, 0, 0, 0, 4, 0, 0, 0, 1, 0, 0, 0};

static int bad;

static void same(const char *what, uint64_t is, uint64_t wanted)
{
    if (is == wanted)
        return;
    printf("%s: %llu, not %llu\n", what, (unsigned long long)is, (unsigned long long)wanted);
    bad = 1;
}

static void refused(const char *what, uint64_t returned, uint32_t number, uint32_t place)
{
    same(what, yolqushek_number(returned), number);
    same(what, yolqushek_place(returned), place);
}

static void results(void)
{
    uint64_t sizes[5], marked[4], solved[5];
    uint8_t output[7 + 21 * 2], marks[3] = {9, 9, 9};
    same("read", yolqushek_read(a, sizeof a, sizes), 0);
    same("p", sizes[0], 7);
    same("m", sizes[4], 1);
    same("solve", yolqushek_solve(a, sizeof a, none, 7, output, sizeof output, solved), 0);
    same("solved", solved[0] * 1000 + solved[1] * 100 + solved[2] * 10 + solved[3], 2100);
    same("length", solved[4], sizeof derivation);
    same("bytes", memcmp(output, derivation, sizeof derivation), 0);
    same("mark", yolqushek_mark(a, sizeof a, none, 7, derivation, sizeof derivation, marks, 3, marked), 0);
    same("marked", marked[0] * 1000 + marked[1] * 100 + marked[2] * 10 + marked[3], 2100);
    same("marks", marks[0] * 100 + marks[1] * 10 + marks[2], 119);
    uint64_t returned = yolqushek_pair(f, sizeof f, none, 7, pair, sizeof pair);
    same("pair", yolqushek_number(returned), 0);
    same("signal", yolqushek_signal(returned), 1);
}

static void with_tags(void)
{
    uint64_t marked[4], solved[5];
    uint8_t output[7 + 21 * 2], marks[2];
    same("solve with tags", yolqushek_solve(a, sizeof a, tags, sizeof tags, output, sizeof output, solved), 0);
    same("solved with tags", solved[0] * 1000 + solved[1] * 100 + solved[2] * 10 + solved[3], 2113);
    same("length with tags", solved[4], sizeof derivation);
    same("mark with tags", yolqushek_mark(a, sizeof a, tags, sizeof tags, derivation, sizeof derivation, marks, 2, marked), 0);
    same("marked with tags", marked[0] * 1000 + marked[1] * 100 + marked[2] * 10 + marked[3], 2113);
    same("pair without tags", yolqushek_pair(free3, sizeof free3, none, 7, twos, sizeof twos), 3);
    refused("broken tag", yolqushek_pair(free3, sizeof free3, tags, sizeof tags, twos, sizeof twos), 28, 1);
}

/* three steps a signal need 7 + 21 * 2 bytes, of which 28 are written; nonzero marks are not counted */
static void divisions(void)
{
    uint64_t marked[4], solved[5] = {9, 9, 9, 9, 9};
    uint8_t output[7 + 21 * 2], marks[3] = {9, 9, 9};
    memset(output, 9, sizeof output);
    refused("one byte short", yolqushek_solve(inverse, sizeof inverse, none, 7, output, sizeof output - 1, solved), 25, 0);
    same("answer of a short output", solved[0] * 10 + solved[4], 99);
    for (size_t k = 0; k < sizeof output; k++)
        same("short output", output[k], 9);
    same("solve a division", yolqushek_solve(inverse, sizeof inverse, none, 7, output, sizeof output, solved), 0);
    same("division solved", solved[0] * 1000 + solved[1] * 100 + solved[2] * 10 + solved[3], 2100);
    same("length of a division", solved[4], sizeof divided);
    same("division", memcmp(output, divided, sizeof divided), 0);
    for (size_t k = sizeof divided; k < sizeof output; k++)
        same("beyond a division", output[k], 9);
    same("mark a division", yolqushek_mark(inverse, sizeof inverse, none, 7, output, sizeof divided, marks, 3, marked), 0);
    same("division marked", marked[0] * 1000 + marked[1] * 100 + marked[2] * 10 + marked[3], 2100);
    same("marks of a division", marks[0] * 100 + marks[1] * 10 + marks[2], 119);
    refused("quotient alone", yolqushek_mark(inverse, sizeof inverse, none, 7, quotient, sizeof quotient, marks, 3, marked), 17, 1);
    memset(output, 9, sizeof output);
    same("renew a division", yolqushek_renew(inverse, sizeof inverse, none, 7, divided, sizeof divided, output, sizeof divided), sizeof divided);
    same("division renewed", memcmp(output, divided, sizeof divided), 0);
}

static void renewals(void)
{
    uint64_t marked[4] = {9, 9, 9, 9}, returned;
    uint8_t output[30], again[14], marks[2] = {9, 9};
    memset(output, 9, sizeof output);
    refused("padded", yolqushek_mark(a, sizeof a, none, 7, padded, sizeof padded, marks, 2, marked), 29, 2);
    refused("zero", yolqushek_mark(a, sizeof a, tag0, sizeof tag0, zero, sizeof zero, marks, 2, marked), 29, 1);
    same("marks of a padded one", marks[0] * 10 + marks[1], 99);
    refused("short for the given", yolqushek_renew(a, sizeof a, none, 7, padded, sizeof padded, output, sizeof padded - 1), 25, 0);
    refused("unmet before short", yolqushek_renew(a, sizeof a, none, 7, unmet, sizeof unmet, output, 0), 17, 2);
    same("output on a refusal", output[0], 9);
    returned = yolqushek_renew(a, sizeof a, none, 7, padded, sizeof padded, output, sizeof output);
    same("renew", yolqushek_number(returned), 0);
    same("renewed length", yolqushek_length(returned), sizeof derivation);
    same("renewed", memcmp(output, derivation, sizeof derivation), 0);
    for (size_t k = sizeof derivation; k < sizeof output; k++)
        same("beyond the renewed", output[k], 9);
    same("mark the renewed", yolqushek_mark(a, sizeof a, none, 7, output, sizeof derivation, marks, 2, marked), 0);
    same("renew again", yolqushek_renew(a, sizeof a, none, 7, output, sizeof derivation, again, sizeof again), sizeof derivation);
    same("renewed again", memcmp(again, derivation, sizeof derivation), 0);
    memset(output, 9, sizeof output);
    same("renew with a tag", yolqushek_renew(a, sizeof a, tag0, sizeof tag0, zero, sizeof zero, output, sizeof zero), sizeof derivation);
    same("renewed with a tag", memcmp(output, derivation, sizeof derivation), 0);
}

/* all runs of the first, from the first by the next to the end: signal 2 is the square of signal 1 */
static void listed(void)
{
    uint32_t given[2] = {9, 9}, run[2] = {9, 9}, count = 0;
    uint64_t returned = yolqushek_first_run(a, sizeof a, run, 2);
    while (returned == 1 && count < 7) {
        same("value 1", run[0], count);
        same("value 2", run[1], count * count % 7);
        memcpy(given, run, sizeof given);
        returned = yolqushek_next_run(a, sizeof a, given, 2, run, 2);
        count++;
    }
    same("runs", count, 7);
    same("number at the end", yolqushek_number(returned), 0);
    same("written at the end", yolqushek_written(returned), 0);
    same("buffer at the end", run[0] * 10 + run[1], 61);
    same("given at the end", given[0] * 10 + given[1], 61);
}

static void runs(void)
{
    static const uint32_t above[2] = {2, 6}, high[2] = {7, 9}, last[2] = {6, 7};
    uint32_t run[3] = {9, 9, 9};
    same("none", yolqushek_first_run(never, sizeof never, run, 1), 0);
    same("none after", yolqushek_next_run(never, sizeof never, above, 1, run, 1), 0);
    refused("too many", yolqushek_first_run(large, sizeof large, run, 3), 30, 0);
    refused("too many after", yolqushek_next_run(large, sizeof large, above, 1, run, 2), 30, 0);
    refused("short run", yolqushek_first_run(a, sizeof a, run, 1), 31, 0);
    refused("long run", yolqushek_first_run(a, sizeof a, run, 3), 31, 0);
    refused("no values given", yolqushek_next_run(a, sizeof a, above, 0, run, 2), 31, 0);
    refused("high values and a long run", yolqushek_next_run(a, sizeof a, high, 2, run, 3), 31, 0);
    refused("high values", yolqushek_next_run(a, sizeof a, high, 2, run, 2), 31, 1);
    refused("high last value", yolqushek_next_run(a, sizeof a, last, 2, run, 2), 31, 2);
    refused("cut", yolqushek_next_run(a, sizeof a - 1, high, 1, run, 1), 6, 32);
    same("run on a refusal", run[0] * 100 + run[1] * 10 + run[2], 999);
    same("after one that satisfies nothing", yolqushek_written(yolqushek_next_run(a, sizeof a, above, 2, run, 2)), 1);
    same("its run", run[0] * 100 + run[1] * 10 + run[2], 329);
}

static void watched(void)
{
    uint64_t answer[2] = {9, 9}, returned;
    uint8_t output[sizeof twos + 2];
    memset(output, 9, sizeof output);
    same("none within 3", yolqushek_watch(free3, sizeof free3, recorded, sizeof recorded, 3, output, sizeof output, answer), 0);
    same("none in no records", yolqushek_watch(free3, sizeof free3, recorded, 0, 0, output, sizeof output, answer), 0);
    same("records of none", answer[0] * 10 + answer[1], 99);
    for (size_t k = 0; k < sizeof output; k++)
        same("output of none", output[k], 9);
    returned = yolqushek_watch(free3, sizeof free3, recorded, sizeof recorded, 4, output, sizeof output, answer);
    same("watch", yolqushek_number(returned), 0);
    same("watched signal", yolqushek_signal(returned), 3);
    same("watched records", answer[0] * 10 + answer[1], 14);
    same("pair file", memcmp(output, twos, sizeof twos), 0);
    same("beyond the pair file", output[sizeof twos] * 10 + output[sizeof twos + 1], 99);
    same("the pair file judged", yolqushek_pair(free3, sizeof free3, none, 7, output, sizeof twos), 3);
    same("default window", yolqushek_watch(free3, sizeof free3, recorded, sizeof recorded, 0, output, sizeof twos, answer), 3);
}

static void refused_records(void)
{
    uint64_t answer[2] = {9, 9};
    uint8_t high[sizeof recorded], output[sizeof twos];
    memset(output, 9, sizeof output);
    memcpy(high, recorded, sizeof high);
    high[20] = 7;
    refused("cut records", yolqushek_watch(free3, sizeof free3, high, sizeof high - 1, 1, output, 0, answer), 32, 0);
    refused("high value", yolqushek_watch(free3, sizeof free3, high, sizeof high, 1, output, 0, answer), 33, 2);
    refused("high value before a pair", yolqushek_watch(free3, sizeof free3, high, sizeof high, 4, output, sizeof output, answer), 33, 2);
    refused("window of 1", yolqushek_watch(free3, sizeof free3, recorded, sizeof recorded, 1, output, sizeof output, answer), 34, 0);
    refused("window of 257", yolqushek_watch(free3, sizeof free3, recorded, sizeof recorded, 257, output, sizeof output, answer), 34, 0);
    refused("short pair file", yolqushek_watch(free3, sizeof free3, recorded, sizeof recorded, 256, output, sizeof output - 1, answer), 34, 0);
    refused("cut circuit", yolqushek_watch(free3, sizeof free3 - 1, high, 1, 1, output, 0, answer), 6, 32);
    same("records of a refusal", answer[0] * 10 + answer[1], 99);
    for (size_t k = 0; k < sizeof output; k++)
        same("output of a refusal", output[k], 9);
}

static void refusals(void)
{
    uint64_t answer[5] = {9, 9, 9, 9, 9};
    uint8_t lent[2] = {9, 9};
    refused("cut", yolqushek_read(a, sizeof a - 1, answer), 6, 32);
    refused("short output", yolqushek_solve(a, sizeof a, none, 7, lent, 2, answer), 25, 0);
    refused("short marks", yolqushek_mark(a, sizeof a, none, 7, derivation, sizeof derivation, lent, 1, answer), 14, 0);
    refused("unmet step", yolqushek_mark(f, sizeof f, none, 7, derivation, sizeof derivation, lent, 2, answer), 16, 1);
    refused("short pair", yolqushek_pair(a, sizeof a, none, 7, pair, 3), 18, 0);
    refused("no sheet", yolqushek_solve(a, sizeof a, none, 0, lent, 2, answer), 26, 0);
    refused("cut sheet", yolqushek_pair(a, sizeof a, tags, sizeof tags - 1, pair, 3), 26, 0);
    refused("wrong tag", yolqushek_mark(f, sizeof f, tags, sizeof tags, derivation, 3, lent, 2, answer), 27, 2);
    for (int k = 0; k < 5; k++)
        same("answer on a refusal", answer[k], 9);
    same("buffer on a refusal", lent[0] * 10 + lent[1], 99);
}

int main(void)
{
    results();
    with_tags();
    divisions();
    renewals();
    listed();
    runs();
    watched();
    refused_records();
    refusals();
    puts(bad ? "C calls differ" : "C calls agree");
    return bad;
}
