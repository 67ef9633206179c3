/* The eight calls of the proved library. Link target/staticlib/libexports.a, which `bin/build library` makes.
 *
 * Every call ends on all bytes and lengths. It returns a refusal's number in the high half of the value, 0 where nothing is refused, and in the low half
 * the refusal's place; yolqushek_number and yolqushek_place take the value apart. On a result the low half is 0, but for a pair that is accepted or found,
 * where it is the signal q (yolqushek_signal), for a renewal, where it is the new length (yolqushek_length), and for a run that was written, where it is 1
 * (yolqushek_written). Memory that is lent, answer included, is written only on a result, and no further than stated.
 * Lengths are in bytes, but those of runs in values, 32-bit numbers as the machine has them; a pointer of length 0 is not read. What is lent to one call must
 * not overlap.
 *
 * Marking, judging pairs, solving and renewing take a tag sheet right after the circuit: upper limits of signals (binary, maxbit, maxvalue), in the file
 * format of rules 2.5 and 2.6 in docs/RULES.md. Tags on inputs are assumed: they lower the first bounds, and the inputs of a pair must obey them. A tag on
 * any other signal is shown if the bound that is reached is at most its limit, and else it isn't. No tags are the 7 bytes of yolqushek_no_tags; no bytes at
 * all are Refusal 26.
 *
 * There is no heap. What each call needs of the stack is said below, as measured on x86-64 in steps of 4 kB with what a thread itself takes, from 16 kB on,
 * which is the least that a thread has; it hardly depends on the circuit, unless that is refused. A thread with 256 kB of stack is enough for every call. */
#ifndef YOLQUSHEK_H
#define YOLQUSHEK_H

#include <stddef.h>
#include <stdint.h>

#ifdef __cplusplus
extern "C" {
#endif

/* The sheet without tags. */
static const uint8_t yolqushek_no_tags[7] = {84, 81, 84, 1, 0, 0, 0};

/* The refusal's number, 1 to 34; 0 on a result. */
static inline uint32_t yolqushek_number(uint64_t returned) { return (uint32_t)(returned >> 32); }

/* The refusal's place. That of 33, a record's number, is told modulo 2^32: only a file of 16 GB or more has records enough to show it. */
static inline uint32_t yolqushek_place(uint64_t returned) { return (uint32_t)returned; }

/* The signal q of a pair that is accepted or found; 0 where none is found. */
static inline uint32_t yolqushek_signal(uint64_t returned) { return (uint32_t)returned; }

/* The length of a renewed derivation, in bytes. */
static inline uint32_t yolqushek_length(uint64_t returned) { return (uint32_t)returned; }

/* Of a result: 1 if a run was written, 0 if there are no more. */
static inline uint32_t yolqushek_written(uint64_t returned) { return (uint32_t)returned; }

/* Reads a circuit: refusals 1 to 10. answer: p, n, i, o, m. Stack: 16 kB. */
uint64_t yolqushek_read(const uint8_t *circuit, size_t circuit_length, uint64_t answer[5]);

/* Judges a derivation: refusals 1 to 10, 26, 27, 11 to 14, and then step by step 15, 16, 17 and 29, in this order; 15 meets a kind that is 0 or above 7, and
 * 29 an idle step, which lowers no bound and adds no mark of either sort. Writes n bytes to marks, 1 for marked and 0 for not. The other sort, nonzero marks,
 * says that a signal is never 0, so that a quotient by it may be marked; it is neither written nor counted. answer: how many signals are marked, 1 for fixed
 * and 0 for open, how many tags on signals other than inputs are shown, and the sheet's entry number of the first that isn't, or 0. Stack: 104 kB. */
uint64_t yolqushek_mark(const uint8_t *circuit, size_t circuit_length, const uint8_t *sheet, size_t sheet_length, const uint8_t *derivation,
                        size_t derivation_length, uint8_t *marks, size_t marks_length, uint64_t answer[4]);

/* Judges a pair of runs: refusals 1 to 10, 26, 27, 18 to 23, 28 and 24, in this order. Writes nothing. Stack: 16 kB. */
uint64_t yolqushek_pair(const uint8_t *circuit, size_t circuit_length, const uint8_t *sheet, size_t sheet_length, const uint8_t *pair,
                        size_t pair_length);

/* Solves a circuit: refusals 1 to 10, 26, 27 and 25, in this order. Writes its derivation, of three steps a signal at most, to output, which has 7 + 21 * n
 * bytes at least, even if fewer are written. answer: the four numbers of yolqushek_mark, and the derivation's length. Stack: 164 kB,
 * and for refused circuits 16. */
uint64_t yolqushek_solve(const uint8_t *circuit, size_t circuit_length, const uint8_t *sheet, size_t sheet_length, uint8_t *output,
                         size_t output_length, uint64_t answer[5]);

/* Renews a derivation that may have idle steps: refusals 1 to 10, 26, 27, 11 to 13, then step by step 15, 16 and 17, and last 25, in this order. Writes the
 * derivation without its idle steps to output, which has as many bytes as the derivation given at least, even if fewer are written; the value has the new
 * length. What is written is accepted by yolqushek_mark with the same sheet and reaches the same bounds and marks of both sorts. Stack: 108 kB. */
uint64_t yolqushek_renew(const uint8_t *circuit, size_t circuit_length, const uint8_t *sheet, size_t sheet_length, const uint8_t *derivation,
                         size_t derivation_length, uint8_t *output, size_t output_length);

/* Writes the first satisfying run of a small circuit to answer, which has exactly n values (its length counts values, not bytes): that of signal s at
 * answer[s - 1]. Runs are ordered by the value of signal 1, then by that of signal 2, and so on. Refusals 1 to 10, 30 and 31, in this order; 30 meets a circuit
 * with more than 65,536 candidates, p to the power n, and 31 a length other than n. Where no run satisfies nothing is written. Stack: 16 kB. */
uint64_t yolqushek_first_run(const uint8_t *circuit, size_t circuit_length, uint32_t *answer, size_t answer_length);

/* The same of the satisfying runs that come after the given one, which has n values too, each below p (31, with the lowest signal whose value isn't), and need
 * not satisfy anything. With what was written given each time, until there are no more, every satisfying run comes once, in order. Stack: 16 kB. */
uint64_t yolqushek_next_run(const uint8_t *circuit, size_t circuit_length, const uint32_t *given, size_t given_length, uint32_t *answer,
                            size_t answer_length);

/* Finds a pair among recorded runs. records: nothing but records, each of n values of 4 bytes, little-endian. Two of them make a pair if both satisfy the
 * circuit, share their inputs, differ at an output and are fewer than window places apart, 2 to 256 (0 stands for 64); one that breaks a constraint takes a
 * place and makes none. Found is the pair with the earliest later record, then the nearest earlier one, then the lowest output q. Refusals 1 to 10, 32, 33
 * and 34, in this order: 32 meets a length that isn't a multiple of 4 * n, 33 a value that isn't below p (place: its record, counted from 1), and 34 another
 * window or an output shorter than 7 + 8 * n bytes. The pair file, the earlier record as its first run, is written to the first 7 + 8 * n bytes of output;
 * answer: the earlier and the later record, counted from 1; the value has q. Where no two make a pair it is 0, and nothing is written. Stack: 16 kB. */
uint64_t yolqushek_watch(const uint8_t *circuit, size_t circuit_length, const uint8_t *records, size_t records_length, uint32_t window, uint8_t *output,
                         size_t output_length, uint64_t answer[2]);

#ifdef __cplusplus
}
#endif

#endif
