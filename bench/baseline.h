/* The three things that are measured: the proved functions of crates/linked, and the same steps in C,
 * bench/baseline.c and bench/transfer.c, in their two builds. The types are made here, so that no header
 * of C's is needed. A slice of the proved functions is a pointer and, behind it, a length. */
#ifndef BASELINE_H
#define BASELINE_H

typedef __UINT8_TYPE__ uint8_t;
typedef __UINT32_TYPE__ uint32_t;
typedef __UINT64_TYPE__ uint64_t;
typedef __INT64_TYPE__ int64_t;
typedef __SIZE_TYPE__ size_t;

/* Object and epoch are a tag of TAG_SIZE bytes. A problem of form 1 and a card of version 2 have one, and are
 * by so much longer than PROBLEM_SIZE and the sizes of cards. */
enum { PROBLEM_SIZE = 68, TRANSFER_SIZE = 72, TAG_SIZE = 12, MOST_CARDS = 256 };
enum { SOLVED_SIZE = 128, REFUSED_SIZE = 80, SOLVED_TRANSFER_SIZE = 104 };

/* Of a problem's bytes: 0, and in *sum x and the six numbers of the state added up; or the refusal's
 * number, and *sum is left alone. */
uint32_t tailfiddle_predict(const uint8_t *problem, size_t length, double *sum);
uint32_t digit_predict(const uint8_t *problem, double *sum);
uint32_t hardware_predict(const uint8_t *problem, double *sum);

/* Of a transfer's bytes: 0, and in *sum z and the three numbers of the velocity added up, z + vx + vy + vz
 * from the left; or the refusal's number, and *sum is left alone. A way that is neither 0 nor 1: 23, before
 * every other test. */
uint32_t tailfiddle_transfer(const uint8_t *transfer, size_t length, double *sum);
uint32_t digit_transfer(const uint8_t *transfer, double *sum);
uint32_t hardware_transfer(const uint8_t *transfer, double *sum);

/* Of a deck of either version: the mean residual in seconds, NaN where no card is solved, or minus the
 * refusal's number. */
double tailfiddle_check(const uint8_t *deck, size_t length, uint32_t *verdicts, size_t room);
double digit_check(const uint8_t *deck, size_t length, uint32_t *verdicts, size_t room);
double hardware_check(const uint8_t *deck, size_t length, uint32_t *verdicts, size_t room);

/* Of problems of this form, one behind the other: 0, with their deck of this version at the buffer's front
 * and its length in *size; or the refusal's number, and both are left alone. */
typedef uint32_t Write(uint32_t version, uint32_t form, const uint8_t *problems, size_t length, uint8_t *buffer,
    size_t room, size_t *size);
Write tailfiddle_write, digit_write, hardware_write;

#endif
