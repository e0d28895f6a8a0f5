/*
 * Immarduzh: plans for the Montgomery ladder in many dimensions. The eleven calls of the archive libcapi.a, which is for x86-64 or for 64-bit
 * Arm, for C99 and C++.
 *
 * Numbers
 *   d         the dimension, 1 to 8. Columns are numbered 1 to d, rows 1 to d+1.
 *   l         the length, 1 to 576. Steps are numbered 1 to l.
 *   plan      d, l, a start order, the bits and an answer row. Any bits are a plan.
 *   start     d bytes: the start order, an arrangement of 1..d.
 *   bits      ceil(l*d/8) bytes. Bit k of step s is bit number (s-1)*d + (k-1), counted from the most significant bit of the first
 *             byte. Bits past l*d in the last byte are written as 0 and are not looked at when read.
 *   row       the answer row, 1 to d+1.
 *   scalars   d numbers in column order, each ceil(l/64) words, lowest word first, each number below 2^l.
 *   values    d numbers in column order, each floor(l/64)+1 words, lowest word first: an entry of a row can be 2^l.
 *   m         the modulus, 1 to 2^63, or 0, which stands for 2^64.
 *   elements  d words, each below the modulus; with modulus 0 any word is an element.
 *
 * What a plan means: row 1 of the start matrix is all 0, and row i+1 adds 1 in the column that stands at place i of the start order.
 * One step with bits r1..rd, of which h are ones: new row 1 is the double of row h+1. Set x = y = h+1. For k = 1..d: if rk is 0, y grows
 * by 1; if rk is 1, x falls by 1; new row k+1 is row x plus row y. Row i then has i-1 odd entries, and neighbouring rows differ by one in a
 * single column, each column once; these columns, from the top down, are the matrix's order. A column's sign is +1 where its odd entry is
 * one above its even one, else -1.
 *
 * Answers
 *   Each call takes any numbers, any bytes and buffers of any length, and finishes. It answers a refusal number: 0, or the first of the
 *   numbers that are listed at the call, in that order, that applies. Its other answers go through the plain pointers to a uint64_t at
 *   the end of its arguments, which are written always. On refusal they are 0, and every lent buffer and a walk state are as they came.
 *   That these answers and no others are given is proved of the code that the archive is compiled from; the compiler is not proved.
 *   Nothing is promised about time or power.
 *
 * Buffers
 *   A lent buffer is two arguments, a pointer and the count of its elements (words of a uint64_t *, bytes of a uint8_t *). Null with
 *   count 0 is an empty buffer. A buffer of another length than the call asks is refused with 3, where no refusal that is listed before 3
 *   applies; it is not cut or filled.
 *
 * Outside the proof
 *   The calls cannot see what a pointer points to, so it is for the caller to see that
 *   - a pointer whose count is not 0 is not null, and the buffer has at least as many elements as its count says;
 *   - a pointer to an answer is not null, and points to a uint64_t; order and signs of a walk point to 8 bytes each;
 *   - every pointer to a uint64_t is aligned as that type asks;
 *   - what a call may write, a buffer that is not const or an answer, overlaps nothing else that is handed to that call (buffers that
 *     are const may overlap one another), and nothing else reads or writes it while the call runs; nothing writes to what is const.
 *   Where that is not so, nothing is promised.
 */
#ifndef IMMARDUZH_H
#define IMMARDUZH_H

#include <stddef.h>
#include <stdint.h>

#ifdef __cplusplus
extern "C" {
#endif

/* Why a call refuses. The numbers are fixed. */
enum immarduzh_refusal {
    IMMARDUZH_OK = 0,      /* none below applies */
    IMMARDUZH_DIM = 1,     /* d is not 1..8 */
    IMMARDUZH_LENGTH = 2,  /* l is not 1..576 */
    IMMARDUZH_SHAPE = 3,   /* a lent buffer does not have exactly its length, or a step's bit number is 2^d or more */
    IMMARDUZH_SCALAR = 4,  /* a scalar is 2^l or more */
    IMMARDUZH_ORDER = 5,   /* the order is not an arrangement of 1..d; in a walk state also a sign other than 1 and -1 at a place 1..d, or
                              a non-zero order or sign past place d */
    IMMARDUZH_ROW = 6,     /* the answer row is not 1..d+1 */
    IMMARDUZH_MODULUS = 7, /* the modulus is above 2^63 */
    IMMARDUZH_ELEMENT = 8, /* an element is not below a modulus other than 0 */
    IMMARDUZH_TRAILER = 9, /* a plan file is shorter than 12 bytes, or has a wrong mark or a wrong back distance */
    IMMARDUZH_BIG = 10     /* more than 4,096 bytes are to be listed */
};

#define IMMARDUZH_LARGEST_D 8
#define IMMARDUZH_LARGEST_L 576
#define IMMARDUZH_TRAILER_BYTES 12     /* at the end of a plan file */
#define IMMARDUZH_TEXT_BYTES 8589      /* the length of the buffer that a listing asks: that of the longest text */
#define IMMARDUZH_LISTED_BYTES 4096    /* the longest plan file that is listed */

/* The largest lengths that the calls ask, for d 8 and l 576. */
#define IMMARDUZH_LARGEST_SCALARS 72   /* words */
#define IMMARDUZH_LARGEST_VALUES 80    /* words */
#define IMMARDUZH_LARGEST_BITS 576     /* bytes */
#define IMMARDUZH_LARGEST_TRACE 51840  /* bytes */
#define IMMARDUZH_LARGEST_REGISTERS 9  /* words */
#define IMMARDUZH_LARGEST_FILE 596     /* bytes that pack writes */

/* The lengths that the calls ask: each is 0 where d or l is out of range, so that no product wraps. */

static inline int immarduzh_in_range(uint64_t d, uint64_t l)
{
    return d >= 1 && d <= IMMARDUZH_LARGEST_D && l >= 1 && l <= IMMARDUZH_LARGEST_L;
}

/* Words of d scalars: d * ceil(l/64). */
static inline size_t immarduzh_scalars_words(uint64_t d, uint64_t l)
{
    return immarduzh_in_range(d, l) ? (size_t)(d * ((l + 63) / 64)) : 0;
}

/* Words of d decoded values: d * (floor(l/64)+1). */
static inline size_t immarduzh_values_words(uint64_t d, uint64_t l)
{
    return immarduzh_in_range(d, l) ? (size_t)(d * (l / 64 + 1)) : 0;
}

/* Bytes of a plan's bits: ceil(l*d/8). */
static inline size_t immarduzh_bits_bytes(uint64_t d, uint64_t l)
{
    return immarduzh_in_range(d, l) ? (size_t)((l * d + 7) / 8) : 0;
}

/* Bytes of a trace: l*(d+1)*(d+2). */
static inline size_t immarduzh_trace_bytes(uint64_t d, uint64_t l)
{
    return immarduzh_in_range(d, l) ? (size_t)(l * (d + 1) * (d + 2)) : 0;
}

/* Bytes of the file that pack writes: start order, bits and trailer. */
static inline size_t immarduzh_file_bytes(uint64_t d, uint64_t l)
{
    return immarduzh_in_range(d, l) ? (size_t)d + immarduzh_bits_bytes(d, l) + IMMARDUZH_TRAILER_BYTES : 0;
}

/*
 * Encode. Refuses 1, 2, 3, 4. Writes the start order (d bytes) and the bits of a plan, and answers its row: 1 + the number of odd scalars.
 * The bits of step s, for s from l down to 1: with S the order after the step (after step l the columns with odd scalars rising, then those
 * with even scalars rising), bit k is bit s of the scalar of column S[k] XOR its bit s-1, bits counted from the top of l bits, bit 0 being
 * 0. The order before step s is the columns with bit 1 in reverse of their places in S, then those with bit 0 in theirs. The order before
 * step 1 is the start order. The plan's last matrix then has the scalar plus its lowest bit in row 1 of a column, the scalar plus 1
 * minus its lowest bit in row d+1, and the scalars in the answer row.
 */
uint64_t immarduzh_encode(uint64_t d, uint64_t l, const uint64_t *scalars, size_t scalars_len, uint8_t *start, size_t start_len,
                          uint8_t *bits, size_t bits_len, uint64_t *row);

/* Decode. Refuses 1, 2, 3, 5, 6. Writes the answer row of the last matrix to values. */
uint64_t immarduzh_decode(uint64_t d, uint64_t l, const uint8_t *start, size_t start_len, const uint8_t *bits, size_t bits_len,
                          uint64_t row, uint64_t *values, size_t values_len);

/* Check. Refuses 1, 2, 3, 5, 6, 4. Answers yes: 1 exactly when that row equals the scalars, else 0. An entry of 2^l equals none. */
uint64_t immarduzh_check(uint64_t d, uint64_t l, const uint8_t *start, size_t start_len, const uint8_t *bits, size_t bits_len,
                         uint64_t row, const uint64_t *scalars, size_t scalars_len, uint64_t *yes);

/*
 * Step of a paused walk. Refuses 1, 5, 3. The state is d, the order of the columns in eight places and eight signs, 1 or -1, sign j
 * (signs[j-1]) being that of column j; places past d are 0. A walk begins with the start order and every sign 1. bits is the step's bits
 * as one number, r1 the highest of d bits. Order and signs become those after the step, in place: with x and y as above, place k of the new
 * order is place x of the old one where rk is 1, and place y-1 of the old one where rk is 0; and the signs of just the columns at the new
 * order's places whose bit is 1 are turned. d stays.
 */
uint64_t immarduzh_step(uint64_t d, uint8_t *order, int8_t *signs, uint64_t bits);

/*
 * Trace. Refuses 1, 2, 3, 5, 6. Writes for each step d+1 entries in row order, each x, y and then d signed bytes (two's complement):
 * row y minus row x of the matrix before the step. A doubling has x = y and zeros. out has l*(d+1)*(d+2) bytes. Answers the doublings
 * and the additions written.
 */
uint64_t immarduzh_trace(uint64_t d, uint64_t l, const uint8_t *start, size_t start_len, const uint8_t *bits, size_t bits_len,
                         uint64_t row, uint8_t *out, size_t out_len, uint64_t *doublings, uint64_t *additions);

/*
 * Plain run. Refuses 1, 2, 3, 5, 6, 7, 8. Leaves the end registers in d+1 lent words, register i being the sum of the entries of row i of
 * the last matrix times the elements, by the modulus. Answers the register of the answer row and the two counts of the trace.
 */
uint64_t immarduzh_plain_run(uint64_t d, uint64_t l, const uint8_t *start, size_t start_len, const uint8_t *bits, size_t bits_len,
                             uint64_t row, uint64_t m, const uint64_t *elements, size_t elements_len, uint64_t *registers,
                             size_t registers_len, uint64_t *answer, uint64_t *doublings, uint64_t *additions);

/*
 * Difference run. Refuses as the plain run. For an addition the new register is twice register x plus the combination of the elements by
 * the trace's difference vector, with no use of register y. Its registers and answers are proved equal to the plain run's.
 */
uint64_t immarduzh_difference_run(uint64_t d, uint64_t l, const uint8_t *start, size_t start_len, const uint8_t *bits, size_t bits_len,
                                  uint64_t row, uint64_t m, const uint64_t *elements, size_t elements_len, uint64_t *registers,
                                  size_t registers_len, uint64_t *answer, uint64_t *doublings, uint64_t *additions);

/*
 * Pack. Refuses 1, 2, 3, 5, 6. Writes the plan file: a body, which is the start order and the bits, then the trailer of 12 bytes: d (1
 * byte), answer row (1), l (2, low byte first), back distance (4, low byte first), the bytes 64 6D 75 6C. The back distance is the count
 * of bytes from the trailer's first byte back to the body's first. file has d + ceil(l*d/8) + 12 bytes.
 */
uint64_t immarduzh_pack(uint64_t d, uint64_t l, const uint8_t *start, size_t start_len, const uint8_t *bits, size_t bits_len,
                        uint64_t row, uint8_t *file, size_t file_len);

/*
 * Unpack. Refuses 9 for a file shorter than 12 bytes or a wrong mark; 1; 2; 9 if the back distance is not d + ceil(l*d/8) or is more than
 * the bytes before the trailer; 5; 6. Answers d, l and the answer row of the plan that the file ends with. Anything may stand before the
 * body; it is not looked at.
 */
uint64_t immarduzh_unpack(const uint8_t *file, size_t file_len, uint64_t *d, uint64_t *l, uint64_t *row);

/*
 * Body. Refuses exactly as unpack. Answers where in the file the body stands: file[*offset] is its first byte, and it has *length bytes,
 * d of start order and then the bits as they stand in the file.
 */
uint64_t immarduzh_body(const uint8_t *file, size_t file_len, uint64_t *offset, uint64_t *length);

/*
 * Listing. Refuses 10 for a file of more than IMMARDUZH_LISTED_BYTES bytes; 3 for a text buffer that does not have exactly
 * IMMARDUZH_TEXT_BYTES bytes; then as unpack. Writes the plan's lines at the start of text: `plan`, d, l and row; `start` and the order; for
 * each step its number and its bits, r1 first; `value` and the decoded entries in hexadecimal. Answers how many bytes they are; the bytes
 * past them are as they came, and no 0 byte ends them.
 */
uint64_t immarduzh_listing(const uint8_t *file, size_t file_len, uint8_t *text, size_t text_len, uint64_t *length);

#ifdef __cplusplus
}
#endif

#endif
