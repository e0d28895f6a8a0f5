/*
 * Tests of the C calls by way of include/immarduzh.h: the rules' numbers worked through, each refusal of each call, two faults at once,
 * outputs as they came, plan files and their listing. Writes a line for each group; at the first test that fails it says which, and
 * ends with status 1.
 */
#include "immarduzh.h"
#include <stdio.h>
#include <stdlib.h>
#include <string.h>

#define COUNT(list) (sizeof(list) / sizeof(list)[0])
#define WANT(holds) want((holds), #holds, __LINE__)

static const char *about = "";
static unsigned long tests, groups, told;

static void want(int holds, const char *what, int line)
{
    tests++;
    if (holds)
        return;
    printf("capi: line %d: %s: not so: %s\n", line, about, what);
    exit(1);
}

static void group(const char *name)
{
    groups++;
    printf("%s: %lu\n", name, tests - told);
    told = tests;
}

/* What is lent to a call, with room for one element too many. */
enum { START, BITS, SCALARS, VALUES, TRACE, ELEMENTS, REGISTERS, PACKED, BUFFERS };

struct input {
    const char *name;
    uint64_t d, l, row, m;
    uint8_t start[10], bits[4];
    uint64_t scalars[4], elements[4];
    uint64_t last[4][3]; /* the last matrix */
    size_t count[BUFFERS];
};

/* What a call leaves. Before it every byte is A5, and every answer 77. */
struct output {
    uint8_t start[10], bits[4], trace[32], packed[24];
    uint64_t values[12], registers[12];
    uint64_t row, yes, answer, doublings, additions;
};

static struct output out;

static int untouched(const void *lent, size_t bytes)
{
    const uint8_t *b = (const uint8_t *)lent;
    while (bytes > 0 && b[bytes - 1] == 0xA5)
        bytes--;
    return bytes == 0;
}

static void clear(void)
{
    memset(&out, 0xA5, sizeof out);
    out.row = out.yes = out.answer = out.doublings = out.additions = 77;
}

static uint64_t encode(const struct input *in)
{
    uint64_t n = immarduzh_encode(in->d, in->l, in->scalars, in->count[SCALARS], out.start, in->count[START], out.bits,
                                  in->count[BITS], &out.row);
    WANT(n == 0 || out.row == 0);
    return n;
}

static uint64_t decode(const struct input *in)
{
    return immarduzh_decode(in->d, in->l, in->start, in->count[START], in->bits, in->count[BITS], in->row, out.values,
                            in->count[VALUES]);
}

static uint64_t check(const struct input *in)
{
    uint64_t n = immarduzh_check(in->d, in->l, in->start, in->count[START], in->bits, in->count[BITS], in->row, in->scalars,
                                 in->count[SCALARS], &out.yes);
    WANT(out.yes == (n == 0));
    return n;
}

static uint64_t trace(const struct input *in)
{
    uint64_t n = immarduzh_trace(in->d, in->l, in->start, in->count[START], in->bits, in->count[BITS], in->row, out.trace,
                                 in->count[TRACE], &out.doublings, &out.additions);
    WANT(n == 0 || (out.doublings == 0 && out.additions == 0));
    return n;
}

static uint64_t plain_run(const struct input *in)
{
    uint64_t n = immarduzh_plain_run(in->d, in->l, in->start, in->count[START], in->bits, in->count[BITS], in->row, in->m,
                                     in->elements, in->count[ELEMENTS], out.registers, in->count[REGISTERS], &out.answer,
                                     &out.doublings, &out.additions);
    WANT(n == 0 || (out.answer == 0 && out.doublings == 0 && out.additions == 0));
    return n;
}

static uint64_t difference_run(const struct input *in)
{
    uint64_t n = immarduzh_difference_run(in->d, in->l, in->start, in->count[START], in->bits, in->count[BITS], in->row, in->m,
                                          in->elements, in->count[ELEMENTS], out.registers, in->count[REGISTERS], &out.answer,
                                          &out.doublings, &out.additions);
    WANT(n == 0 || (out.answer == 0 && out.doublings == 0 && out.additions == 0));
    return n;
}

static uint64_t pack(const struct input *in)
{
    return immarduzh_pack(in->d, in->l, in->start, in->count[START], in->bits, in->count[BITS], in->row, out.packed,
                          in->count[PACKED]);
}

/* The calls, with their refusals in the order that the rules give, and their buffers. */
static const struct call {
    const char *name;
    uint64_t (*call)(const struct input *);
    int order[8];
    int buffers[5];
} calls[] = {
    {"encode", encode, {1, 2, 3, 4, 0}, {START, BITS, SCALARS, -1}},
    {"decode", decode, {1, 2, 3, 5, 6, 0}, {START, BITS, VALUES, -1}},
    {"check", check, {1, 2, 3, 5, 6, 4, 0}, {START, BITS, SCALARS, -1}},
    {"trace", trace, {1, 2, 3, 5, 6, 0}, {START, BITS, TRACE, -1}},
    {"plain run", plain_run, {1, 2, 3, 5, 6, 7, 8, 0}, {START, BITS, ELEMENTS, REGISTERS, -1}},
    {"difference run", difference_run, {1, 2, 3, 5, 6, 7, 8, 0}, {START, BITS, ELEMENTS, REGISTERS, -1}},
    {"pack", pack, {1, 2, 3, 5, 6, 0}, {START, BITS, PACKED, -1}},
};

/* Makes the call. What it refuses leaves every output as it came. */
static uint64_t made(const struct call *c, const struct input *in)
{
    uint64_t n;
    about = c->name;
    clear();
    n = c->call(in);
    WANT(n == 0 || untouched(&out, offsetof(struct output, row)));
    return n;
}

/* The plans of the rules. */
static const struct input plans[] = {
    {"73", 1, 7, 2, 0, {1}, {0xDA}, {73}, {5}, {{74}, {73}}, {1, 1, 1, 1, 42, 1, 2, 14}},
    {"0", 1, 1, 1, 0, {1}, {0x00}, {0}, {5}, {{0}, {1}}, {1, 1, 1, 1, 6, 1, 2, 14}},
    {"1", 1, 1, 2, 0, {1}, {0x80}, {1}, {5}, {{2}, {1}}, {1, 1, 1, 1, 6, 1, 2, 14}},
    {"0 0", 2, 1, 1, 0, {1, 2}, {0x00}, {0, 0}, {5, 6}, {{0, 0}, {1, 0}, {1, 1}}, {2, 1, 2, 2, 12, 2, 3, 15}},
    {"2 1", 2, 2, 2, 101, {1, 2}, {0xB0}, {2, 1}, {10, 20}, {{2, 2}, {2, 1}, {3, 1}}, {2, 1, 2, 2, 24, 2, 3, 15}},
    {"3 3", 2, 2, 3, 0, {2, 1}, {0xC0}, {3, 3}, {5, 6}, {{4, 4}, {3, 4}, {3, 3}}, {2, 1, 2, 2, 24, 2, 3, 15}},
    {"1 2 3", 3, 2, 3, 0, {3, 2, 1}, {0xB4}, {1, 2, 3}, {5, 6, 7}, {{2, 2, 4}, {1, 2, 4}, {1, 2, 3}, {1, 3, 3}},
     {3, 1, 3, 3, 40, 3, 4, 16}},
    {"73 59", 2, 7, 3, 0, {1, 2}, {0x72, 0xD8}, {73, 59}, {5, 6}, {{74, 60}, {73, 60}, {73, 59}}, {2, 2, 2, 2, 84, 2, 3, 16}},
};

static const struct input *const two_one = &plans[4];

/* Encode and check, and decode at the answer row. */
static void worked(const struct input *in)
{
    about = in->name;
    clear();
    WANT(encode(in) == IMMARDUZH_OK && out.row == in->row);
    WANT(memcmp(out.start, in->start, in->count[START]) == 0);
    WANT(memcmp(out.bits, in->bits, in->count[BITS]) == 0);
    WANT(untouched(out.start + in->count[START], 1) && untouched(out.bits + in->count[BITS], 1));
    WANT(decode(in) == IMMARDUZH_OK && memcmp(out.values, in->scalars, 8 * in->count[VALUES]) == 0);
    WANT(check(in) == IMMARDUZH_OK && out.yes == 1);
}

/* Every row of the last matrix. */
static void rows(const struct input *in)
{
    struct input at = *in;
    about = in->name;
    for (at.row = 1; at.row <= in->d + 1; at.row++) {
        clear();
        WANT(decode(&at) == IMMARDUZH_OK);
        WANT(memcmp(out.values, in->last[at.row - 1], 8 * in->count[VALUES]) == 0);
        WANT(untouched(out.values + in->count[VALUES], 8));
    }
}

static void plans_worked(void)
{
    size_t i;
    for (i = 0; i < COUNT(plans); i++) {
        worked(&plans[i]);
        rows(&plans[i]);
    }
    group("plans of the rules");
}

static void check_says_no(void)
{
    uint64_t yes = 77, no = 77;
    const uint64_t other[] = {73, 58}, full[] = {0};
    const struct input *in = &plans[7], *one = &plans[2];
    about = "check";
    WANT(immarduzh_check(2, 7, in->start, 2, in->bits, 2, 3, other, 2, &no) == IMMARDUZH_OK && no == 0);
    WANT(immarduzh_check(2, 7, in->start, 2, in->bits, 2, 3, in->scalars, 2, &yes) == IMMARDUZH_OK && yes == 1);
    no = 77;
    /* Row 1 of d 1, l 1, bit 1 is 2, which no scalar of one bit equals. */
    WANT(immarduzh_check(1, 1, one->start, 1, one->bits, 1, 1, full, 1, &no) == IMMARDUZH_OK && no == 0);
    group("check says no");
}

static void trace_worked(void)
{
    static const uint8_t entries[24] = {2, 2, 0, 0, 1, 2, 1, 0, 1, 3, 1, 1, 3, 3, 0, 0, 2, 3, 0, 1, 1, 3, 0xFF, 1};
    about = "trace of 2 1";
    clear();
    WANT(trace(two_one) == IMMARDUZH_OK && out.doublings == 2 && out.additions == 4);
    WANT(memcmp(out.trace, entries, sizeof entries) == 0 && untouched(out.trace + sizeof entries, 1));
    group("trace of the rules");
}

static void runs_worked(void)
{
    static const uint64_t top = UINT64_C(1) << 63;
    const uint64_t sets[3][6] = {{101, 10, 20, 60, 40, 50}, {7, 5, 6, 1, 2, 0}, {0, top, 1, 2, 1, top + 1}};
    struct input in = *two_one;
    size_t i;
    for (i = 0; i < 6; i++) {
        const uint64_t *set = sets[i / 2];
        about = i % 2 == 0 ? "plain run of 2 1" : "difference run of 2 1";
        in.m = set[0];
        memcpy(in.elements, set + 1, 16);
        clear();
        WANT((i % 2 == 0 ? plain_run(&in) : difference_run(&in)) == IMMARDUZH_OK);
        WANT(memcmp(out.registers, set + 3, 24) == 0 && untouched(out.registers + 3, 8));
        WANT(out.answer == set[4] && out.doublings == 2 && out.additions == 4);
    }
    group("runs of the rules");
}

/* Figure 1 of the source: order 4 1 2 3, column 2 alone falling; after bits 1001 order 1 2 3 4, column 3 alone rising. */
static void step_worked(void)
{
    uint8_t order[8] = {4, 1, 2, 3};
    int8_t signs[8] = {1, -1, 1, 1};
    const uint8_t next[8] = {1, 2, 3, 4};
    const int8_t turned[8] = {-1, -1, 1, -1};
    about = "step of Figure 1";
    WANT(immarduzh_step(4, order, signs, 9) == IMMARDUZH_OK);
    WANT(memcmp(order, next, 8) == 0 && memcmp(signs, turned, 8) == 0);
    group("step of the rules");
}

/* The edges that the rules name, and Table 4 of the source. */
static void edges(void)
{
    static uint64_t long_scalar[10], values[2];
    static uint8_t long_bits[73], one[1];
    const uint8_t start[] = {1, 2}, table_4[] = {0x72, 0xD4};
    const uint64_t two[] = {2};
    uint64_t row = 77;
    about = "edges";
    WANT(immarduzh_encode(1, 576, long_scalar, 9, one, 1, long_bits, 72, &row) == IMMARDUZH_OK && row == 1);
    WANT(immarduzh_encode(1, 577, long_scalar, 10, one, 1, long_bits, 73, &row) == IMMARDUZH_LENGTH && row == 0);
    WANT(immarduzh_encode(0, 7, long_scalar, 0, one, 0, long_bits, 0, &row) == IMMARDUZH_DIM);
    WANT(immarduzh_encode(9, 7, long_scalar, 9, one, 1, long_bits, 8, &row) == IMMARDUZH_DIM);
    WANT(immarduzh_encode(258, 7, long_scalar, 2, one, 1, long_bits, 2, &row) == IMMARDUZH_DIM);
    WANT(immarduzh_encode(1, 1, two, 1, one, 1, long_bits, 1, &row) == IMMARDUZH_SCALAR);
    WANT(immarduzh_decode(2, 7, start, 2, table_4, 2, 3, values, 2) == IMMARDUZH_OK && values[0] == 73 && values[1] == 59);
    WANT(immarduzh_decode(2, 7, start, 2, table_4, 2, 4, values, 2) == IMMARDUZH_ROW && values[0] == 73);
    group("edges of the rules");
}

static void moduli(void)
{
    struct input in = *two_one;
    in.m = UINT64_C(1) << 63;
    WANT(made(&calls[4], &in) == IMMARDUZH_OK && made(&calls[5], &in) == IMMARDUZH_OK);
    in.m++;
    WANT(made(&calls[4], &in) == IMMARDUZH_MODULUS && made(&calls[5], &in) == IMMARDUZH_MODULUS);
    in.m = 20;
    WANT(made(&calls[4], &in) == IMMARDUZH_ELEMENT && made(&calls[5], &in) == IMMARDUZH_ELEMENT);
    in.m = 21;
    WANT(made(&calls[4], &in) == IMMARDUZH_OK && made(&calls[5], &in) == IMMARDUZH_OK);
    group("moduli");
}

/* The fault that gives a number. */
static void spoil(struct input *in, int number)
{
    switch (number) {
    case 1: in->d = 9; break;
    case 2: in->l = 577; break;
    case 3: in->count[START]++; break;
    case 4: in->scalars[1] = 4; break;
    case 5: in->start[1] = 1; break;
    case 6: in->row = 4; break;
    case 7: in->m = (UINT64_C(1) << 63) + 1; break;
    default: in->elements[0] = UINT64_MAX; break;
    }
}

/* Each fault alone, and each with each that stands after it. */
static void faults(const struct call *c)
{
    const int *first, *second;
    for (first = c->order; *first != 0; first++) {
        struct input one = *two_one;
        spoil(&one, *first);
        WANT(made(c, &one) == (uint64_t)*first);
        for (second = first + 1; *second != 0; second++) {
            struct input two = one;
            spoil(&two, *second);
            WANT(made(c, &two) == (uint64_t)*first);
        }
    }
}

/* Each buffer empty, one element too short and one too long. */
static void shapes(const struct call *c)
{
    const int *buffer;
    for (buffer = c->buffers; *buffer >= 0; buffer++) {
        struct input in = *two_one;
        in.count[*buffer]++;
        WANT(made(c, &in) == IMMARDUZH_SHAPE);
        in.count[*buffer] -= 2;
        WANT(made(c, &in) == IMMARDUZH_SHAPE);
        in.count[*buffer] = 0;
        WANT(made(c, &in) == IMMARDUZH_SHAPE);
    }
}

static void refusals(void)
{
    size_t i;
    for (i = 0; i < COUNT(calls); i++) {
        WANT(made(&calls[i], two_one) == IMMARDUZH_OK);
        faults(&calls[i]);
        shapes(&calls[i]);
    }
    group("refusals, one fault and two, outputs as they came");
}

/* Numbers are taken whole: 2^32 + 2 is 2 in 32 bits. */
static void wide_numbers(void)
{
    static const uint64_t wide = (UINT64_C(1) << 32) + 2;
    size_t i;
    for (i = 0; i < COUNT(calls); i++) {
        struct input d = *two_one, l = *two_one, row = *two_one;
        d.d = l.l = row.row = wide;
        WANT(made(&calls[i], &d) == IMMARDUZH_DIM);
        WANT(made(&calls[i], &l) == IMMARDUZH_LENGTH);
        WANT(made(&calls[i], &row) == (i == 0 ? IMMARDUZH_OK : IMMARDUZH_ROW));
    }
    group("wide numbers");
}

/* A step that is refused with a number leaves the state as it came. */
static void step_refused(uint64_t number, uint64_t d, uint8_t third, int8_t sign, uint64_t bits)
{
    uint8_t order[8] = {2, 1}, kept_order[8];
    int8_t signs[8] = {1}, kept_signs[8];
    order[2] = third;
    signs[1] = sign;
    memcpy(kept_order, order, 8);
    memcpy(kept_signs, signs, 8);
    WANT(immarduzh_step(d, order, signs, bits) == number);
    WANT(memcmp(order, kept_order, 8) == 0 && memcmp(signs, kept_signs, 8) == 0);
}

static void step_refusals(void)
{
    about = "step";
    step_refused(IMMARDUZH_DIM, 0, 0, 1, 0);
    step_refused(IMMARDUZH_DIM, 9, 0, 0, 4);
    step_refused(IMMARDUZH_DIM, (UINT64_C(1) << 32) + 2, 0, 1, 0);
    step_refused(IMMARDUZH_ORDER, 3, 0, 1, 0);
    step_refused(IMMARDUZH_ORDER, 2, 3, 1, 0);
    step_refused(IMMARDUZH_ORDER, 2, 0, 0, 0);
    step_refused(IMMARDUZH_ORDER, 2, 0, -2, 4);
    step_refused(IMMARDUZH_ORDER, 1, 0, 0, 0);
    step_refused(IMMARDUZH_SHAPE, 2, 0, -1, 4);
    step_refused(IMMARDUZH_SHAPE, 2, 0, 1, UINT64_C(1) << 32);
    step_refused(IMMARDUZH_SHAPE, 2, 0, 1, UINT64_MAX);
    group("step's refusals, the state as it came");
}

static const uint8_t example[16] = {0x01, 0x02, 0x72, 0xD8, 0x02, 0x03, 0x07, 0x00, 0x04, 0x00, 0x00, 0x00, 0x64, 0x6D, 0x75, 0x6C};
static const char listed[] = "plan 2 7 3\nstart 1 2\n1 01\n2 11\n3 00\n4 10\n5 11\n6 01\n7 10\nvalue 49 3b\n";
static uint8_t text[IMMARDUZH_TEXT_BYTES + 1], big[IMMARDUZH_LISTED_BYTES + 1];

/* The listing of a file is these words, and the buffer past them is as it came. */
static void lists(const uint8_t *file, size_t bytes, const char *words)
{
    uint64_t length = 77;
    size_t many = strlen(words);
    memset(text, 0xA5, sizeof text);
    WANT(immarduzh_listing(file, bytes, text, IMMARDUZH_TEXT_BYTES, &length) == IMMARDUZH_OK && length == many);
    WANT(memcmp(text, words, many) == 0 && untouched(text + many, sizeof text - many));
}

/* The listing of a file into a buffer of so many bytes is refused with a number: the length is 0, and the buffer is as it came. */
static void not_listed(uint64_t number, const uint8_t *file, size_t bytes, size_t room)
{
    uint64_t length = 77;
    memset(text, 0xA5, sizeof text);
    WANT(immarduzh_listing(file, bytes, text, room, &length) == number && length == 0);
    WANT(untouched(text, sizeof text));
}

static void plan_file(void)
{
    uint64_t d, l, row, offset, length;
    about = "the plan file of 73 59";
    clear();
    WANT(pack(&plans[7]) == IMMARDUZH_OK && memcmp(out.packed, example, 16) == 0 && untouched(out.packed + 16, 1));
    WANT(immarduzh_unpack(example, 16, &d, &l, &row) == IMMARDUZH_OK && d == 2 && l == 7 && row == 3);
    WANT(immarduzh_body(example, 16, &offset, &length) == IMMARDUZH_OK && offset == 0 && length == 4);
    lists(example, 16, listed);
    memset(big, 0xFF, sizeof big);
    memcpy(big + sizeof big - 16, example, 16);
    WANT(immarduzh_unpack(big, sizeof big, &d, &l, &row) == IMMARDUZH_OK && d == 2 && l == 7 && row == 3);
    WANT(immarduzh_body(big, sizeof big, &offset, &length) == IMMARDUZH_OK && offset == sizeof big - 16 && length == 4);
    lists(big + 1, IMMARDUZH_LISTED_BYTES, listed);
    group("plan file and listing of the rules");
}

/* The example with one or two other bytes from a place on, from its first byte or a later one. */
static void file_refused(uint64_t number, size_t from, size_t at, uint8_t byte, size_t at_2, uint8_t byte_2)
{
    uint8_t file[16];
    uint64_t d = 77, l = 77, row = 77, offset = 77, length = 77;
    memcpy(file, example, 16);
    file[at] = byte;
    file[at_2] = byte_2;
    WANT(immarduzh_unpack(file + from, 16 - from, &d, &l, &row) == number && d == 0 && l == 0 && row == 0);
    WANT(immarduzh_body(file + from, 16 - from, &offset, &length) == number && offset == 0 && length == 0);
    not_listed(number, file + from, 16 - from, IMMARDUZH_TEXT_BYTES);
    not_listed(IMMARDUZH_SHAPE, file + from, 16 - from, IMMARDUZH_TEXT_BYTES - 1);
}

static void file_refusals(void)
{
    about = "plan files that are refused";
    file_refused(IMMARDUZH_TRAILER, 16, 0, 1, 0, 1); /* no bytes */
    file_refused(IMMARDUZH_TRAILER, 5, 0, 1, 0, 1);  /* 11 bytes */
    file_refused(IMMARDUZH_TRAILER, 1, 0, 1, 0, 1);  /* a body that begins before the file */
    file_refused(IMMARDUZH_TRAILER, 0, 15, 0x32, 4, 9);
    file_refused(IMMARDUZH_DIM, 0, 4, 9, 4, 9);
    file_refused(IMMARDUZH_DIM, 0, 4, 0, 7, 3);
    file_refused(IMMARDUZH_LENGTH, 0, 6, 0x41, 7, 2);
    file_refused(IMMARDUZH_LENGTH, 0, 6, 0, 8, 5);
    file_refused(IMMARDUZH_TRAILER, 0, 8, 5, 8, 5);
    file_refused(IMMARDUZH_TRAILER, 0, 11, 1, 1, 1);
    file_refused(IMMARDUZH_ORDER, 0, 1, 1, 1, 1);
    file_refused(IMMARDUZH_ORDER, 0, 0, 3, 5, 4);
    file_refused(IMMARDUZH_ROW, 0, 5, 4, 5, 4);
    file_refused(IMMARDUZH_ROW, 0, 5, 0, 5, 0);
    group("refusals of plan files");
}

/* 10 comes before 3, and both before what the file holds: the example behind other bytes, then with another mark. */
static void listing_refusals(void)
{
    static const size_t other[] = {0, 1, IMMARDUZH_TEXT_BYTES - 1, IMMARDUZH_TEXT_BYTES + 1};
    static const uint8_t mark_ends[] = {0x6C, 0x32};
    size_t i, j;
    about = "listing";
    memset(big, 0xFF, sizeof big);
    memcpy(big + sizeof big - 16, example, 16);
    for (i = 0; i < COUNT(mark_ends); i++) {
        big[sizeof big - 1] = mark_ends[i];
        for (j = 0; j < COUNT(other); j++) {
            not_listed(IMMARDUZH_SHAPE, big + 1, IMMARDUZH_LISTED_BYTES, other[j]);
            not_listed(IMMARDUZH_BIG, big, sizeof big, other[j]);
        }
        not_listed(IMMARDUZH_BIG, big, sizeof big, IMMARDUZH_TEXT_BYTES);
    }
    not_listed(IMMARDUZH_TRAILER, big + 1, IMMARDUZH_LISTED_BYTES, IMMARDUZH_TEXT_BYTES);
    group("refusals of listing");
}

/* Null with count 0 is an empty buffer. */
static void empty_buffers(void)
{
    uint64_t a = 77, b = 77, c = 77;
    about = "empty buffers";
    WANT(immarduzh_encode(1, 1, NULL, 0, NULL, 0, NULL, 0, &a) == IMMARDUZH_SHAPE && a == 0);
    WANT(immarduzh_decode(1, 1, NULL, 0, NULL, 0, 1, NULL, 0) == IMMARDUZH_SHAPE);
    a = 77;
    WANT(immarduzh_check(1, 1, NULL, 0, NULL, 0, 1, NULL, 0, &a) == IMMARDUZH_SHAPE && a == 0);
    a = 77;
    WANT(immarduzh_trace(1, 1, NULL, 0, NULL, 0, 1, NULL, 0, &a, &b) == IMMARDUZH_SHAPE && a == 0 && b == 0);
    a = b = 77;
    WANT(immarduzh_plain_run(1, 1, NULL, 0, NULL, 0, 1, 0, NULL, 0, NULL, 0, &a, &b, &c) == IMMARDUZH_SHAPE && a + b + c == 0);
    a = b = c = 77;
    WANT(immarduzh_difference_run(1, 1, NULL, 0, NULL, 0, 1, 0, NULL, 0, NULL, 0, &a, &b, &c) == IMMARDUZH_SHAPE && a + b + c == 0);
    WANT(immarduzh_pack(1, 1, NULL, 0, NULL, 0, 1, NULL, 0) == IMMARDUZH_SHAPE);
    a = b = c = 77;
    WANT(immarduzh_unpack(NULL, 0, &a, &b, &c) == IMMARDUZH_TRAILER && a == 0 && b == 0 && c == 0);
    a = b = 77;
    WANT(immarduzh_body(NULL, 0, &a, &b) == IMMARDUZH_TRAILER && a == 0 && b == 0);
    a = 77;
    WANT(immarduzh_listing(NULL, 0, NULL, 0, &a) == IMMARDUZH_SHAPE && a == 0);
    not_listed(IMMARDUZH_TRAILER, NULL, 0, IMMARDUZH_TEXT_BYTES);
    group("empty buffers");
}

/* The header's lengths: those that the plans of the rules are lent with, and the largest. */
static void lengths(void)
{
    size_t i;
    about = "lengths";
    for (i = 0; i < COUNT(plans); i++) {
        const struct input *in = &plans[i];
        WANT(immarduzh_scalars_words(in->d, in->l) == in->count[SCALARS]);
        WANT(immarduzh_values_words(in->d, in->l) == in->count[VALUES]);
        WANT(immarduzh_bits_bytes(in->d, in->l) == in->count[BITS]);
        WANT(immarduzh_trace_bytes(in->d, in->l) == in->count[TRACE]);
        WANT(immarduzh_file_bytes(in->d, in->l) == in->count[PACKED]);
    }
    WANT(immarduzh_scalars_words(8, 576) == IMMARDUZH_LARGEST_SCALARS && immarduzh_values_words(8, 576) == IMMARDUZH_LARGEST_VALUES);
    WANT(immarduzh_bits_bytes(8, 576) == IMMARDUZH_LARGEST_BITS && immarduzh_trace_bytes(8, 576) == IMMARDUZH_LARGEST_TRACE);
    WANT(immarduzh_file_bytes(8, 576) == IMMARDUZH_LARGEST_FILE && immarduzh_values_words(3, 64) == 6);
    WANT(immarduzh_bits_bytes(0, 1) == 0 && immarduzh_trace_bytes(9, 1) == 0 && immarduzh_file_bytes(1, 577) == 0);
    WANT(immarduzh_scalars_words(UINT64_MAX, UINT64_MAX) == 0 && immarduzh_values_words(1, 0) == 0);
    group("lengths of the header");
}

/* The largest plan, from scalars and back: buffers of the header's largest lengths. */
static uint64_t scalars[IMMARDUZH_LARGEST_SCALARS], values[IMMARDUZH_LARGEST_VALUES];
static uint8_t start[IMMARDUZH_LARGEST_D], bits[IMMARDUZH_LARGEST_BITS], entries[IMMARDUZH_LARGEST_TRACE], file[IMMARDUZH_LARGEST_FILE];
static uint64_t plain[IMMARDUZH_LARGEST_REGISTERS], difference[IMMARDUZH_LARGEST_REGISTERS];

/* Fills the scalars, nine words each, with words that look random, and counts the odd ones. Answers what a run modulo 2^64 with elements
   1..8 must answer, which the lowest words decide. */
static uint64_t fill(uint64_t *odd)
{
    uint64_t word = 2020, combined = 0;
    size_t i;
    *odd = 0;
    for (i = 0; i < IMMARDUZH_LARGEST_SCALARS; i++) {
        word = word * UINT64_C(6364136223846793005) + UINT64_C(1442695040888963407);
        scalars[i] = word ^ word >> 29;
        *odd += i % 9 == 0 && scalars[i] % 2 == 1;
        combined += i % 9 == 0 ? scalars[i] * (i / 9 + 1) : 0;
    }
    return combined;
}

static void largest_read(uint64_t row)
{
    uint64_t yes = 77, doublings = 77, additions = 77;
    size_t j;
    WANT(immarduzh_decode(8, 576, start, 8, bits, 576, row, values, 80) == IMMARDUZH_OK);
    for (j = 0; j < 8; j++)
        WANT(memcmp(values + 10 * j, scalars + 9 * j, 72) == 0 && values[10 * j + 9] == 0);
    WANT(immarduzh_check(8, 576, start, 8, bits, 576, row, scalars, 72, &yes) == IMMARDUZH_OK && yes == 1);
    scalars[71] ^= UINT64_C(1) << 63;
    WANT(immarduzh_check(8, 576, start, 8, bits, 576, row, scalars, 72, &yes) == IMMARDUZH_OK && yes == 0);
    WANT(immarduzh_trace(8, 576, start, 8, bits, 576, row, entries, sizeof entries, &doublings, &additions) == IMMARDUZH_OK);
    WANT(doublings == 576 && additions == 8 * 576);
}

static void largest_file(uint64_t row)
{
    uint64_t d = 77, l = 77, answer_row = 77, offset = 77, length = 77;
    WANT(immarduzh_pack(8, 576, start, 8, bits, 576, row, file, sizeof file) == IMMARDUZH_OK);
    WANT(immarduzh_unpack(file, sizeof file, &d, &l, &answer_row) == IMMARDUZH_OK && d == 8 && l == 576 && answer_row == row);
    WANT(immarduzh_body(file, sizeof file, &offset, &length) == IMMARDUZH_OK && offset == 0 && length == 584);
    WANT(memcmp(file, start, 8) == 0 && memcmp(file + 8, bits, 576) == 0);
}

static void largest(void)
{
    const uint64_t elements[] = {1, 2, 3, 4, 5, 6, 7, 8};
    uint64_t odd, row = 77, answer = 77, other = 77, doublings = 77, additions = 77;
    uint64_t combined = fill(&odd);
    about = "the largest plan";
    WANT(immarduzh_encode(8, 576, scalars, 72, start, 8, bits, 576, &row) == IMMARDUZH_OK && row == 1 + odd);
    WANT(immarduzh_plain_run(8, 576, start, 8, bits, 576, row, 0, elements, 8, plain, 9, &answer, &doublings, &additions) == IMMARDUZH_OK);
    WANT(answer == combined && plain[row - 1] == combined && doublings == 576 && additions == 8 * 576);
    WANT(immarduzh_difference_run(8, 576, start, 8, bits, 576, row, 0, elements, 8, difference, 9, &other, &doublings, &additions) ==
         IMMARDUZH_OK);
    WANT(other == combined && doublings == 576 && additions == 8 * 576 && memcmp(plain, difference, sizeof plain) == 0);
    largest_read(row);
    largest_file(row);
    group("the largest plan, from scalars and back");
}

int main(void)
{
    plans_worked();
    check_says_no();
    trace_worked();
    runs_worked();
    step_worked();
    edges();
    moduli();
    refusals();
    wide_numbers();
    step_refusals();
    plan_file();
    file_refusals();
    listing_refusals();
    empty_buffers();
    lengths();
    largest();
    printf("%lu tests in %lu groups passed\n", tests, groups);
    return 0;
}
