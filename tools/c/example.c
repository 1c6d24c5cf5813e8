/* Uses every function of include/rename.h once or more, prints what it answers, and checks what must stay as found. */
#include "rename.h"

#include <stdio.h>
#include <stdlib.h>
#include <string.h>

/* The longest record, and what a buffer holds before a call. */
#define F 256
#define FOUND 0xAA

/* The bytes of a record that stands here as a string. */
#define RECORD(s) (const uint8_t *)(s), sizeof(s) - 1

/* A call that takes a record. */
typedef uint32_t call(size_t f, uint8_t *work, size_t work_len, uint64_t counter, const uint8_t *input, size_t input_len, uint8_t *result,
                      size_t result_len, uint64_t told[4]);

static uint8_t work[RENAME_WORK_FACTOR * F];
static uint8_t result[5 * RENAME_LINE];

/* The worked example of docs/FORMAT.md: (mod x x). */
#define IDENTITY "CF\0\0\0\1\0\0" "SA\0\0\0\2\1x" "\0" "BVSA\0\0\0\3\1x"

/* (defun f x x). */
#define HELPER "HD\0\0\0\1\0\1f\0\0" "SA\0\0\0\2\1x" "BVSA\0\0\0\3\1x"

/* y = x and x = 1, in this sequence. */
#define BACKWARD "BL\2\0\0\0\7\0\0\2" "BB\0\0\0\0\0\0\0\0\0\1yBVSA\0\0\0\0\1x" "BB\0\0\0\0\0\0\0\0\0\1xBVSI\0\0\0\0\1\1" "BVSA\0\0\0\0\1y"

/* y = x and x = y, at location 7. */
#define RING "BL\2\0\0\0\7\0\0\2" "BB\0\0\0\0\0\0\0\0\0\1yBVSA\0\0\0\0\1x" "BB\0\0\0\0\0\0\0\0\0\1xBVSA\0\0\0\0\1y" "BVSN\0\0\0\0"

/* A form without args whose body is that ring. */
#define RING_FORM "CF\0\0\0\1\0\0" "SN\0\0\0\2" "\0" RING

/* Ends the program where something is not as it must be. */
static void must(int holds, const char *what)
{
    if (!holds) {
        printf("wrong: %s\n", what);
        exit(1);
    }
}

/* Puts the result buffer and the numbers into a known state. */
static void prepare(uint64_t told[4])
{
    memset(result, FOUND, sizeof result);
    for (int i = 0; i < RENAME_TOLD; i++)
        told[i] = 99;
}

/* Prints an answer; no byte behind those written may have changed. */
static void show_answer(const char *what, uint32_t number, const uint64_t told[4])
{
    printf("%s: number %u, place %llu, counter %llu, rounds %llu, length %llu\n", what, (unsigned)number,
           (unsigned long long)told[RENAME_PLACE], (unsigned long long)told[RENAME_COUNTER], (unsigned long long)told[RENAME_ROUNDS],
           (unsigned long long)told[RENAME_LENGTH]);
    must(told[RENAME_LENGTH] <= sizeof result, "the length is that of the buffer at most");
    for (size_t i = (size_t)told[RENAME_LENGTH]; i < sizeof result; i++)
        must(result[i] == FOUND, "the buffer behind the result stays as found");
}

/* Prints an answer and the bytes written. */
static void show(const char *what, uint32_t number, const uint64_t told[4])
{
    show_answer(what, number, told);
    size_t len = (size_t)told[RENAME_LENGTH];
    for (size_t i = 0; i < len; i++)
        printf("%s%02X", i == 0 ? "  " : " ", result[i]);
    if (len > 0)
        printf("\n");
}

/* Makes a name. */
static void name(const char *what, const uint8_t *bytes, size_t len, uint64_t counter, size_t room)
{
    uint64_t told[RENAME_TOLD];
    prepare(told);
    uint32_t number = rename_name(bytes, len, counter, result, room, told);
    show(what, number, told);
}

/* Calls with a record and so much room for the result; the record itself stays. */
static void with_record(const char *what, call *f, const uint8_t *bytes, size_t len, uint64_t counter, size_t room)
{
    uint8_t input[F];
    uint64_t told[RENAME_TOLD];
    must(len <= sizeof input, "the record is short enough");
    memcpy(input, bytes, len);
    prepare(told);
    uint32_t number = f(F, work, sizeof work, counter, input, len, result, room, told);
    show(what, number, told);
    must(memcmp(input, bytes, len) == 0, "the input stays as found");
}

/* Lays a form out in so much room, and prints its lines. */
static void page(const char *what, const uint8_t *bytes, size_t len, size_t room)
{
    uint64_t told[RENAME_TOLD];
    prepare(told);
    uint32_t number = rename_page(F, work, sizeof work, bytes, len, result, room, told);
    show_answer(what, number, told);
    fwrite(result, 1, (size_t)told[RENAME_LENGTH], stdout);
}

/* Reads a record of a kind. */
static void read_record(const char *what, uint8_t kind, const uint8_t *bytes, size_t len)
{
    uint64_t place = 99;
    uint32_t number = rename_read(kind, bytes, len, F, &place);
    printf("%s: number %u, place %llu\n", what, (unsigned)number, (unsigned long long)place);
}

int main(void)
{
    uint8_t long_name[252];
    memset(long_name, 'x', sizeof long_name);

    name("name x", RECORD("x"), 0, sizeof result);
    name("name without bytes", RECORD(""), 41, sizeof result);
    name("name of 252 bytes", long_name, sizeof long_name, 0, sizeof result);
    name("name, counter too large", RECORD("x"), (uint64_t)RENAME_MOST_COUNTER + 1, sizeof result);
    name("name, buffer of 4 bytes", RECORD("x"), 0, 4);

    read_record("read a form", RENAME_FORM, RECORD(IDENTITY));
    read_record("read a helper", RENAME_HELPER, RECORD(HELPER));
    read_record("read an assign", RENAME_ASSIGN, RECORD(BACKWARD));
    read_record("read a form without its last byte", RENAME_FORM, (const uint8_t *)IDENTITY, sizeof IDENTITY - 2);
    read_record("read a form as an assign", RENAME_ASSIGN, RECORD(IDENTITY));
    read_record("read an assign as kind 3", 3, RECORD(BACKWARD));

    with_record("order", rename_order, RECORD(BACKWARD), 5, sizeof result);
    with_record("order a ring", rename_order, RECORD(RING), 5, sizeof result);
    with_record("order, buffer of 1 byte", rename_order, RECORD(BACKWARD), 5, 1);

    with_record("whole form", rename_whole_form, RECORD(IDENTITY), 0, sizeof result);
    with_record("whole form, buffer of 34 bytes", rename_whole_form, RECORD(IDENTITY), 0, 34);
    with_record("whole form of a ring", rename_whole_form, RECORD(RING_FORM), 0, sizeof result);
    with_record("whole form of a helper", rename_whole_form, RECORD(HELPER), 0, sizeof result);
    with_record("children only", rename_children_only, RECORD(IDENTITY), 0, sizeof result);
    with_record("single helper", rename_single_helper, RECORD(HELPER), 0, sizeof result);

    page("page", RECORD(IDENTITY), sizeof result);
    page("page, buffer of 291 bytes", RECORD(IDENTITY), 4 * RENAME_LINE - 1);
    page("page of a helper", RECORD(HELPER), sizeof result);
    return 0;
}
