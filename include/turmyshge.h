/*
 * turmyshge.h: steps over one value of Thrift's binary protocol, for C99 and C++.
 *
 *     uint8_t record[TURMYSHGE_RECORD_SIZE];
 *     thrift_skip(bytes, length, place, TURMYSHGE_DEFAULT_DEPTH, type, record, sizeof record);
 *     if (turmyshge_refusal(record) == TURMYSHGE_ACCEPTED)
 *         place = turmyshge_end(record);       the next field begins here
 *     else
 *         return turmyshge_refusal(record);    no value ends here: do not read on
 *
 * thrift_skip works under the default limits. thrift_skip_within works under the caller's own, and inside structs that
 * the caller has begun: what a reader wants who meets an unknown field.
 *
 * The functions stand in libhost.a, which `tools/staticlib host` proves and writes for x86-64. What is said of them here
 * is proved of their source for every input. That these declarations are the compiled functions' is not: examples/c
 * checks them by calling them.
 */
#ifndef TURMYSHGE_H
#define TURMYSHGE_H

#include <stddef.h>
#include <stdint.h>

/* Places, lengths, depths and counts have 64 bits in the archive, so it can't be called where size_t has fewer. */
typedef char turmyshge_size_has_64_bits[sizeof(size_t) == 8 ? 1 : -1];

/* The bytes that a record needs. */
#define TURMYSHGE_RECORD_SIZE 24

/* The usual depth of a skip, and the greatest. A value takes one level, and each value inside it one more. */
#define TURMYSHGE_DEFAULT_DEPTH 64
#define TURMYSHGE_GREATEST_DEPTH 127

/*
 * Bytes of stack that suffice for a call of any depth. That is measured and not proved: a call takes 272 bytes a level
 * and 34,824 for all 127, on an x86-64 machine; examples/c/stack.c measures it where it is run.
 */
#define TURMYSHGE_STACK 65536

/* Where a limit is asked for: no limit. No text, container or message is long enough to tell it from the number. */
#define TURMYSHGE_NO_LIMIT SIZE_MAX

/* The default limits, which thrift_skip works under; that on the elements of a container is TURMYSHGE_NO_LIMIT. */
#define TURMYSHGE_DEFAULT_MESSAGE 104857600
#define TURMYSHGE_DEFAULT_STRUCTS 64
#define TURMYSHGE_DEFAULT_CONTAINER TURMYSHGE_NO_LIMIT
#define TURMYSHGE_DEFAULT_STRING 104857600

/* What both functions return. */
enum turmyshge_return {
    /* The record's first 24 bytes hold the answer, accepted or refused. */
    TURMYSHGE_ANSWERED = 0,
    /* The record has fewer than 24 bytes. Nothing else was looked at, and the record is untouched. */
    TURMYSHGE_RECORD_TOO_SHORT = 15
};

/*
 * The first number in a record: accepted, or one of the refusals that the calls can give. The numbers are those of the
 * whole codec (docs/REFUSALS.md); the ones left out belong to its other calls. The first fault met is the answer: 2,
 * then 20, then 5 for the type asked for, then the value's own in the order of its bytes.
 */
enum turmyshge_number {
    /* A value of the type stands there, within the depth and the limits. */
    TURMYSHGE_ACCEPTED = 0,
    /* Short input: a byte, a number, a UUID or a text's body is not wholly there. Place: its first byte. */
    TURMYSHGE_SHORT_INPUT = 1,
    /* The start lies beyond the bytes. Place: the start. Count: 0. */
    TURMYSHGE_START_BEYOND = 2,
    /* A type byte that stands for nothing. Place: that byte; the start, with count 0, where it is the one asked for. */
    TURMYSHGE_UNKNOWN_TYPE = 5,
    /* A negative length or size. Place: its first byte. */
    TURMYSHGE_NEGATIVE_SIZE = 6,
    /* A text longer than the string limit. Place: the first byte of its length. */
    TURMYSHGE_STRING_LIMIT = 7,
    /* A container of more elements, or pairs, than the container limit; from thrift_skip_within alone, as there is no
       such limit by default. Place: the first byte of its size. */
    TURMYSHGE_CONTAINER_LIMIT = 8,
    /* A container whose elements, a map's keys and values together, take more bytes than the message limit even if each
       is as short as its type allows: 1 byte for a bool, byte or struct; 2, 4, 8 or 16 for other numbers and UUIDs; 4
       for a text or container. Place: the first byte of its size. */
    TURMYSHGE_MESSAGE_LIMIT = 9,
    /* The depth is used up. Place: where the value would begin. */
    TURMYSHGE_SKIP_DEPTH = 10,
    /* A struct inside as many others as the limit on structs says, or inside 65,535. Place: where the struct would
       begin. */
    TURMYSHGE_STRUCT_DEPTH = 11,
    /* Stop or Void, of which there are no values. Place: where the value would begin. */
    TURMYSHGE_WRONG_TYPE = 12,
    /* A depth above 127 or a struct depth above 65,535 was asked for. Place: the start. Count: 0. */
    TURMYSHGE_DEPTH_BEYOND = 20
};

/* Type bytes. Any other is refused with 5. */
enum turmyshge_type {
    TURMYSHGE_STOP = 0x00,
    TURMYSHGE_VOID = 0x01,
    TURMYSHGE_BOOL = 0x02,
    TURMYSHGE_I08 = 0x03,
    TURMYSHGE_DOUBLE = 0x04,
    TURMYSHGE_I16 = 0x06,
    TURMYSHGE_I32 = 0x08,
    TURMYSHGE_I64 = 0x0a,
    TURMYSHGE_STRING = 0x0b,
    TURMYSHGE_STRUCT = 0x0c,
    TURMYSHGE_MAP = 0x0d,
    TURMYSHGE_SET = 0x0e,
    TURMYSHGE_LIST = 0x0f,
    TURMYSHGE_UUID = 0x10
};

#ifdef __cplusplus
extern "C" {
#endif

/*
 * Steps over the value of type `type` that starts at bytes[place], down to `depth` levels (0 to 127), under the default
 * limits and with no struct open around it.
 *
 * Every call answers, whatever the bytes and numbers are. The bytes are only read, and only inside `length`. Of the
 * record, the first 24 bytes are set where it has as many, in refused calls too; the others stay as they were. There
 * is no other state: calls may be made from any thread.
 *
 * Each pointer must lead to as many bytes as its length says (NULL will do for none), and the two must not overlap.
 *
 * The record is three big-endian numbers of 8 bytes:
 *
 *     offset 0     0 where accepted, or the refusal's number (enum turmyshge_number)
 *     offset 8     accepted: the end, the place just after the value; refused: the place of the fault
 *     offset 16    accepted: the values passed, the value itself and each one inside it; refused: the values begun
 *
 * The count is at most the bytes passed; refused, at most one above the bytes from the start to the place.
 *
 * Returns an enum turmyshge_return.
 */
uint32_t thrift_skip(const uint8_t *bytes, size_t length, size_t place, size_t depth, uint8_t type,
                     uint8_t *record, size_t record_length);

/*
 * The same where `struct_depth` structs are open around the value (0 to 65,535; 1 for a field of the outermost struct),
 * and under these limits, each a number or TURMYSHGE_NO_LIMIT; what is equal to its limit passes:
 *
 *     message      bytes that a container's elements must at least take
 *     structs      structs open at once, those around the value counted
 *     container    elements, or pairs, in a container
 *     string       bytes in a text
 *
 * With struct_depth 0 and the default limits it is thrift_skip.
 */
uint32_t thrift_skip_within(const uint8_t *bytes, size_t length, size_t place, size_t depth, uint8_t type,
                            size_t struct_depth, size_t message, size_t structs, size_t container, size_t string,
                            uint8_t *record, size_t record_length);

#ifdef __cplusplus
}
#endif

/* The big-endian number at an offset of a record. */
static inline size_t turmyshge_number_at(const uint8_t *record, size_t offset)
{
    size_t number = 0;
    size_t i;
    for (i = 0; i < 8; i++)
        number = number << 8 | record[offset + i];
    return number;
}

/* The readers of a record. They mean something once either function has returned 0 for it. */

/* 0 where accepted, or the refusal's number. */
static inline size_t turmyshge_refusal(const uint8_t *record)
{
    return turmyshge_number_at(record, 0);
}

/* The place just after an accepted value. */
static inline size_t turmyshge_end(const uint8_t *record)
{
    return turmyshge_number_at(record, 8);
}

/* The place of a refused value's fault. It has the same offset as the end. */
static inline size_t turmyshge_place(const uint8_t *record)
{
    return turmyshge_number_at(record, 8);
}

/* The values passed, or begun. */
static inline size_t turmyshge_count(const uint8_t *record)
{
    return turmyshge_number_at(record, 16);
}

#endif
