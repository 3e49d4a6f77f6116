/*
 * Calls thrift_skip and thrift_skip_within on bodies that they accept and refuse, prints what they answer, and holds
 * each answer against what the rules say. "W" names are the rules' own cases. Exits with 1 where an answer is wrong.
 */
#include <stdio.h>
#include <string.h>

#include "turmyshge.h"

/* A body from a string of escapes, without the 0 that C puts after it. */
#define BODY(text) (const uint8_t *)(text), sizeof(text) - 1

enum { UNTOUCHED = 0xee, ROOM = 1024 };

static unsigned checks;
static unsigned wrong;
static uint32_t refusals_given; /* bit n: refusal n was given */

static void judge(const char *what, int right)
{
    checks++;
    if (!right)
        wrong++;
    printf("%s%s\n", what, right ? "" : "   WRONG");
}

static int untouched(const uint8_t *bytes, size_t length)
{
    size_t i;
    for (i = 0; i < length; i++)
        if (bytes[i] != UNTOUCHED)
            return 0;
    return 1;
}

/* How a skip is asked for: from where, how deep, of which type. */
struct start {
    size_t place;
    size_t depth;
    uint8_t type;
};

/* What thrift_skip_within takes besides. */
struct within {
    size_t struct_depth;
    size_t message;
    size_t structs;
    size_t container;
    size_t string;
};

static const struct within by_default = {0, TURMYSHGE_DEFAULT_MESSAGE, TURMYSHGE_DEFAULT_STRUCTS,
                                         TURMYSHGE_DEFAULT_CONTAINER, TURMYSHGE_DEFAULT_STRING};
static const struct within unlimited = {0, TURMYSHGE_NO_LIMIT, TURMYSHGE_NO_LIMIT, TURMYSHGE_NO_LIMIT,
                                        TURMYSHGE_NO_LIMIT};

static uint32_t skip_within(const uint8_t *bytes, size_t length, struct start at, struct within in, uint8_t *record,
                            size_t record_length)
{
    return thrift_skip_within(bytes, length, at.place, at.depth, at.type, in.struct_depth, in.message, in.structs,
                              in.container, in.string, record, record_length);
}

/* Holds a skip's return and record against what they should be, and the bytes after them against what they were. */
static void hold(const char *what, uint32_t returned, const uint8_t *record, size_t record_length, size_t number,
                 size_t place, size_t count)
{
    char line[256];
    size_t refusal = turmyshge_refusal(record);
    int right = returned == TURMYSHGE_ANSWERED && refusal == number && turmyshge_place(record) == place &&
                turmyshge_count(record) == count;

    if (refusal == TURMYSHGE_ACCEPTED) {
        snprintf(line, sizeof line, "%s: end %zu, count %zu", what, turmyshge_end(record), turmyshge_count(record));
    } else {
        snprintf(line, sizeof line, "%s: refusal %zu at %zu, count %zu", what, refusal, turmyshge_place(record),
                 turmyshge_count(record));
        if (refusal < 32)
            refusals_given |= UINT32_C(1) << refusal;
    }
    right = right && untouched(record + TURMYSHGE_RECORD_SIZE, record_length - TURMYSHGE_RECORD_SIZE);
    judge(line, right);
}

/* One skip under given limits. The record is longer than it need be, to see that the call leaves the rest alone. */
static void ask_within(const char *what, const uint8_t *bytes, size_t length, struct start at, struct within in,
                       size_t number, size_t place, size_t count)
{
    uint8_t record[TURMYSHGE_RECORD_SIZE + 8];
    uint32_t returned;

    memset(record, UNTOUCHED, sizeof record);
    returned = skip_within(bytes, length, at, in, record, sizeof record);
    hold(what, returned, record, sizeof record, number, place, count);
}

/* One skip under the default limits, by both functions: the second, told the defaults, answers as the first. */
static void ask(const char *what, const uint8_t *bytes, size_t length, size_t start, size_t depth, uint8_t type,
                size_t number, size_t place, size_t count)
{
    struct start at = {start, depth, type};
    uint8_t before[ROOM];
    uint8_t record[TURMYSHGE_RECORD_SIZE + 8];
    uint8_t other[sizeof record];
    uint32_t returned;
    int same;

    if (length > 0)
        memcpy(before, bytes, length);
    memset(record, UNTOUCHED, sizeof record);
    memset(other, UNTOUCHED, sizeof other);
    returned = thrift_skip(bytes, length, start, depth, type, record, sizeof record);
    hold(what, returned, record, sizeof record, number, place, count);
    same = skip_within(bytes, length, at, by_default, other, sizeof other) == returned;
    same = same && memcmp(record, other, sizeof record) == 0;
    same = same && (length == 0 || memcmp(before, bytes, length) == 0);
    if (!same)
        judge("   and within the defaults, and of bytes that stay as they were", 0);
}

static void accepts(const char *what, const uint8_t *bytes, size_t length, size_t start, size_t depth, uint8_t type,
                    size_t end, size_t count)
{
    ask(what, bytes, length, start, depth, type, TURMYSHGE_ACCEPTED, end, count);
}

/* A record that is too short: 15 before any other fault, and not a byte of the record written. */
static void too_short(const char *what, size_t start, size_t depth, uint8_t type, uint8_t *record, size_t length)
{
    const uint8_t body[1] = {2};
    uint32_t returned = thrift_skip(body, sizeof body, start, depth, type, record, length);
    char line[256];

    snprintf(line, sizeof line, "%s: returns %u", what, (unsigned)returned);
    judge(line, returned == TURMYSHGE_RECORD_TOO_SHORT && untouched(record, length));
}

/* The same of thrift_skip_within. */
static void too_short_within(const char *what, struct start at, struct within in, uint8_t *record, size_t length)
{
    const uint8_t body[1] = {2};
    uint32_t returned = skip_within(body, sizeof body, at, in, record, length);
    char line[256];

    snprintf(line, sizeof line, "%s: returns %u", what, (unsigned)returned);
    judge(line, returned == TURMYSHGE_RECORD_TOO_SHORT && untouched(record, length));
}

/* So many structs, each the first field of the one around it. */
static size_t nested_structs(uint8_t *out, size_t structs)
{
    size_t length = 0;
    size_t i;
    for (i = 1; i < structs; i++) {
        out[length++] = TURMYSHGE_STRUCT;
        out[length++] = 0;
        out[length++] = 1;
    }
    for (i = 0; i < structs; i++)
        out[length++] = TURMYSHGE_STOP;
    return length;
}

/* So many lists, each the only element of the one around it; the innermost is empty. */
static size_t nested_lists(uint8_t *out, size_t lists)
{
    size_t i;
    for (i = 0; i < lists; i++) {
        const uint8_t header[5] = {TURMYSHGE_LIST, 0, 0, 0, (uint8_t)(i + 1 < lists)};
        memcpy(out + 5 * i, header, sizeof header);
    }
    return 5 * lists;
}

static void returns(void)
{
    uint8_t record[TURMYSHGE_RECORD_SIZE];

    memset(record, UNTOUCHED, sizeof record);
    too_short("record of 23 bytes", 0, 1, TURMYSHGE_BOOL, record, 23);
    too_short("record of 23 bytes, start beyond", 2, 1, TURMYSHGE_BOOL, record, 23);
    too_short("record of 23 bytes, depth 128", 0, 128, TURMYSHGE_BOOL, record, 23);
    too_short("record of 23 bytes, unknown type", 0, 1, 0x05, record, 23);
    too_short("no record", 0, 1, TURMYSHGE_BOOL, NULL, 0);
    too_short_within("within: record of 23 bytes", (struct start){0, 1, TURMYSHGE_BOOL}, unlimited, record, 23);
    too_short_within("within: record of 23 bytes, all else wrong", (struct start){2, 128, 0x05},
                     (struct within){65536, 0, 0, 0, 0}, record, 23);
    too_short_within("within: no record", (struct start){0, 1, TURMYSHGE_BOOL}, unlimited, NULL, 0);
    judge("record of 24 bytes: returns 0",
          thrift_skip(BODY("\x02"), 0, 1, TURMYSHGE_BOOL, record, sizeof record) == TURMYSHGE_ANSWERED &&
              turmyshge_end(record) == 1);
}

static void accepted(void)
{
    uint8_t nested[ROOM];
    size_t length;

    accepts("W4 bool, depth 1", BODY("\x02"), 0, 1, TURMYSHGE_BOOL, 1, 1);
    accepts("W5 list of two bytes, depth 2", BODY("\x03\0\0\0\x02\x05\x06"), 0, 2, TURMYSHGE_LIST, 7, 3);
    accepts("W7 empty list of Void", BODY("\x01\0\0\0\0"), 0, 1, TURMYSHGE_LIST, 5, 1);
    accepts("W9 struct of one i32", BODY("\x08\0\x01\0\0\0\x09\0"), 0, 2, TURMYSHGE_STRUCT, 8, 2);

    accepts("i08", BODY("\xff"), 0, 1, TURMYSHGE_I08, 1, 1);
    accepts("i16", BODY("\xff\xff"), 0, 1, TURMYSHGE_I16, 2, 1);
    accepts("i32", BODY("\xff\xff\xff\xff"), 0, 1, TURMYSHGE_I32, 4, 1);
    accepts("i64", BODY("\0\0\0\0\0\0\0\x19"), 0, 1, TURMYSHGE_I64, 8, 1);
    accepts("double", BODY("\x40\x09\x21\xfb\x54\x44\x2d\x18"), 0, 1, TURMYSHGE_DOUBLE, 8, 1);
    accepts("uuid", BODY("0123456789abcdef"), 0, 1, TURMYSHGE_UUID, 16, 1);
    accepts("text that is not UTF-8", BODY("\0\0\0\x02\xff\xfe"), 0, 1, TURMYSHGE_STRING, 6, 1);
    accepts("set of two bools", BODY("\x02\0\0\0\x02\x01\0"), 0, 2, TURMYSHGE_SET, 7, 3);
    accepts("map of one text to one byte", BODY("\x0b\x03\0\0\0\x01\0\0\0\x01k\x07"), 0, 2, TURMYSHGE_MAP, 12, 3);
    accepts("empty struct", BODY("\0"), 0, 1, TURMYSHGE_STRUCT, 1, 1);
    accepts("i16 after and before other bytes", BODY("\x09\x09\0\x07\x09"), 2, 64, TURMYSHGE_I16, 4, 1);

    length = nested_structs(nested, 64);
    accepts("64 structs in each other", nested, length, 0, 64, TURMYSHGE_STRUCT, 253, 64);
    length = nested_lists(nested, 127);
    accepts("127 lists in each other", nested, length, 0, 127, TURMYSHGE_LIST, 635, 127);
}

static void refused(void)
{
    uint8_t nested[ROOM];
    size_t length;

    ask("W4 bool, depth 0", BODY("\x02"), 0, 0, TURMYSHGE_BOOL, TURMYSHGE_SKIP_DEPTH, 0, 1);
    ask("W6 list of two bytes, depth 1", BODY("\x03\0\0\0\x02\x05\x06"), 0, 1, TURMYSHGE_LIST, TURMYSHGE_SKIP_DEPTH,
        5, 2);
    ask("W8 list of one Void", BODY("\x01\0\0\0\x01"), 0, 2, TURMYSHGE_LIST, TURMYSHGE_WRONG_TYPE, 5, 2);
    ask("W10 text of length -1", BODY("\xff\xff\xff\xff"), 0, 64, TURMYSHGE_STRING, TURMYSHGE_NEGATIVE_SIZE, 0, 1);

    ask("no bytes", NULL, 0, 0, 64, TURMYSHGE_BOOL, TURMYSHGE_SHORT_INPUT, 0, 1);
    ask("three bytes of an i32", BODY("\0\0\0"), 0, 64, TURMYSHGE_I32, TURMYSHGE_SHORT_INPUT, 0, 1);
    ask("15 bytes of a uuid", BODY("0123456789abcde"), 0, 64, TURMYSHGE_UUID, TURMYSHGE_SHORT_INPUT, 0, 1);
    ask("text with a byte missing", BODY("\0\0\0\x02k"), 0, 64, TURMYSHGE_STRING, TURMYSHGE_SHORT_INPUT, 4, 1);
    ask("struct with no Stop", BODY("\x03\0\x01\x07"), 0, 64, TURMYSHGE_STRUCT, TURMYSHGE_SHORT_INPUT, 4, 2);
    ask("field with half an id", BODY("\x03\0"), 0, 64, TURMYSHGE_STRUCT, TURMYSHGE_SHORT_INPUT, 1, 1);
    ask("list with an element missing", BODY("\x06\0\0\0\x02\0\x01"), 0, 64, TURMYSHGE_LIST, TURMYSHGE_SHORT_INPUT,
        7, 3);

    ask("start beyond", BODY("\x02"), 2, 64, TURMYSHGE_BOOL, TURMYSHGE_START_BEYOND, 2, 0);
    ask("start beyond, depth 128", BODY("\x02"), 2, 128, 0x05, TURMYSHGE_START_BEYOND, 2, 0);
    ask("depth 128", BODY("\x02"), 0, 128, TURMYSHGE_BOOL, TURMYSHGE_DEPTH_BEYOND, 0, 0);
    ask("depth 128, unknown type", BODY("\x02"), 0, 128, 0x05, TURMYSHGE_DEPTH_BEYOND, 0, 0);

    ask("unknown type asked for", BODY("\x02"), 1, 64, 0x05, TURMYSHGE_UNKNOWN_TYPE, 1, 0);
    ask("unknown type, depth 0", BODY("\x02"), 0, 0, 0x11, TURMYSHGE_UNKNOWN_TYPE, 0, 0);
    ask("field of unknown type", BODY("\x05"), 0, 64, TURMYSHGE_STRUCT, TURMYSHGE_UNKNOWN_TYPE, 0, 1);
    ask("empty list of unknown type", BODY("\x07\0\0\0\0"), 0, 64, TURMYSHGE_LIST, TURMYSHGE_UNKNOWN_TYPE, 0, 1);
    ask("map with values of unknown type", BODY("\x02\x09\0\0\0\0"), 0, 64, TURMYSHGE_MAP, TURMYSHGE_UNKNOWN_TYPE, 1,
        1);

    ask("list of size -1", BODY("\x02\xff\xff\xff\xff"), 0, 64, TURMYSHGE_LIST, TURMYSHGE_NEGATIVE_SIZE, 1, 1);
    ask("map of size -1", BODY("\x02\x02\xff\xff\xff\xff"), 0, 64, TURMYSHGE_MAP, TURMYSHGE_NEGATIVE_SIZE, 2, 1);

    /* A limit is on what is declared: at it the missing bytes are the fault, above it the size is. */
    ask("text of 104,857,600 bytes", BODY("\x06\x40\0\0"), 0, 64, TURMYSHGE_STRING, TURMYSHGE_SHORT_INPUT, 4, 1);
    ask("text of 104,857,601 bytes", BODY("\x06\x40\0\x01"), 0, 64, TURMYSHGE_STRING, TURMYSHGE_STRING_LIMIT, 0, 1);
    ask("list of 13,107,200 i64", BODY("\x0a\0\xc8\0\0"), 0, 64, TURMYSHGE_LIST, TURMYSHGE_SHORT_INPUT, 5, 2);
    ask("list of 13,107,201 i64", BODY("\x0a\0\xc8\0\x01"), 0, 64, TURMYSHGE_LIST, TURMYSHGE_MESSAGE_LIMIT, 1, 1);
    ask("map of 52,428,800 bools to bools", BODY("\x02\x02\x03\x20\0\0"), 0, 64, TURMYSHGE_MAP, TURMYSHGE_SHORT_INPUT,
        6, 2);
    ask("map of 52,428,801 bools to bools", BODY("\x02\x02\x03\x20\0\x01"), 0, 64, TURMYSHGE_MAP,
        TURMYSHGE_MESSAGE_LIMIT, 2, 1);

    length = nested_structs(nested, 65);
    ask("65 structs in each other", nested, length, 0, 127, TURMYSHGE_STRUCT, TURMYSHGE_STRUCT_DEPTH, 192, 65);
    length = nested_lists(nested, 127);
    ask("127 lists in each other, depth 126", nested, length, 0, 126, TURMYSHGE_LIST, TURMYSHGE_SKIP_DEPTH, 630, 127);

    ask("Stop asked for", BODY("\0"), 0, 64, TURMYSHGE_STOP, TURMYSHGE_WRONG_TYPE, 0, 1);
    ask("Void asked for", BODY("\0"), 1, 64, TURMYSHGE_VOID, TURMYSHGE_WRONG_TYPE, 1, 1);
    ask("field of Void", BODY("\x01\0\x01\0"), 0, 64, TURMYSHGE_STRUCT, TURMYSHGE_WRONG_TYPE, 3, 2);
    ask("list of one Stop", BODY("\0\0\0\0\x01"), 0, 64, TURMYSHGE_LIST, TURMYSHGE_WRONG_TYPE, 5, 2);
}

/* Inside open structs. */
static void inside(void)
{
    const struct start structs = {0, 127, TURMYSHGE_STRUCT};
    struct within in = by_default;
    uint8_t nested[ROOM];
    size_t length = nested_structs(nested, 64);

    ask_within("64 structs, none open", nested, length, structs, in, TURMYSHGE_ACCEPTED, 253, 64);
    in.struct_depth = 1;
    ask_within("64 structs inside one", nested, length, structs, in, TURMYSHGE_STRUCT_DEPTH, 189, 64);
    in.struct_depth = 64;
    ask_within("a struct inside 64", nested, length, structs, in, TURMYSHGE_STRUCT_DEPTH, 0, 1);
    in.struct_depth = 65536;
    ask_within("struct depth 65,536", BODY("\x02"), (struct start){1, 64, TURMYSHGE_BOOL}, in,
               TURMYSHGE_DEPTH_BEYOND, 1, 0);
    ask_within("struct depth 65,536, unknown type", BODY("\x02"), (struct start){1, 64, 0x05}, in,
               TURMYSHGE_DEPTH_BEYOND, 1, 0);
    ask_within("struct depth 65,536, start beyond", BODY("\x02"), (struct start){2, 64, 0x05}, in,
               TURMYSHGE_START_BEYOND, 2, 0);

    in = unlimited;
    length = nested_structs(nested, 127);
    ask_within("127 structs, no limits", nested, length, structs, in, TURMYSHGE_ACCEPTED, 505, 127);
    in.struct_depth = 65534;
    ask_within("127 structs inside 65,534", nested, length, structs, in, TURMYSHGE_STRUCT_DEPTH, 3, 2);
}

/* Under limits of the caller's own. */
static void limited(void)
{
    const struct start list = {0, 64, TURMYSHGE_LIST};
    const struct start map = {0, 64, TURMYSHGE_MAP};
    const struct start text = {0, 64, TURMYSHGE_STRING};
    struct within in = unlimited;

    ask_within("unknown type", BODY("\x02"), (struct start){1, 0, 0x05}, in, TURMYSHGE_UNKNOWN_TYPE, 1, 0);
    ask_within("text of 2,147,483,647 bytes", BODY("\x7f\xff\xff\xff"), text, in, TURMYSHGE_SHORT_INPUT, 4, 1);
    in.string = 1;
    ask_within("text of 1 byte at its limit", BODY("\0\0\0\x01k"), text, in, TURMYSHGE_ACCEPTED, 5, 1);
    ask_within("text of 2 bytes above it", BODY("\0\0\0\x02kk"), text, in, TURMYSHGE_STRING_LIMIT, 0, 1);
    in = unlimited;
    in.container = 1;
    ask_within("list of 1 at its limit", BODY("\x03\0\0\0\x01\x05"), list, in, TURMYSHGE_ACCEPTED, 6, 2);
    ask_within("list of 2 above it", BODY("\x03\0\0\0\x02\x05\x06"), list, in, TURMYSHGE_CONTAINER_LIMIT, 1, 1);
    ask_within("map of 2 above it", BODY("\x03\x03\0\0\0\x02"), map, in, TURMYSHGE_CONTAINER_LIMIT, 2, 1);
    in = unlimited;
    in.message = 2;
    ask_within("list of 2 bytes at the limit", BODY("\x03\0\0\0\x02\x05\x06"), list, in, TURMYSHGE_ACCEPTED, 7, 3);
    ask_within("list of 3 bytes above it", BODY("\x03\0\0\0\x03\x05\x06\x07"), list, in, TURMYSHGE_MESSAGE_LIMIT,
               1, 1);
    in = unlimited;
    in.structs = 0;
    ask_within("a struct where none may be", BODY("\0"), (struct start){0, 64, TURMYSHGE_STRUCT}, in,
               TURMYSHGE_STRUCT_DEPTH, 0, 1);
}

int main(void)
{
    static const int numbers[] = {
        TURMYSHGE_SHORT_INPUT,   TURMYSHGE_START_BEYOND,    TURMYSHGE_UNKNOWN_TYPE,  TURMYSHGE_NEGATIVE_SIZE,
        TURMYSHGE_STRING_LIMIT,  TURMYSHGE_CONTAINER_LIMIT, TURMYSHGE_MESSAGE_LIMIT, TURMYSHGE_SKIP_DEPTH,
        TURMYSHGE_STRUCT_DEPTH,  TURMYSHGE_WRONG_TYPE,      TURMYSHGE_DEPTH_BEYOND,
    };
    uint32_t refusals = 0;
    size_t i;

    returns();
    accepted();
    refused();
    inside();
    limited();
    for (i = 0; i < sizeof numbers / sizeof numbers[0]; i++)
        refusals |= UINT32_C(1) << numbers[i];
    judge("every refusal that the header names was given, and no other", refusals_given == refusals);

    printf("%u checks, %u wrong\n", checks, wrong);
    return wrong > 0;
}
