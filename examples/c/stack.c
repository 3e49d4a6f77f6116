/*
 * Measures the stack that a skip takes. Each call is made by a thread whose stack is a buffer that was painted before;
 * how far below the caller's own frame the paint is gone afterwards is what the call took. Exits with 1 where a skip of
 * the greatest depth takes more than TURMYSHGE_STACK.
 */
#define _XOPEN_SOURCE 700
#include <pthread.h>
#include <stdio.h>
#include <stdlib.h>
#include <string.h>

#include "turmyshge.h"

enum { PAINT = 0xa5, PAGE = 65536, ROOM = 1024 };

/* Enough for any figure that could be right, so that a wrong one is seen and nothing is overrun. */
static const size_t stack_size = 1 << 20;

/* A value of so many levels, each the only one in the one around it. */
struct body {
    const char *name;
    uint8_t type;
    uint8_t bytes[ROOM];
    size_t length;
};

static void nest(struct body *body, size_t levels, const uint8_t *around, size_t around_length, const uint8_t *inmost,
                 size_t inmost_length)
{
    size_t i;
    body->length = 0;
    for (i = 1; i < levels; i++) {
        memcpy(body->bytes + body->length, around, around_length);
        body->length += around_length;
    }
    memcpy(body->bytes + body->length, inmost, inmost_length);
    body->length += inmost_length;
}

static struct body structs(size_t levels)
{
    const uint8_t field[3] = {TURMYSHGE_STRUCT, 0, 1};
    struct body body = {"structs", TURMYSHGE_STRUCT, {0}, 0};
    nest(&body, levels, field, sizeof field, field, 0);
    /* a Stop for each */
    memset(body.bytes + body.length, TURMYSHGE_STOP, levels);
    body.length += levels;
    return body;
}

static struct body lists(size_t levels)
{
    const uint8_t one[5] = {TURMYSHGE_LIST, 0, 0, 0, 1};
    const uint8_t none[5] = {TURMYSHGE_LIST, 0, 0, 0, 0};
    struct body body = {"lists", TURMYSHGE_LIST, {0}, 0};
    nest(&body, levels, one, sizeof one, none, sizeof none);
    return body;
}

/* The last one's only value is a text, which takes a level too. */
static struct body lists_of_text(size_t levels)
{
    const uint8_t one[5] = {TURMYSHGE_LIST, 0, 0, 0, 1};
    const uint8_t text[9] = {TURMYSHGE_STRING, 0, 0, 0, 1, 0, 0, 0, 0};
    struct body body = {"lists around a text", TURMYSHGE_LIST, {0}, 0};
    nest(&body, levels - 1, one, sizeof one, text, sizeof text);
    return body;
}

static struct body maps(size_t levels)
{
    const uint8_t one[7] = {TURMYSHGE_BOOL, TURMYSHGE_MAP, 0, 0, 0, 1, 1};
    const uint8_t none[6] = {TURMYSHGE_BOOL, TURMYSHGE_MAP, 0, 0, 0, 0};
    struct body body = {"maps", TURMYSHGE_MAP, {0}, 0};
    nest(&body, levels, one, sizeof one, none, sizeof none);
    return body;
}

/* One call by a thread: whether it accepted all of the body, and where the caller's frame stands. */
struct call {
    const struct body *body;
    int passed;
    uintptr_t frame;
};

static void *make(void *argument)
{
    struct call *call = argument;
    const struct body *body = call->body;
    uint8_t record[TURMYSHGE_RECORD_SIZE];

    thrift_skip_within(body->bytes, body->length, 0, TURMYSHGE_GREATEST_DEPTH, body->type, 0, TURMYSHGE_NO_LIMIT,
                       TURMYSHGE_NO_LIMIT, TURMYSHGE_NO_LIMIT, TURMYSHGE_NO_LIMIT, record, sizeof record);
    call->passed = turmyshge_refusal(record) == TURMYSHGE_ACCEPTED && turmyshge_end(record) == body->length;
    call->frame = (uintptr_t)record;
    return NULL;
}

/* The bytes of stack below the caller's frame that the skip of a body takes; 0 where it could not be made. */
static size_t taken(const struct body *body)
{
    struct call call = {body, 0, 0};
    pthread_attr_t attributes;
    pthread_t thread;
    void *memory;
    const uint8_t *stack;
    size_t bytes = 0;

    if (posix_memalign(&memory, PAGE, stack_size) != 0)
        return 0;
    memset(memory, PAINT, stack_size);
    stack = memory;
    pthread_attr_init(&attributes);
    if (pthread_attr_setstack(&attributes, memory, stack_size) == 0 &&
        pthread_create(&thread, &attributes, make, &call) == 0) {
        pthread_join(thread, NULL);
        while (*stack == PAINT)
            stack++;
        if (call.passed)
            bytes = call.frame - (uintptr_t)stack;
    }
    pthread_attr_destroy(&attributes);
    free(memory);
    return bytes;
}

int main(void)
{
    struct body (*const kinds[])(size_t) = {structs, lists, lists_of_text, maps};
    const size_t deepest = TURMYSHGE_GREATEST_DEPTH;
    const size_t usual = TURMYSHGE_DEFAULT_DEPTH;
    size_t most = 0;
    int right = 1;
    size_t i;

    for (i = 0; i < sizeof kinds / sizeof kinds[0]; i++) {
        struct body middle = kinds[i](usual);
        struct body deep = kinds[i](deepest);
        size_t some = taken(&middle);
        size_t all = taken(&deep);

        right = right && some > 0 && all > some;
        printf("%s: %zu bytes for %zu levels, %zu for %zu, so %zu a level\n", deep.name, some, usual, all, deepest,
               (all - some) / (deepest - usual));
        if (all > most)
            most = all;
    }
    right = right && most <= TURMYSHGE_STACK;
    printf("stack: %zu bytes for %zu levels, at most %d wanted%s\n", most, deepest, TURMYSHGE_STACK,
           right ? "" : "   WRONG");
    return !right;
}
