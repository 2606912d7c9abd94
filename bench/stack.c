/* How much stack accept, evaluate and run take at most. Each is called on books that nest as deep as the rules allow, in a thread whose
 * stack was filled with a pattern before; what is no longer the pattern, from the caller's frame down, was taken. */
#define _GNU_SOURCE
#include <pthread.h>
#include <stdio.h>
#include <stdlib.h>
#include <string.h>

#include "hamstedew.h"

#define STACK_BYTES ((size_t)1 << 20)
#define PATTERN 0xA5
#define DEEPEST 32

/* A book, its packet, and what is told of it. */
struct book {
    uint8_t bytes[HAMSTEDEW_MOST_BYTES];
    size_t length;
    char name[96];
};

static void put(struct book *b, uint8_t byte) { b->bytes[b->length++] = byte; }

static void put_all(struct book *b, const uint8_t *bytes, size_t count) {
    for (size_t i = 0; i < count; i++)
        put(b, bytes[i]);
}

/* Only a packet with 1 in fields 0 to 3 goes on, the last of 16: else four such levels would take seconds. Then each of these fields
 * (to 0 + to 1), all in sequence: 16 packets. */
static void put_spread(struct book *b) {
    for (uint8_t field = 0; field < 4; field++) {
        const uint8_t test[] = {6, 2, field, 0, 1};
        put_all(b, test, sizeof test);
    }
    for (uint8_t field = 0; field < 4; field++) {
        if (field < 3)
            put(b, 6);
        const uint8_t both[] = {5, 3, field, 0, 0, 3, field, 0, 1};
        put_all(b, both, sizeof both);
    }
}

/* One level of a path down: what stands before the part below, and after it. */
struct level {
    const char *name;
    uint8_t before[2], after[1];
    size_t before_length, after_length;
};

static const struct level levels[] = {
    {"left of a sum", {5}, {1}, 1, 1},      {"right of a sum", {5, 1}, {0}, 2, 0},
    {"left of a sequence", {6}, {0}, 1, 1}, {"right of a sequence", {6, 0}, {0}, 2, 0},
    {"not", {4}, {0}, 1, 0},
};
enum { NOT = 4, LEVELS = 5 };

/* What the path ends in, where it is no table: an id, a set that makes packets equal, a sum of two sets. */
static const struct {
    const char *name;
    uint8_t bytes[9];
    size_t length, depth;
} ends[] = {{"id", {0}, 1, 1}, {"a set", {3, 0, 0, 7}, 4, 1}, {"a sum of sets", {5, 3, 0, 0, 0, 3, 0, 0, 1}, 9, 2}};
enum { ENDS = 3 };

/* A body of depth DEEPEST: concurrent parts on 16 packets each, then levels of one kind, then a table use (end below 0) or an end. */
static void put_body(struct book *b, unsigned concurrent, const struct level *level, int end) {
    size_t fill = DEEPEST - 2 * concurrent - (end < 0 ? 1 : ends[end].depth);
    for (unsigned i = 0; i < concurrent; i++) {
        put(b, 6);
        put_spread(b);
        const uint8_t beside[] = {7, 0x0F, 0};
        put_all(b, beside, sizeof beside);
    }
    for (size_t i = 0; i < fill; i++)
        put_all(b, level->before, level->before_length);
    const uint8_t table[] = {8, 1};
    put_all(b, end < 0 ? table : ends[end].bytes, end < 0 ? sizeof table : ends[end].length);
    for (size_t i = 0; i < fill; i++)
        put_all(b, level->after, level->after_length);
    for (unsigned i = 0; i < concurrent; i++)
        put(b, 0);
}

/* A main policy and a table, one below the other: 64 levels, four of them concurrent parts on 16 packets each. */
static struct book nested(unsigned in_main, const struct level *main_level, const struct level *table_level, int end) {
    struct book b = {.bytes = {8, 1, 0, 0, 0, 0x0F, 0, 0, 0, 0x0F}, .length = 10};
    put_body(&b, in_main, main_level, -1);
    size_t main_length = b.length - 10;
    put_body(&b, 4 - in_main, table_level, end);
    size_t table_length = b.length - 10 - main_length;
    b.bytes[2] = (uint8_t)(main_length >> 8);
    b.bytes[3] = (uint8_t)main_length;
    b.bytes[6] = (uint8_t)(table_length >> 8);
    b.bytes[7] = (uint8_t)table_length;
    snprintf(b.name, sizeof b.name, "%u concurrent parts and %s; in the table %u and %s, to %s", in_main, main_level->name, 4 - in_main,
             table_level->name, ends[end].name);
    return b;
}

static void put_balanced(struct book *b, unsigned leaves) {
    if (leaves == 1) {
        put(b, 0);
        return;
    }
    put(b, 6);
    put_balanced(b, leaves / 2);
    put_balanced(b, leaves - leaves / 2);
}

/* A main policy alone: 512 ids under sequences, n 1,023; or so many nots, refused from 32 on. */
static struct book alone(unsigned leaves, unsigned nots) {
    struct book b = {.bytes = {8, 0, 0, 0, 0, 0xFF}, .length = 6};
    for (unsigned i = 0; i < nots; i++)
        put(&b, 4);
    put_balanced(&b, leaves);
    b.bytes[2] = (uint8_t)((b.length - 6) >> 8);
    b.bytes[3] = (uint8_t)(b.length - 6);
    snprintf(b.name, sizeof b.name, "%u nots over %u ids", nots, leaves);
    return b;
}

static const struct book *book;
static uint16_t result[HAMSTEDEW_RESULT_WORDS(8)], area[HAMSTEDEW_AREA_WORDS];
static uint64_t values[HAMSTEDEW_VALUES];
static const uint16_t packet[8] = {1, 1, 1, 1, 1, 1, 1, 1};
static const uint8_t schedule[8192];

static uint64_t call_accept(void) { return hamstedew_accept(book->bytes, book->length, values, HAMSTEDEW_VALUES); }

static uint64_t call_evaluate(void) {
    return hamstedew_evaluate(book->bytes, book->length, packet, 8, result, sizeof result / sizeof *result, values, HAMSTEDEW_VALUES);
}

static uint64_t call_run(void) {
    return hamstedew_run(book->bytes, book->length, packet, 8, schedule, sizeof schedule, result, sizeof result / sizeof *result, area,
                         HAMSTEDEW_AREA_WORDS, values, HAMSTEDEW_VALUES);
}

static struct call {
    const char *name;
    uint64_t (*function)(void);
    size_t most;
    uint64_t code;
    char on[96];
} calls[] = {{.name = "accept", .function = call_accept},
             {.name = "evaluate", .function = call_evaluate},
             {.name = "run", .function = call_run}};

static uint8_t *frame;

static void *in_thread(void *given) {
    struct call *call = given;
    frame = __builtin_frame_address(0);
    call->code = call->function();
    return NULL;
}

static void fail(const char *what) {
    fprintf(stderr, "stack: %s\n", what);
    exit(1);
}

/* The bytes below the caller's frame that one call takes. */
static size_t taken(struct call *call, uint8_t *stack) {
    pthread_t thread;
    pthread_attr_t attributes;
    memset(stack, PATTERN, STACK_BYTES);
    if (pthread_attr_init(&attributes) || pthread_attr_setstack(&attributes, stack, STACK_BYTES))
        fail("no thread with a stack of its own");
    if (pthread_create(&thread, &attributes, in_thread, call) || pthread_join(thread, NULL))
        fail("the thread did not run");
    pthread_attr_destroy(&attributes);
    size_t untouched = 0;
    while (stack[untouched] == PATTERN)
        untouched++;
    return (size_t)(frame - (stack + untouched));
}

static void measure(const struct book *b, uint8_t *stack) {
    book = b;
    for (size_t i = 0; i < sizeof calls / sizeof *calls; i++) {
        struct call *call = &calls[i];
        size_t bytes = taken(call, stack);
        if (bytes > call->most) {
            call->most = bytes;
            snprintf(call->on, sizeof call->on, "%s", b->name);
        }
    }
}

int main(void) {
    uint8_t *stack = aligned_alloc(4096, STACK_BYTES);
    if (stack == NULL)
        fail("no memory for the stack");
    const struct book others[] = {alone(512, 0), alone(1, 31), alone(1, 32), alone(1, 4000)};
    for (size_t i = 0; i < sizeof others / sizeof *others; i++)
        measure(&others[i], stack);
    for (unsigned in_main = 0; in_main <= 4; in_main++)
        for (int kind = 0; kind < LEVELS; kind++)
            for (int end = 0; end < ENDS; end++) {
                if (kind == NOT && end != 0)
                    continue;
                const struct book b = nested(in_main, &levels[kind == NOT ? 1 : kind], &levels[kind], end);
                measure(&b, stack);
                if (calls[0].code != HAMSTEDEW_ANSWERED || calls[1].code != HAMSTEDEW_ANSWERED)
                    fail("a nested book was turned away before its deepest part");
            }
    for (size_t i = 0; i < sizeof calls / sizeof *calls; i++)
        printf("%-8s %6zu bytes, on: %s\n", calls[i].name, calls[i].most, calls[i].on);
    return 0;
}
