/* The 17-byte book that docs/FORMAT.md takes apart: field 0 set to 1 beside field 1 set to 2. Prints the verdict, the packets for
 * (5, 9), a run cut short and a whole one, and what is answered where nothing is lent. */
#include <inttypes.h>
#include <stdio.h>

#include "hamstedew.h"

static const uint8_t book[] = {0x02, 0x00, 0x00, 0x0B, 0x00, 0x03, 0x07, 0x01, 0x02,
                               0x03, 0x00, 0x00, 0x01, 0x03, 0x01, 0x00, 0x02};

static int refused(uint64_t code, const uint64_t *values) {
    printf("refused %" PRIu64 " %" PRIu64 "\n", code, values[0]);
    return 1;
}

/* Where a length is 0 the pointer may be null: each call is answered by its code. */
static void lend_nothing(void) {
    const uint16_t packet[] = {5, 9};
    uint16_t result[32], area[1];
    uint64_t values[HAMSTEDEW_VALUES];
    const size_t all = HAMSTEDEW_VALUES;
    uint64_t no_book = hamstedew_accept(NULL, 0, values, all);
    uint64_t no_values = hamstedew_accept(book, sizeof book, NULL, 0);
    uint64_t no_packet = hamstedew_evaluate(book, sizeof book, NULL, 0, result, 32, values, all);
    uint64_t no_result = hamstedew_evaluate(book, sizeof book, packet, 2, NULL, 0, values, all);
    uint64_t no_area = hamstedew_run(book, sizeof book, packet, 2, NULL, 0, result, 32, NULL, 0, values, all);
    uint64_t nothing = hamstedew_run(NULL, 0, NULL, 0, NULL, 0, NULL, 0, area, 0, NULL, 0);
    printf("null: %" PRIu64 " %" PRIu64 " %" PRIu64 " %" PRIu64 " %" PRIu64 " %" PRIu64 "\n", no_book, no_values, no_packet, no_result,
           no_area, nothing);
}

int main(void) {
    uint64_t values[HAMSTEDEW_VALUES];
    uint64_t code = hamstedew_accept(book, sizeof book, values, HAMSTEDEW_VALUES);
    if (code != HAMSTEDEW_ANSWERED)
        return refused(code, values);
    size_t fields = (size_t)values[0];
    printf("accepted: k %" PRIu64 ", m %" PRIu64 ", n %" PRIu64 ", D %" PRIu64 "\n", values[0], values[1], values[2], values[3]);

    const uint16_t packet[] = {5, 9};
    uint16_t result[HAMSTEDEW_RESULT_WORDS(HAMSTEDEW_MOST_FIELDS)];
    code = hamstedew_evaluate(book, sizeof book, packet, 2, result, sizeof result / sizeof *result, values, HAMSTEDEW_VALUES);
    if (code != HAMSTEDEW_ANSWERED)
        return refused(code, values);
    printf("given: %" PRIu64 ", N %" PRIu64 ", room %" PRIu64 "\n", values[0], values[1], values[4]);
    for (size_t i = 0; i < values[0]; i++) {
        for (size_t f = 0; f < fields; f++)
            printf(f == 0 ? "%u" : " %u", (unsigned)result[i * fields + f]);
        printf("\n");
    }

    static const uint8_t schedule[] = {0, 0, 0, 0};
    static uint16_t area[HAMSTEDEW_AREA_WORDS];
    for (size_t length = 2; length <= 4; length += 2) {
        code = hamstedew_run(book, sizeof book, packet, 2, schedule, length, result, sizeof result / sizeof *result, area,
                             HAMSTEDEW_AREA_WORDS, values, HAMSTEDEW_VALUES);
        if (code == HAMSTEDEW_RUNNING)
            printf("running: steps %" PRIu64 ", live %" PRIu64 ", ready %" PRIu64 "\n", values[0], values[1], values[2]);
        else if (code == HAMSTEDEW_ANSWERED)
            printf("finished: steps %" PRIu64 ", packets %" PRIu64 "\n", values[0], values[1]);
        else
            return refused(code, values);
    }
    code = hamstedew_run(book, sizeof book, packet, 2, NULL, 0, result, sizeof result / sizeof *result, area, HAMSTEDEW_AREA_WORDS, values,
                         HAMSTEDEW_VALUES);
    printf("no schedule: code %" PRIu64 ", steps %" PRIu64 ", live %" PRIu64 ", ready %" PRIu64 "\n", code, values[0], values[1],
           values[2]);
    lend_nothing();
    return 0;
}
