/*
 * A quota, as a count of the eighties had it: the votes by one more than the seats, the whole part of that, and 1. Here 1,000 votes and
 * 6 seats. It prints the quota and its five bytes.
 *
 * From an installed tree, or from the repository after ./trenailer library:
 *
 *     cc quota.c $(pkg-config --cflags --libs trenailer) -o quota
 *     cc -Iinclude examples/quota.c target/staticlib/libtrenailer.a -o quota
 */
#include <stdio.h>
#include <stdlib.h>

#include "trenailer.h"

static void stop(const char *step, int report)
{
    fprintf(stderr, "%s: report %d\n", step, report);
    exit(EXIT_FAILURE);
}

/* Pushes a whole number from 0 to 65,535, as a short number: its low byte is the third, its high byte the fourth. */
static void push(uint8_t *stack, size_t stack_len, size_t *depth, uint16_t n)
{
    const uint8_t number[TRENAILER_NUMBER_SIZE] = {0, 0, (uint8_t)(n & 255), (uint8_t)(n >> 8), 0};
    uint8_t report = trenailer_push(stack, stack_len, depth, number, sizeof number);
    if (report != TRENAILER_REPORT_DONE)
        stop("push", report);
}

int main(void)
{
    static const uint8_t divided[] = {TRENAILER_ADD, TRENAILER_DIVIDE, TRENAILER_INT};
    uint8_t stack[4 * TRENAILER_NUMBER_SIZE] = {0};
    size_t depth = 0, done = 0, start = 0;
    uint8_t report, refused = 0;
    double value = 0;

    push(stack, sizeof stack, &depth, 1000); /* votes */
    push(stack, sizeof stack, &depth, 6);    /* seats */
    push(stack, sizeof stack, &depth, 1);
    report = trenailer_run(stack, sizeof stack, &depth, divided, sizeof divided, &done);
    if (report != TRENAILER_REPORT_DONE) {
        fprintf(stderr, "literal %d: ", divided[done]);
        stop("run", report);
    }
    push(stack, sizeof stack, &depth, 1);
    report = trenailer_operate(stack, sizeof stack, &depth, TRENAILER_ADD);

    switch (trenailer_cell(report, stack, sizeof stack, depth, &refused, &value)) {
    case TRENAILER_REFUSED:
        stop("the quota", refused);
        break;
    case TRENAILER_BLANK:
        printf("blank\n");
        break;
    case TRENAILER_ODD:
        printf("odd\n");
        break;
    default:
        printf("%.17g", value);
        for (size_t i = 0, n = trenailer_view(stack, sizeof stack, depth, &start); i < n; i++)
            printf(" %02X", stack[start + i]);
        printf("\n");
    }
    return EXIT_SUCCESS;
}
