/*
 * Trenailer: the five-byte calculator arithmetic of the ZX Spectrum, on a stack of numbers that the caller lends.
 *
 * A number is five bytes b1 to b5, in one of four forms.
 *
 *     full       b1 is 1 to 255. b2 to b5 are the mantissa, high byte first, with the sign in place of its top bit, which is always set.
 *                It is worth mantissa x 2^(b1 - 160).
 *     short      b1 is 0, b2 is 00 or FF, b3 low and b4 high: 256 b4 + b3, less 65,536 if b2 is FF. b5 means nothing: no report, depth
 *                or cell goes by it. A sum or difference that is stored short keeps the first number's b5, as in the ROM.
 *     odd        00 FF 00 00 and any b5, which the ROM makes by mistake. It is well formed, but for the mended edition (below).
 *     malformed  anything else: b1 is 0 and b2 is neither 00 nor FF.
 *
 * A stack is stack_len bytes, at most 16,000, and a depth: slot i is bytes 5i to 5i + 4, and the top is slot depth - 1. Bytes after the
 * last whole slot are never read or written.
 *
 * There are nine calls. Each takes any bytes, any depth and any literal, keeps nothing between calls, and allocates nothing; all but
 * trenailer_leading_zeros are lent a stack. A report other than 0 means that no byte of the stack and no depth has changed (a run keeps
 * what the literals before the refused one did; a replay that is refused writes 0 for its depth). trenailer_view, trenailer_cell and
 * trenailer_leading_zeros give no report.
 *
 *     report   when (TRENAILER_REPORT_.. below)
 *     0        done
 *     1        a stack over 16,000 bytes, 5 x depth over its length, or more than 60,000 literals
 *     2        fewer numbers on the stack than the literal takes
 *     3        an operand is malformed; the pushed bytes are not five, or are malformed
 *     4        no room for a push or a duplicate
 *     5        not one of the eleven literals
 *     6        number too big: a divisor that counts as zero, or an exponent byte above 255
 *     8        of a replay alone: what was given is not a recording
 *     12       of trenailer_operate_in and trenailer_run_in alone: there is no such edition
 *
 * They are asked in the order 12, 1, 5, 2, 4, 3, 6, and the first that holds is given; a replay asks for 1, then 8, and no more.
 *
 * There are two editions of the ROM: the shipped one, and a mended one, which differs in this alone.
 *
 *     division    is always to the nearest, halves up: a tenth is 7D 4C CC CC CD there, and 7D 4C CC CC CC in the shipped edition.
 *     a sum       of two short numbers that is -65,536 is written 91 80 00 00 00, all five bytes, and not odd; int's own sums too.
 *     truncation  of a number whose b1 is 91 (hex) clears its lowest bits, as it does for 92, and never makes odd.
 *     odd         as an operand of any literal but exchange, delete and duplicate is malformed: report 3.
 *
 * trenailer_operate_in and trenailer_run_in are told the edition. A call that names none is of the shipped edition, a replay too; a push,
 * the view, the cell and leading zeros are the same in both.
 *
 * Pointers. Each pointer is lent for the call. It points to as many bytes as the length beside it says, or to one object, and is not
 * null, not even where the length is 0: pass the address of any object then. No two of a call's objects overlap. Nothing else reads or
 * writes them during the call. Calls on different objects may run at the same time.
 */
#ifndef TRENAILER_H
#define TRENAILER_H

#include <stddef.h>
#include <stdint.h>

#ifdef __cplusplus
extern "C" {
#endif

#define TRENAILER_VERSION "0.1.0"
#define TRENAILER_VERSION_MAJOR 0
#define TRENAILER_VERSION_MINOR 1
#define TRENAILER_VERSION_PATCH 0

#define TRENAILER_NUMBER_SIZE 5       /* bytes of a number */
#define TRENAILER_STACK_MAX 16000     /* bytes of a stack */
#define TRENAILER_DEPTH_MAX 3200      /* numbers on a stack of that many bytes */
#define TRENAILER_LITERALS_MAX 60000  /* literals of a run */
#define TRENAILER_RECORD_SIZE 16      /* bytes of a record */
#define TRENAILER_RECORDING_MAX 64000 /* bytes of a recording: 4,000 records */

/* What trenailer_operate, trenailer_push, trenailer_run, trenailer_replay and those in an edition return: the table above. */
enum {
    TRENAILER_REPORT_DONE = 0,
    TRENAILER_REPORT_OVER_LIMITS = 1,
    TRENAILER_REPORT_TOO_FEW = 2,
    TRENAILER_REPORT_MALFORMED = 3,
    TRENAILER_REPORT_NO_ROOM = 4,
    TRENAILER_REPORT_UNKNOWN_LITERAL = 5,
    TRENAILER_REPORT_TOO_BIG = 6,
    TRENAILER_REPORT_NOT_A_RECORDING = 8,
    TRENAILER_REPORT_UNKNOWN_EDITION = 12
};

/* The editions. */
enum {
    TRENAILER_SHIPPED = 0,
    TRENAILER_MENDED = 1
};

/*
 * The eleven literals. Of two numbers the lower one is the first (6, then 2, then divide leaves 3), and the result stands in its slot;
 * the slot above it keeps its bytes. Exchange, delete and duplicate don't look at a number's form.
 */
enum {
    TRENAILER_EXCHANGE = 1,   /* takes 2, leaves 2: swaps them */
    TRENAILER_DELETE = 2,     /* takes 1, leaves 0 */
    TRENAILER_SUBTRACT = 3,   /* takes 2, leaves 1: the first less the second */
    TRENAILER_MULTIPLY = 4,   /* takes 2, leaves 1 */
    TRENAILER_DIVIDE = 5,     /* takes 2, leaves 1: the first by the second */
    TRENAILER_ADD = 15,       /* takes 2, leaves 1 */
    TRENAILER_NEGATE = 27,    /* takes 1, leaves 1 */
    TRENAILER_INT = 39,       /* takes 1, leaves 1: down to the next whole number */
    TRENAILER_DUPLICATE = 49, /* takes 1, leaves 2 */
    TRENAILER_TRUNCATE = 58,  /* takes 1, leaves 1: towards zero */
    TRENAILER_RE_STACK = 61   /* takes 1, leaves 1: the full form of a short number */
};

/* Does one literal. Returns the report; *depth is the depth after it, and where it is refused the depth before it. */
uint8_t trenailer_operate(uint8_t *stack, size_t stack_len, size_t *depth, uint8_t literal);

/* Does one literal in an edition: trenailer_operate where that is TRENAILER_SHIPPED. Report 12 where there is no such edition. */
uint8_t trenailer_operate_in(uint8_t edition, uint8_t *stack, size_t stack_len, size_t *depth, uint8_t literal);

/* Pushes a number, five bytes, into slot *depth. Returns the report; *depth rises by one where it is 0. */
uint8_t trenailer_push(uint8_t *stack, size_t stack_len, size_t *depth, const uint8_t *number, size_t number_len);

/*
 * Does literals in turn, and stops at the first that is refused. Returns its report, or 0. *position is how many were done, and *depth
 * and the stack are as those left them. Report 1 comes before any of them, even for an empty list, with *position 0.
 */
uint8_t trenailer_run(uint8_t *stack, size_t stack_len, size_t *depth, const uint8_t *literals, size_t literals_len, size_t *position);

/*
 * Does literals in turn, all of them in one edition: trenailer_run where that is TRENAILER_SHIPPED. Report 12, with *position 0, where
 * there is no such edition. A mended run on a stack that holds no odd number leaves none.
 */
uint8_t trenailer_run_in(uint8_t edition, uint8_t *stack, size_t stack_len, size_t *depth, const uint8_t *literals, size_t literals_len,
                         size_t *position);

/*
 * Where the top number lies. Returns 5, with *start the place of its first byte in the stack; or 0, with *start as it was, at depth 0
 * and where report 1 applies.
 */
size_t trenailer_view(const uint8_t *stack, size_t stack_len, size_t depth, size_t *start);

/* What trenailer_cell returns. */
enum {
    TRENAILER_REFUSED = 0,
    TRENAILER_BLANK = 1,
    TRENAILER_ODD = 2,
    TRENAILER_VALUE = 3
};

/*
 * The display cell of a report and the stack after it. Refused: the report is in *refused (the one given; else 1 or 3 if the stack asks
 * for it now). Blank: depth 0. Odd: the top is 00 FF 00 00, which the ROM makes by mistake. Value: the top's value is in *value, exactly.
 * What a case does not name stays as it was.
 */
uint8_t trenailer_cell(uint8_t report, const uint8_t *stack, size_t stack_len, size_t depth, uint8_t *refused, double *value);

/* What trenailer_replay compares of each record, in this order; in *field, the first that differs. */
enum {
    TRENAILER_FIELD_NONE = 0, /* all records agree */
    TRENAILER_FIELD_REPORT = 1,
    TRENAILER_FIELD_DEPTH = 2,
    TRENAILER_FIELD_TOP = 3
};

/*
 * A recording is records of 16 bytes, one after another with nothing before them, each a step and what a machine said to it.
 *
 *     byte      of a record
 *     0         the literal, or 0 for a push
 *     1         the report
 *     2, 3      the depth after it, low byte first
 *     4 to 8    the top slot after it, five zero bytes at depth 0; for a push, done or refused, the pushed bytes
 *     9 to 15   zero
 *
 * Replays a recording: does its steps in turn, from depth 0 on, on the stack, and compares each record with what came of its step here:
 * the report, the depth, and for a literal the top. It stops after the first that differs. A refusal that agrees changes nothing, and
 * the steps go on.
 *
 * Returns 0, with *field TRENAILER_FIELD_NONE and *count the number of records where all agree; else *field is what differs first, and
 * *count the number, from 0, of that record. *depth and the stack are as the steps done, that one's included, left them. Returns a
 * refusal before any step: 1 for a stack over 16,000 bytes; then 8 for more than 64,000 bytes of a recording, a part of a record at its
 * end, or a byte 9 to 15 of any record that is not zero. It then writes 0 to all three and changes no byte of the stack.
 */
uint8_t trenailer_replay(uint8_t *stack, size_t stack_len, const uint8_t *recording, size_t recording_len, size_t *count, uint8_t *field,
                         size_t *depth);

/*
 * How many leading zeros t has, as a number of 32 bits. Returns 32 where t is 0, else the one z for which t x 2^z is at least 2^31 and
 * below 2^32: by so many places a sum is shifted before it is stored.
 */
uint8_t trenailer_leading_zeros(uint32_t t);

#ifdef __cplusplus
}
#endif

#endif
