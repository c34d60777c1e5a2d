/* ordc: reserve curves and the two operating reserve prices.
 *
 * Units: power in whole kW, money in whole cents per MWh, shares of one in billionths (1000000000 is 1).
 *
 * A text is lines `key=value`, each ended by byte 10, and is handed over as pointer and length. It needs no byte 0
 * at its end. A null pointer with length 0 is the empty text or no rows, and one with size 0 a buffer of no bytes.
 * Texts, arrays, rows and buffers of one call must not overlap, and an array must have the size that the function
 * names. Pointers to arrays and numbers must not be null.
 *
 * Every function returns a struct ordc_refusal. Number 0 means accepted, and then line is 0 too. Any other number is
 * a refusal, 1 to 15 below. On a refusal every array, row, buffer and number that was lent is as it was before the
 * call.
 *
 * No function keeps state, allocates or blocks. Calls from several threads on data of their own need no lock.
 *
 * A thread with a stack of ORDC_STACK bytes can make any of these calls, whatever is handed over. Of these bytes
 * ordc_price, ordc_read_snapshot, ordc_snapshot_length and ordc_write_snapshot take about 100 KiB each, whether the
 * snapshot is long or short, and the others less than 8 KiB each. This is tested (bindings/c/stack.c) and not proved.
 *
 * The layout:
 *   record      ORDC_RECORD = 72 numbers: count, sum (kW) and sum of squares (kW^2) of the reserve errors of group 0,
 *               then of group 1, and so on to group 23. A fresh record is all zeros. Count 0..1000, sum within
 *               +-(count * 20000000), squares 0..count * 400000000000000; and where count is at least 1,
 *               squares - 2 * m * sum + count * m * m is at least 0 for m = floor(sum / count) and for m one more.
 *               Any other record is impossible.
 *               Group = 6 * season + block. Season 0 is December to February, 1 March to May, 2 June to August,
 *               3 September to November. Block = (hour + 2) % 24 / 4: block 0 has the hours 22, 23, 0 and 1 (hour
 *               endings 23, 24, 1 and 2), block 1 the hours 2 to 5, and so on to block 5 with the hours 18 to 21.
 *               A record or a curve set made by a version before 2.0.0 has the blocks hour / 4. Nothing in it tells,
 *               and it is read as one of this version: make it anew from its hours.
 *   curve set   ORDC_CURVES = 50 numbers: VOLL (cents per MWh, 0..2000000), X, the minimum contingency level (kW,
 *               0..20000000), then mean (kW, -20000000..20000000) and spread (kW, 1..20000000) of group 0, of group 1,
 *               and so on to group 23. A curve set with a number outside its range is impossible.
 *   answer      ORDC_ANSWER = 6 numbers in the order of enum ordc_place.
 *   snapshot    held as values, for hosts that change a reading or make a snapshot of their own:
 *     header    ORDC_HEADER = 8 numbers: month hour lambda factor prc eea1 short count. In writing the eighth is not
 *               looked at, and `count` is the number of resources held.
 *     ids       a row of ORDC_ID_ROW = 32 bytes for each resource. The id is what stands in the first 16 before the
 *               first byte 0, or all 16 where there is none. The last 16 are kept free for later use: leave them 0.
 *     numbers   a row of ORDC_NUMBER_ROW = 9 numbers for each resource: at place 0 the kind (enum ordc_kind), at place
 *               1 the status of a generator (enum ordc_status), then the numbers of the kind in the order of its lines:
 *                 gen, wind, irr, nuke    net lsl hsl base nonspin cold30, at the places 2 to 7
 *                 clr                     base lpc nonspin regup, at the places 2 to 5
 *                 nclr                    rrsok net lpc rrs, at the places 2 to 5
 *               At place 8 (ORDC_MARKS) stand the marks of the numbers, 0 where none is marked.
 *               Reading sets the bytes after an id and the places that a resource does not use to 0, of a load the
 *               status too, and so what is kept free. Writing looks at none of these.
 *               Lengths of ids and numbers are in bytes and in numbers. As many resources are held, or have space, as
 *               there are whole rows of both: the lesser of ids_length / 32 and numbers_length / 9. What is left over
 *               is neither looked at nor changed.
 *               Ranges and units are those of the text (docs/FORMAT.md).
 *     marks     a number of a resource may be marked suspect: in a text by one `?` after it, in a row by ORDC_MARK of
 *               its place, added up at place 8: 1 for the number at place 2, 2 for place 3, then 4, 8, 16 and 32 for
 *               the places 4 to 7. The flags cold30 and rrsok carry no mark, nor do the numbers of the header.
 *               Reading sets place 8. Writing takes its magnitude where it is below 0, and does not look at binary
 *               digits beyond the numbers of the kind, six for a generator and four for a load.
 *               On some units a marked number turns the snapshot back (15), whichever of the unit's numbers it is: on
 *               those that enter a sum, or would if the 95 percent test were left out, and on every gen and wind in
 *               STARTUP. These are
 *                 gen           ON, STARTUP, OFFNS, and OFF where cold30 is 1
 *                 wind          ON, STARTUP, OFFNS
 *                 irr           OFFNS
 *                 nuke          OFFNS, and OFF where cold30 is 1
 *                 clr, nclr     always
 *               On any other unit a mark is kept, and the price is that of the snapshot without it.
 */
#ifndef ORDC_H
#define ORDC_H

#include <stddef.h>
#include <stdint.h>

#ifdef __cplusplus
extern "C" {
#endif

enum {
    ORDC_GROUPS = 24,
    ORDC_RECORD = 72,
    ORDC_CURVES = 50,
    ORDC_ANSWER = 6,
    ORDC_CURVE_TEXT = 700, /* no written curve text is longer */
    ORDC_PAGE = 1728,      /* every page has this many bytes */
    ORDC_HEADER = 8,       /* numbers of a snapshot's header */
    ORDC_ID_ROW = 32,      /* bytes in a resource's row of ids */
    ORDC_NUMBER_ROW = 9,   /* numbers in a resource's row of numbers */
    ORDC_MARKS = 8,        /* the place of the marks in a row of numbers */
    ORDC_RESOURCES = 4096, /* no snapshot has more resources */
    ORDC_STACK = 262144    /* no call needs a larger stack, in bytes */
};

/* Where each number stands in an answer. */
enum ordc_place {
    ORDC_RS = 0,     /* on-line reserve, kW */
    ORDC_RSNS = 1,   /* on-line and off-line reserve, kW */
    ORDC_PIS = 2,    /* probability of falling below X on RS, billionths */
    ORDC_PINS = 3,   /* the same on RSNS, billionths */
    ORDC_ONLINE = 4, /* on-line price adder, cents per MWh */
    ORDC_OFFLINE = 5 /* off-line price adder, cents per MWh */
};

/* The number of each kind, at place 0 of a row of numbers. */
enum ordc_kind {
    ORDC_GEN = 0,  /* any generator that is none of the next three */
    ORDC_WIND = 1, /* wind generator */
    ORDC_IRR = 2,  /* other intermittent generator */
    ORDC_NUKE = 3, /* nuclear generator */
    ORDC_CLR = 4,  /* controllable load */
    ORDC_NCLR = 5  /* other load */
};

/* The number of each status, at place 1 of a generator's row. */
enum ordc_status {
    ORDC_ON = 0,
    ORDC_OFF = 1,
    ORDC_OFFNS = 2,
    ORDC_ONTEST = 3,
    ORDC_STARTUP = 4,
    ORDC_SHUTDOWN = 5,
    ORDC_OUT = 6
};

/* The mark of the number at a place of a row of numbers, 2 to 7. The marks of a row are added up at place ORDC_MARKS:
 *   row[ORDC_MARKS] |= ORDC_MARK(4);         a generator's HSL is marked
 *   if (row[ORDC_MARKS] & ORDC_MARK(4))      whether it is, in a row that was read */
#define ORDC_MARK(place) (INT64_C(1) << ((place) - 2))

/* Refusal numbers, in checking order but for 15, which comes after 9 and before 14. The line counts from 1 within the
 * text of the call, or within the text that the call would write, and is 0 unless said. */
enum ordc_number {
    ORDC_ACCEPTED = 0,
    ORDC_IMPOSSIBLE_VALUES = 1, /* a record or a curve set that was handed in is impossible */
    ORDC_TEXT_TOO_LONG = 2,     /* snapshot over 1048576 bytes, hour over 65536, curve text over 4096 */
    ORDC_LINE_ABSENT = 3,       /* the line due is absent or lacks its byte 10; gives that line */
    ORDC_WRONG_KEY = 4,         /* the line does not begin with the due key and `=`; gives that line */
    ORDC_EMPTY_VALUE = 5,       /* the value is empty; gives that line */
    ORDC_BADLY_WRITTEN = 6,     /* the value is badly written or no listed word, in writing an id that is empty or badly
                                   written, a number of no kind or status, or a flag that is marked; gives that line */
    ORDC_OUT_OF_RANGE = 7,      /* a number is outside its range; gives that line, 0 for VOLL and X at settling, 8 for
                                   more than 4096 resources held */
    ORDC_REPEATED_ID = 8,       /* the id already stands above; gives that line, which is the later of the two */
    ORDC_BYTES_FOLLOW = 9,      /* bytes follow the last due line; gives the line after it */
    ORDC_GROUP_FULL = 10,       /* the hour's group already has 1000 hours */
    ORDC_ERROR_TOO_LARGE = 11,  /* the reserve error lies beyond +-20000000 kW */
    ORDC_TOO_FEW_HOURS = 12,    /* a group has fewer than 2 hours; line is the first faulty group, 0..23 */
    ORDC_SPREAD_ZERO = 13,      /* a group has spread 0; line is that group, 0..23 */
    ORDC_BUFFER_SHORT = 14,     /* the buffer is shorter than the text or the page, or the space lent is for fewer
                                   resources than the snapshot has */
    ORDC_SUSPECT_NUMBER = 15    /* a number is marked suspect on a unit where that turns the snapshot back; gives that
                                   number's line, the first such */
};

struct ordc_refusal {
    uint64_t number; /* enum ordc_number */
    uint64_t line;
};

/* Books one hour.
 *   record  read and, where the hour is accepted, changed in the hour's group alone.
 *   text    the hour, at most 65536 bytes: month hour ongen load tie ns reg rrs nclr offns cold30 shed runs, then for
 *           each run hsl base rrs nclr reg ns offns cold30 short.
 * Refusals: 1, 2, 3 to 7, 9, 10, 11. On a refusal the record is as before. */
struct ordc_refusal ordc_book(int64_t record[ORDC_RECORD], const uint8_t *text, size_t length);

/* Settles a record into a curve set.
 *   record  read only.
 *   voll    cents per MWh, 0..2000000.   floor   X, kW, 0..20000000.
 *   curves  where accepted, all 50 numbers are written.
 * Refusals: 1, 7 (VOLL, then X), then group by group 12 and 13. On a refusal curves is as before. */
struct ordc_refusal ordc_settle(const int64_t record[ORDC_RECORD], int64_t voll, int64_t floor,
                                int64_t curves[ORDC_CURVES]);

/* Reads a curve text: voll, floor, then 24 pairs mu, sigma; at most 4096 bytes.
 *   curves  where accepted, all 50 numbers are written.
 * Refusals: 2, 3 to 7, 9. On a refusal curves is as before. */
struct ordc_refusal ordc_read_curves(const uint8_t *text, size_t length, int64_t curves[ORDC_CURVES]);

/* Tells how long a curve set's text is: at least 327 bytes and at most ORDC_CURVE_TEXT, and there are sets of both
 * lengths.
 *   curves  read only.
 *   length  where accepted, the length in bytes of the text that ordc_write_curves writes.
 * Refusals: 1. On a refusal length is as before. */
struct ordc_refusal ordc_curves_length(const int64_t curves[ORDC_CURVES], size_t *length);

/* Writes a curve set's text to the front of a buffer. The text has exactly as many bytes as ordc_curves_length tells: a
 * buffer of just that length is enough, and one of ORDC_CURVE_TEXT bytes is enough for any set.
 *   curves  read only.
 *   buffer  where accepted, holds the text; bytes after the text are as before.
 *   written where accepted, the text's length in bytes.
 * Refusals: 1, 14. On a refusal buffer and written are as before. */
struct ordc_refusal ordc_write_curves(const int64_t curves[ORDC_CURVES], uint8_t *buffer, size_t size,
                                      size_t *written);

/* Writes a curve set's page to the front of a buffer; it has ORDC_PAGE bytes: a row of 72 bytes for each group, from
 * group 0 on. The places of a row, from 0:
 *   0..5    the season: winter, spring, summer, or fall and two spaces
 *   7       the block: 0..5
 *   9..17   the mean, kW
 *   19..26  the spread, kW
 *   28..37, 39..48, 50..59, 61..70
 *           the probability of falling below X on an RSNS of X + 1000000, X + 2000000, X + 3000000 and X + 4000000 kW,
 *           billionths
 *   71      byte 10
 * A number ends at the last of its places; all other places are spaces. Neither VOLL nor X shows on the page, but a
 * set in which one of them is outside its range is impossible here too.
 *   curves  read only.
 *   buffer  where accepted, holds the page; bytes after the page are as before.
 * Refusals: 1, 14. On a refusal buffer is as before. */
struct ordc_refusal ordc_write_page(const int64_t curves[ORDC_CURVES], uint8_t *buffer, size_t size);

/* Prices a snapshot on a curve set.
 *   curves  read only.
 *   text    the snapshot, at most 1048576 bytes: month hour lambda factor prc eea1 short count, then each resource
 *           with id and kind and the lines of its kind, whose numbers may be marked; at most 4096 resources.
 *   answer  where accepted, the six numbers of enum ordc_place: reserves in kW, which may be negative, probabilities
 *           0..1000000000, prices 0..4000000.
 * Refusals: 1, 2, 3 to 8, 9, then 15. On a refusal answer is as before. */
struct ordc_refusal ordc_price(const int64_t curves[ORDC_CURVES], const uint8_t *text, size_t length,
                               int64_t answer[ORDC_ANSWER]);

/* Reads a snapshot's text into values.
 *   text    the snapshot, as for ordc_price. A resource has at least 41 bytes, so space for length / 41 resources, or
 *           for ORDC_RESOURCES where that is less, is always enough.
 *   header  where accepted, all 8 numbers are written, the eighth being `count`.
 *   ids, numbers
 *           where accepted, the first `count` rows of each are written; what stands after them is as before.
 * Refusals: 2, 3 to 8, 9, then 15, then 14. On a refusal header, ids and numbers are as before. */
struct ordc_refusal ordc_read_snapshot(const uint8_t *text, size_t length, int64_t header[ORDC_HEADER], uint8_t *ids,
                                       size_t ids_length, int64_t *numbers, size_t numbers_length);

/* Tells how long the text of a snapshot held as values is; it has at most 516198 bytes.
 *   header, ids, numbers
 *           read only.
 *   length  where accepted, the length in bytes of the text that ordc_write_snapshot writes.
 * The lines are checked in the order in which they would be written: the header, of which line 8 is the number of
 * resources held, then of each resource the id, the kind, the status of a generator and the numbers of the kind with
 * their marks.
 * Refusals: 6, 7 and 8 at the first line that has one, then 15. On a refusal length is as before. */
struct ordc_refusal ordc_snapshot_length(const int64_t header[ORDC_HEADER], const uint8_t *ids, size_t ids_length,
                                         const int64_t *numbers, size_t numbers_length, size_t *length);

/* Writes the text of a snapshot held as values to the front of a buffer. The text is accepted, and reading it gives the
 * same values, with 0 wherever writing does not look and the magnitude where place 8 is below 0. An accepted text that
 * is read and written gives its own bytes.
 *   header, ids, numbers
 *           read only.
 *   buffer  where accepted, holds the text; bytes after the text are as before.
 *   written where accepted, the text's length in bytes.
 * Refusals: 6, 7, 8 and 15 as in ordc_snapshot_length, then 14. On a refusal buffer and written are as before. */
struct ordc_refusal ordc_write_snapshot(const int64_t header[ORDC_HEADER], const uint8_t *ids, size_t ids_length,
                                        const int64_t *numbers, size_t numbers_length, uint8_t *buffer, size_t size,
                                        size_t *written);

#ifdef __cplusplus
}
#endif

#endif
