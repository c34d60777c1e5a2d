/* Books hours, settles them, writes the curve text to a buffer of just its length and reads it, then prices a snapshot
 * and prints the page of its curves. Then it reads the snapshot into values, takes one unit out of service, writes the
 * text and prices that too. Last it marks a reading of that unit as suspect, which turns the snapshot back while the unit
 * counts, and is kept once it is out of service. */
#include "ordc.h"

#include <inttypes.h>
#include <stdio.h>
#include <stdlib.h>
#include <string.h>

static void expect_accepted(const char *what, struct ordc_refusal refusal)
{
    if (refusal.number != ORDC_ACCEPTED) {
        fprintf(stderr, "%s: refused %" PRIu64 ", line %" PRIu64 "\n", what, refusal.number, refusal.line);
        exit(EXIT_FAILURE);
    }
}

static void expect_refused(const char *what, struct ordc_refusal refusal, uint64_t number, uint64_t line)
{
    if (refusal.number != number || refusal.line != line) {
        fprintf(stderr, "%s: got %" PRIu64 ", line %" PRIu64 "\n", what, refusal.number, refusal.line);
        exit(EXIT_FAILURE);
    }
}

static void expect(int holds, const char *what)
{
    if (!holds) {
        fprintf(stderr, "%s\n", what);
        exit(EXIT_FAILURE);
    }
}

/* An hour of one run whose reserve error is `error`, which is -1 or above. */
static struct ordc_refusal book_error(int64_t record[ORDC_RECORD], int month, int hour, int error)
{
    char text[512];
    int length = snprintf(text, sizeof text,
                          "month=%d\nhour=%d\nongen=%d\nload=0\ntie=0\nns=0\nreg=0\nrrs=0\nnclr=0\noffns=0\ncold30=0\nshed=0\n"
                          "runs=1\nhsl=1\nbase=0\nrrs=0\nnclr=0\nreg=0\nns=0\noffns=0\ncold30=0\nshort=0\n",
                          month, hour, error + 1);
    return ordc_book(record, (const uint8_t *)text, (size_t)length);
}

/* Writes the settled curves to a buffer of just their text's length, and reads them again. */
static void write_and_read(const int64_t curves[ORDC_CURVES], int64_t again[ORDC_CURVES])
{
    int64_t impossible[ORDC_CURVES];
    size_t length = 0, written = 0;

    /* Keys, `=` and byte 10 have 277 bytes: `voll=` 6 and `floor=` 7 with byte 10, and in each of the 24 groups `mu=` 4
     * and `sigma=` 7. The numbers have 61: 900000 has 6, 2000000 has 7, and in each group 0 and 1 have 1 each. */
    expect_accepted("length", ordc_curves_length(curves, &length));
    expect(length == 277 + 61, "the curve text has another length");
    uint8_t *text = malloc(length);
    if (text == NULL) {
        exit(EXIT_FAILURE);
    }
    expect_accepted("write", ordc_write_curves(curves, text, length, &written));
    expect(written == length, "the curve text has another length than was told");
    expect_accepted("read", ordc_read_curves(text, written, again));
    expect(memcmp(curves, again, ORDC_CURVES * sizeof curves[0]) == 0, "the curve text gives other curves");

    /* What a refusal looks like: a buffer of one byte too few, a buffer of no bytes, a spread of 0. */
    memset(text, 'x', length);
    written = 77;
    expect_refused("short buffer", ordc_write_curves(curves, text, length - 1, &written), ORDC_BUFFER_SHORT, 0);
    expect_refused("empty buffer", ordc_write_curves(curves, text, 0, &written), ORDC_BUFFER_SHORT, 0);
    for (size_t i = 0; i < length; i++) {
        expect(text[i] == 'x', "a refusal changed the buffer");
    }
    expect(written == 77, "a refusal changed what was written");
    memcpy(impossible, curves, sizeof impossible);
    impossible[ORDC_CURVES - 1] = 0;
    expect_refused("impossible curves", ordc_curves_length(impossible, &length), ORDC_IMPOSSIBLE_VALUES, 0);
    expect(length == 277 + 61, "a refusal changed the length");
    free(text);
}

static const char SNAPSHOT[] =
    "month=7\nhour=14\nlambda=2500\nfactor=10000\nprc=3000000\neea1=2300000\nshort=0\ncount=3\n"
    "id=A\nkind=gen\nstatus=ON\nnet=200000\nlsl=100000\nhsl=2000000\nbase=200000\nnonspin=0\ncold30=0\n"
    "id=B\nkind=gen\nstatus=ON\nnet=95000\nlsl=100000\nhsl=1000000\nbase=93000\nnonspin=0\ncold30=0\n"
    "id=C\nkind=gen\nstatus=OFFNS\nnet=0\nlsl=0\nhsl=293000\nbase=0\nnonspin=0\ncold30=0\n";

/* The page of the listing's curves. With mean 0 and spread 1000000 the four reserves lie 100, 200, 300 and 400 hundredths
 * of a spread above X. There the normal table has 841344746, 977249868, 998650102 and 999968329, and the probability is
 * what is left to 1000000000. */
static void expect_listing(const uint8_t page[ORDC_PAGE])
{
    static const char *const SEASONS[] = {"winter", "spring", "summer", "fall  "};
    for (int group = 0; group < ORDC_GROUPS; group++) {
        char row[128];
        int length = snprintf(row, sizeof row, "%s %d         0  1000000  158655254   22750132    1349898      31671\n",
                              SEASONS[group / 6], group % 6);
        if (length != ORDC_PAGE / ORDC_GROUPS || memcmp(page + length * group, row, (size_t)length) != 0) {
            fprintf(stderr, "row %d of the page is another one\n", group);
            exit(EXIT_FAILURE);
        }
    }
}

static void print_prices(const char *name, const int64_t answer[ORDC_ANSWER])
{
    printf("%s: rsns=%" PRId64 " online=%" PRId64 " offline=%" PRId64 "\n", name, answer[ORDC_RSNS], answer[ORDC_ONLINE],
           answer[ORDC_OFFLINE]);
}

/* Prices the snapshot as it is, and with C out of service. */
static void edit_snapshot(const int64_t curves[ORDC_CURVES])
{
    enum { RESOURCES = 3 };
    int64_t header[ORDC_HEADER];
    uint8_t ids[RESOURCES * ORDC_ID_ROW];
    int64_t numbers[RESOURCES * ORDC_NUMBER_ROW];
    const size_t ids_length = sizeof ids, numbers_length = sizeof numbers / sizeof numbers[0];
    int64_t answer[ORDC_ANSWER];
    size_t length = 0, written = 0;

    expect_accepted("price", ordc_price(curves, (const uint8_t *)SNAPSHOT, sizeof SNAPSHOT - 1, answer));
    print_prices("as read", answer);
    expect_accepted("read snapshot", ordc_read_snapshot((const uint8_t *)SNAPSHOT, sizeof SNAPSHOT - 1, header, ids, ids_length,
                                                        numbers, numbers_length));
    for (int64_t i = 0; i < header[7]; i++) {
        /* bytes 0 follow an id that has fewer than 16 bytes */
        if (memcmp(ids + i * ORDC_ID_ROW, "C", 2) == 0) {
            numbers[i * ORDC_NUMBER_ROW + 1] = ORDC_OUT;
        }
    }
    expect_accepted("length", ordc_snapshot_length(header, ids, ids_length, numbers, numbers_length, &length));
    uint8_t *text = malloc(length);
    if (text == NULL) {
        exit(EXIT_FAILURE);
    }
    expect_accepted("write snapshot", ordc_write_snapshot(header, ids, ids_length, numbers, numbers_length, text, length, &written));
    expect_accepted("price", ordc_price(curves, text, written, answer));
    print_prices("C is OUT", answer);

    /* What a refusal looks like: no space for the three resources, a buffer of one byte too few, an HSL below zero in
     * the last resource, whose lines are 27 to 35. */
    expect_refused("no rows", ordc_read_snapshot(text, written, header, NULL, 0, NULL, 0), ORDC_BUFFER_SHORT, 0);
    expect_refused("short buffer", ordc_write_snapshot(header, ids, ids_length, numbers, numbers_length, text, length - 1, &written),
                   ORDC_BUFFER_SHORT, 0);
    numbers[2 * ORDC_NUMBER_ROW + 4] = -1;
    expect_refused("hsl", ordc_snapshot_length(header, ids, ids_length, numbers, numbers_length, &length), ORDC_OUT_OF_RANGE, 32);
    free(text);
}

/* C's HSL is marked suspect. C is OFFNS, so the snapshot is turned back at line 32, where that number stands, until C is
 * out of service. */
static void mark_reading(const int64_t curves[ORDC_CURVES])
{
    enum { RESOURCES = 3, C = 2, STATUS = 1, HSL = 4 };
    static const char READING[] = "hsl=293000";
    int64_t header[ORDC_HEADER];
    uint8_t ids[RESOURCES * ORDC_ID_ROW];
    int64_t numbers[RESOURCES * ORDC_NUMBER_ROW], *row = numbers + C * ORDC_NUMBER_ROW;
    const size_t ids_length = sizeof ids, numbers_length = sizeof numbers / sizeof numbers[0];
    int64_t answer[ORDC_ANSWER];
    uint8_t text[sizeof SNAPSHOT];
    size_t length = 0, written = 0;

    /* As it comes: hsl=293000? */
    char marked[sizeof SNAPSHOT + 1];
    size_t front = (size_t)(strstr(SNAPSHOT, READING) - SNAPSHOT) + strlen(READING);
    snprintf(marked, sizeof marked, "%.*s?%s", (int)front, SNAPSHOT, SNAPSHOT + front);
    expect_refused("marked", ordc_price(curves, (const uint8_t *)marked, strlen(marked), answer), ORDC_SUSPECT_NUMBER, 32);
    expect_refused("marked",
                   ordc_read_snapshot((const uint8_t *)marked, strlen(marked), header, ids, ids_length, numbers, numbers_length),
                   ORDC_SUSPECT_NUMBER, 32);

    /* As values: the mark is in the row, beside the number. */
    expect_accepted("read snapshot", ordc_read_snapshot((const uint8_t *)SNAPSHOT, sizeof SNAPSHOT - 1, header, ids, ids_length,
                                                        numbers, numbers_length));
    expect(row[ORDC_MARKS] == 0, "a number that is not marked has a mark");
    row[ORDC_MARKS] |= ORDC_MARK(HSL);
    expect_refused("marked", ordc_snapshot_length(header, ids, ids_length, numbers, numbers_length, &length), ORDC_SUSPECT_NUMBER,
                   32);
    row[STATUS] = ORDC_OUT;
    expect_accepted("length", ordc_snapshot_length(header, ids, ids_length, numbers, numbers_length, &length));
    /* OUT has two letters fewer than OFFNS, and the mark is one byte more */
    expect(length == sizeof SNAPSHOT - 1 - 2 + 1, "the marked snapshot has another length");
    expect_accepted("write snapshot", ordc_write_snapshot(header, ids, ids_length, numbers, numbers_length, text, length, &written));
    expect_accepted("price", ordc_price(curves, text, written, answer));
    print_prices("C is OUT, its HSL marked", answer);
    expect_accepted("read snapshot", ordc_read_snapshot(text, written, header, ids, ids_length, numbers, numbers_length));
    expect(row[ORDC_MARKS] == ORDC_MARK(HSL) && row[HSL] == 293000, "the mark is lost");

    /* What a refusal looks like: a mark on cold30, which is a flag, in line 35. */
    row[ORDC_MARKS] = ORDC_MARK(7);
    expect_refused("marked flag", ordc_snapshot_length(header, ids, ids_length, numbers, numbers_length, &length), ORDC_BADLY_WRITTEN,
                   35);
}

int main(void)
{
    int64_t record[ORDC_RECORD] = {0};
    int64_t curves[ORDC_CURVES];
    int64_t again[ORDC_CURVES];
    int64_t answer[ORDC_ANSWER];
    uint8_t page[ORDC_PAGE];

    /* The errors -1 and 2 in each group: mean 0, spread 1. */
    for (int group = 0; group < ORDC_GROUPS; group++) {
        int month = 3 * (group / 6) + 1; /* January, April, July, October */
        int hour = (4 * (group % 6) + 22) % 24; /* the first hour of the block: 22, 2, 6, 10, 14, 18 */
        expect_accepted("book", book_error(record, month, hour, -1));
        expect_accepted("book", book_error(record, month, hour, 2));
    }
    expect_accepted("settle", ordc_settle(record, 900000, 2000000, curves));
    printf("mean=%" PRId64 "\nspread=%" PRId64 "\n", curves[2], curves[3]);

    write_and_read(curves, again);

    /* What a refusal looks like: no line at all, a buffer of no bytes, a record that no hours give. */
    expect_refused("empty text", ordc_read_curves(NULL, 0, again), ORDC_LINE_ABSENT, 1);
    expect_refused("no buffer", ordc_write_page(curves, NULL, 0), ORDC_BUFFER_SHORT, 0);
    record[0] = -1;
    expect_refused("impossible record", ordc_settle(record, 900000, 2000000, again), ORDC_IMPOSSIBLE_VALUES, 0);
    expect(memcmp(curves, again, sizeof curves) == 0, "a refusal changed the curves");

    /* The listing: every group has mean 0 and spread 1000000 kW. */
    for (int group = 0; group < ORDC_GROUPS; group++) {
        curves[2 + 2 * group] = 0;
        curves[3 + 2 * group] = 1000000;
    }
    expect_accepted("price", ordc_price(curves, (const uint8_t *)SNAPSHOT, sizeof SNAPSHOT - 1, answer));
    printf("rs=%" PRId64 "\nrsns=%" PRId64 "\npis=%" PRId64 "\npins=%" PRId64 "\nonline=%" PRId64 "\noffline=%" PRId64 "\n",
           answer[ORDC_RS], answer[ORDC_RSNS], answer[ORDC_PIS], answer[ORDC_PINS], answer[ORDC_ONLINE], answer[ORDC_OFFLINE]);

    expect_accepted("page", ordc_write_page(curves, page, sizeof page));
    expect_listing(page);
    fwrite(page, 1, sizeof page, stdout);
    edit_snapshot(curves);
    mark_reading(curves);
    return EXIT_SUCCESS;
}
