/* Hands damaged texts to every function, each text in a block of exactly its size, so that a memory checker sees any
 * byte that is touched beyond it. Checks that a refusal leaves what was lent, and that its number is one that the
 * function can give. Curve texts and pages are written to blocks of exactly the size that is named, from possible and
 * impossible sets, and a curve text to one of just the length that is told. Snapshots are read into rows and written from
 * damaged rows, all of them in blocks of exactly their size; so are snapshots with a mark on each number of each kind and
 * status. */
#include "ordc.h"

#include <stdio.h>
#include <stdlib.h>
#include <string.h>

static const char HOUR[] =
    "month=7\nhour=14\nongen=5000\nload=3000\ntie=-20\nns=1\nreg=2\nrrs=3\nnclr=4\noffns=5\ncold30=6\nshed=0\nruns=2\n"
    "hsl=4000\nbase=2000\nrrs=1\nnclr=2\nreg=3\nns=4\noffns=5\ncold30=6\nshort=7\n"
    "hsl=4100\nbase=2100\nrrs=1\nnclr=2\nreg=3\nns=4\noffns=5\ncold30=6\nshort=7\n";

static const char SNAPSHOT[] =
    "month=7\nhour=14\nlambda=2500\nfactor=10000\nprc=3000000\neea1=2300000\nshort=0\ncount=4\n"
    "id=A\nkind=gen\nstatus=ON\nnet=200000\nlsl=100000\nhsl=2000000\nbase=200000\nnonspin=0\ncold30=0\n"
    "id=B\nkind=clr\nbase=1000\nlpc=10\nnonspin=5\nregup=6\n"
    "id=C\nkind=nclr\nrrsok=1\nnet=10\nlpc=0\nrrs=3\n"
    "id=D\nkind=nuke\nstatus=OFF\nnet=-20?\nlsl=0\nhsl=30?\nbase=0?\nnonspin=0\ncold30=0\n";

enum { FILL = 0xa5 };

static uint64_t state = 1;

static size_t below(size_t bound)
{
    state = state * 6364136223846793005u + 1442695040888963407u;
    return (size_t)(state >> 33) % bound;
}

/* A copy with up to three damages: a byte changed, taken out or put in, a `?` put at the end of a line, or the end cut
 * off. */
static uint8_t *damaged(const char *text, size_t *length)
{
    static const char BYTES[] = "0123456789-=\n\r ABCabc_?\0\xff";
    uint8_t work[2048];
    size_t n = strlen(text);
    memcpy(work, text, n);
    for (size_t turns = below(4); turns > 0 && n > 0; turns--) {
        size_t at = below(n);
        uint8_t byte = (uint8_t)BYTES[below(sizeof BYTES)];
        switch (below(5)) {
        case 0:
            work[at] = byte;
            break;
        case 1:
            memmove(work + at, work + at + 1, n - at - 1);
            n--;
            break;
        case 2:
            while (at < n && work[at] != '\n') {
                at++;
            }
            byte = '?';
            /* fall through */
        case 3:
            memmove(work + at + 1, work + at, n - at);
            work[at] = byte;
            n++;
            break;
        default:
            n = at;
        }
    }
    uint8_t *copy = n > 0 ? malloc(n) : NULL;
    if (n > 0) {
        if (copy == NULL) {
            exit(EXIT_FAILURE);
        }
        memcpy(copy, work, n);
    }
    *length = n;
    return copy;
}

static void check(const char *what, struct ordc_refusal refusal, const char *numbers, const void *before, const void *after, size_t size)
{
    if (refusal.number == ORDC_ACCEPTED ? refusal.line != 0 : refusal.number > 15 || numbers[refusal.number] != '1' || memcmp(before, after, size) != 0) {
        fprintf(stderr, "%s: number %u, line %u\n", what, (unsigned)refusal.number, (unsigned)refusal.line);
        exit(EXIT_FAILURE);
    }
}

/* A number outside the range of this place of a curve set. */
static int64_t outside(size_t place)
{
    int64_t lowest = place < 2 ? 0 : place % 2 == 0 ? -20000000 : 1;
    int64_t highest = place == 0 ? 2000000 : 20000000;
    int64_t numbers[] = {lowest - 1, highest + 1, INT64_MIN, INT64_MAX};
    return numbers[below(4)];
}

/* A number within the range of this place of a curve set, of few or many digits. */
static int64_t within(size_t place)
{
    int64_t highest = place == 0 ? 2000000 : 20000000;
    int64_t number = (int64_t)below((size_t)highest + 1);
    for (size_t digits = below(9); digits > 0; digits--) {
        number /= 10;
    }
    if (place < 2) {
        return number;
    }
    return place % 2 == 0 ? (below(2) == 0 ? number : -number) : number > 0 ? number : 1;
}

/* Each row has its season, its block and six well-written numbers, all in their columns. */
static void check_rows(const uint8_t *page)
{
    static const char *const SEASONS[] = {"winter ", "spring ", "summer ", "fall   "};
    static const int WIDTHS[] = {1, 9, 8, 10, 10, 10, 10};
    for (int group = 0; group < ORDC_GROUPS; group++) {
        const uint8_t *at = page + 72 * group;
        int wrong = memcmp(at, SEASONS[group / 6], 7) != 0 || at[7] != '0' + group % 6;
        at += 7;
        for (int column = 0; column < 7; column++) {
            int width = WIDTHS[column], i = 0;
            while (i < width - 1 && at[i] == ' ') {
                i++;
            }
            int sign = column == 1 && i < width - 1 && at[i] == '-';
            i += sign;
            wrong |= at[i] == '0' && (sign || i < width - 1); /* no zero in front, and no -0 */
            for (; i < width; i++) {
                wrong |= at[i] < '0' || at[i] > '9';
            }
            wrong |= at[width] != (column == 6 ? '\n' : ' ');
            at += width + 1;
        }
        if (wrong) {
            fprintf(stderr, "page: row %d is %.72s\n", group, (const char *)page + 72 * group);
            exit(EXIT_FAILURE);
        }
    }
}

/* Writes a page to a block of so many bytes, or to a null pointer; the answer must have this number. */
static void page(const int64_t set[ORDC_CURVES], size_t size, int null, uint64_t number)
{
    int64_t *lent = malloc(ORDC_CURVES * sizeof *lent);
    uint8_t *buffer = null ? NULL : malloc(size);
    if (lent == NULL || (buffer == NULL && size > 0)) {
        exit(EXIT_FAILURE);
    }
    memcpy(lent, set, ORDC_CURVES * sizeof *lent);
    if (size > 0) {
        memset(buffer, FILL, size);
    }
    struct ordc_refusal refusal = ordc_write_page(lent, buffer, size);
    size_t written = refusal.number == ORDC_ACCEPTED ? ORDC_PAGE : 0;
    int wrong = refusal.number != number || refusal.line != 0 || written > size || memcmp(lent, set, ORDC_CURVES * sizeof *lent) != 0;
    for (size_t i = written; i < size; i++) {
        wrong |= buffer[i] != FILL;
    }
    if (wrong) {
        fprintf(stderr, "page of %u bytes: number %u, line %u\n", (unsigned)size, (unsigned)refusal.number, (unsigned)refusal.line);
        exit(EXIT_FAILURE);
    }
    if (written > 0) {
        check_rows(buffer);
    }
    free(buffer);
    free(lent);
}

/* A block of exactly so many bytes, all of them FILL; of none, a null pointer. */
static void *filled(size_t size)
{
    void *block = size > 0 ? malloc(size) : NULL;
    if (size > 0) {
        if (block == NULL) {
            exit(EXIT_FAILURE);
        }
        memset(block, FILL, size);
    }
    return block;
}

/* Whether all bytes from the first of these places to the second are FILL. */
static int stayed(const void *block, size_t from, size_t to)
{
    while (from < to && ((const uint8_t *)block)[from] == FILL) {
        from++;
    }
    return from >= to;
}

static void expect(int holds, const char *what, struct ordc_refusal refusal)
{
    if (!holds) {
        fprintf(stderr, "%s: number %u, line %u\n", what, (unsigned)refusal.number, (unsigned)refusal.line);
        exit(EXIT_FAILURE);
    }
}

/* Asks for the length of a set's text and writes it to blocks of exactly the size that is named; of none, a null pointer.
 * What is written gives the set again. Gives the length, or 0 where the set is impossible. */
static size_t write_curves(const int64_t set[ORDC_CURVES])
{
    size_t length = 77, bytes = ORDC_CURVES * sizeof *set;
    int64_t *lent = filled(bytes), *again = filled(bytes);
    memcpy(lent, set, bytes);
    struct ordc_refusal measured = ordc_curves_length(lent, &length);
    check("curves length", measured, "0100000000000000", "", "", 0);
    int possible = measured.number == ORDC_ACCEPTED;
    expect(possible ? length >= 327 && length <= ORDC_CURVE_TEXT : length == 77 && measured.line == 0, "curves length, what is told", measured);
    size_t sizes[] = {0, length - 1, length, length + 1, ORDC_CURVE_TEXT, below(800)};
    for (size_t i = 0; i < sizeof sizes / sizeof sizes[0]; i++) {
        size_t size = sizes[i], written = 78;
        uint8_t *buffer = filled(size);
        struct ordc_refusal refusal = ordc_write_curves(lent, buffer, size, &written);
        int fits = possible && length <= size;
        uint64_t number = !possible ? ORDC_IMPOSSIBLE_VALUES : fits ? ORDC_ACCEPTED : ORDC_BUFFER_SHORT;
        expect(refusal.number == number && refusal.line == 0, "write curves", refusal);
        expect(written == (fits ? length : 78) && stayed(buffer, fits ? length : 0, size), "write curves, buffer", refusal);
        if (fits) {
            refusal = ordc_read_curves(buffer, length, again);
            expect(refusal.number == ORDC_ACCEPTED && memcmp(again, set, bytes) == 0, "reading what was written", refusal);
        }
        free(buffer);
    }
    expect(memcmp(lent, set, bytes) == 0, "write curves, set", measured);
    free(again);
    free(lent);
    return possible ? length : 0;
}

/* The shortest curve text and the longest. Keys, `=` and byte 10 have 277 bytes. The 50 numbers have 1 each, or VOLL 7,
 * X 8, and in each of the 24 groups the mean 9 and the spread 8. */
static void shortest_and_longest(void)
{
    int64_t shortest[ORDC_CURVES] = {0}, longest[ORDC_CURVES] = {2000000, 20000000};
    for (int group = 0; group < ORDC_GROUPS; group++) {
        shortest[3 + 2 * group] = 1;
        longest[2 + 2 * group] = -20000000;
        longest[3 + 2 * group] = 20000000;
    }
    if (write_curves(shortest) != 327 || write_curves(longest) != ORDC_CURVE_TEXT) {
        fprintf(stderr, "the shortest or the longest curve text has another length\n");
        exit(EXIT_FAILURE);
    }
}

/* A snapshot held as values, or space for one. */
struct values {
    int64_t *header, *numbers;
    uint8_t *ids;
    size_t ids_length, numbers_length;
};

static struct values space(size_t ids_length, size_t numbers_length)
{
    return (struct values){filled(ORDC_HEADER * sizeof(int64_t)), filled(numbers_length * sizeof(int64_t)), filled(ids_length),
                           ids_length, numbers_length};
}

static void release(struct values held)
{
    free(held.header);
    free(held.numbers);
    free(held.ids);
}

static struct ordc_refusal read_values(const uint8_t *text, size_t length, struct values held)
{
    return ordc_read_snapshot(text, length, held.header, held.ids, held.ids_length, held.numbers, held.numbers_length);
}

static struct ordc_refusal write_values(struct values held, uint8_t *buffer, size_t size, size_t *written)
{
    return ordc_write_snapshot(held.header, held.ids, held.ids_length, held.numbers, held.numbers_length, buffer, size, written);
}

/* Reads a text into rows that may be too few, unequal in number or cut off. Where it is accepted the values give the
 * text back. */
static long read_snapshot(const uint8_t *text, size_t length)
{
    struct values held = space(below(8 * ORDC_ID_ROW), below(8 * ORDC_NUMBER_ROW));
    struct ordc_refusal refusal = read_values(text, length, held);
    check("read snapshot", refusal, "0011111111000011", "", "", 0);
    int accepted = refusal.number == ORDC_ACCEPTED;
    size_t resources = accepted ? (size_t)held.header[7] : 0;
    size_t id_bytes = resources * ORDC_ID_ROW, numbers = resources * ORDC_NUMBER_ROW, number = sizeof(int64_t);
    expect(accepted || stayed(held.header, 0, ORDC_HEADER * number), "read snapshot, header", refusal);
    expect(id_bytes <= held.ids_length && numbers <= held.numbers_length, "read snapshot, space", refusal);
    expect(stayed(held.ids, id_bytes, held.ids_length), "read snapshot, ids", refusal);
    expect(stayed(held.numbers, numbers * number, held.numbers_length * number), "read snapshot, numbers", refusal);
    if (accepted) {
        struct values read = {held.header, held.numbers, held.ids, id_bytes, numbers};
        uint8_t *buffer = filled(length);
        size_t written = 77;
        refusal = write_values(read, buffer, length, &written);
        expect(refusal.number == ORDC_ACCEPTED && written == length, "writing what was read", refusal);
        expect(memcmp(buffer, text, length) == 0, "what was read and written", refusal);
        free(buffer);
    }
    release(held);
    return accepted;
}

/* A number at the end of a range or beyond it, or any. */
static int64_t any_number(void)
{
    static const int64_t NUMBERS[] = {INT64_MIN, -2000001, -2000000, -1, 0, 1, 2, 4, 5, 6, 7, 12, 13, 23, 24, 10000, 10001,
                                      2000000, 2000001, 200000000, 200000001, INT64_MAX};
    size_t choice = below(sizeof NUMBERS / sizeof NUMBERS[0] + 1);
    return choice < sizeof NUMBERS / sizeof NUMBERS[0] ? NUMBERS[choice] : (int64_t)(state ^ state << 31);
}

/* The values of SNAPSHOT with up to three damages: a number, marks or a byte of an id changed, a row of ids put over
 * another, rows taken off or cut. */
static struct values damaged_values(void)
{
    static const char BYTES[] = "09AZ_az-? \n\0\xff";
    enum { RESOURCES = 4 };
    struct values whole = space(RESOURCES * ORDC_ID_ROW, RESOURCES * ORDC_NUMBER_ROW);
    struct ordc_refusal refusal = read_values((const uint8_t *)SNAPSHOT, strlen(SNAPSHOT), whole);
    expect(refusal.number == ORDC_ACCEPTED, "the values", refusal);
    size_t ids_length = whole.ids_length, numbers_length = whole.numbers_length;
    for (size_t turns = below(4); turns > 0; turns--) {
        size_t row = below(RESOURCES) * ORDC_ID_ROW, other = below(RESOURCES) * ORDC_ID_ROW;
        switch (below(7)) {
        case 0:
            whole.header[below(ORDC_HEADER)] = any_number();
            break;
        case 1:
            whole.numbers[below(whole.numbers_length)] = any_number();
            break;
        case 2:
            whole.ids[row + below(20)] = (uint8_t)BYTES[below(sizeof BYTES)];
            break;
        case 3:
            memmove(whole.ids + row, whole.ids + other, ORDC_ID_ROW);
            break;
        case 4:
            ids_length = below(ids_length + 1);
            break;
        case 5:
            whole.numbers[below(RESOURCES) * ORDC_NUMBER_ROW + ORDC_MARKS] = (int64_t)below(256) - 128;
            break;
        default:
            numbers_length = below(numbers_length + 1);
        }
    }
    struct values held = space(ids_length, numbers_length);
    memcpy(held.header, whole.header, ORDC_HEADER * sizeof(int64_t));
    if (ids_length > 0) {
        memcpy(held.ids, whole.ids, ids_length);
    }
    if (numbers_length > 0) {
        memcpy(held.numbers, whole.numbers, numbers_length * sizeof(int64_t));
    }
    release(whole);
    return held;
}

/* Writes damaged values to a block of exactly the size that is named. What is written is priced, and read and written
 * again. */
static long write_snapshot(const int64_t curves[ORDC_CURVES])
{
    struct values held = damaged_values();
    size_t length = 77, written = 77;
    struct ordc_refusal measured = ordc_snapshot_length(held.header, held.ids, held.ids_length, held.numbers, held.numbers_length, &length);
    check("snapshot length", measured, "0000001110000001", "", "", 0);
    int possible = measured.number == ORDC_ACCEPTED;
    expect(possible || (length == 77 && measured.line > 0), "snapshot length, refused", measured);
    size_t sizes[] = {0, length - 1, length, length + 1, below(600)}, size = sizes[below(5)];
    uint8_t *buffer = filled(size);
    struct ordc_refusal refusal = write_values(held, buffer, size, &written);
    int fits = possible && length <= size;
    uint64_t number = !possible ? measured.number : fits ? ORDC_ACCEPTED : ORDC_BUFFER_SHORT;
    expect(refusal.number == number && refusal.line == measured.line, "write snapshot", refusal);
    expect(written == (fits ? length : 77) && stayed(buffer, fits ? length : 0, size), "write snapshot, buffer", refusal);
    if (fits) {
        int64_t answer[ORDC_ANSWER];
        refusal = ordc_price(curves, buffer, length, answer);
        expect(refusal.number == ORDC_ACCEPTED, "pricing what was written", refusal);
        uint8_t *text = filled(length);
        memcpy(text, buffer, length);
        /* the text has a resource for each whole row of both sorts, so that its values have space where they came from */
        refusal = read_values(text, length, held);
        expect(refusal.number == ORDC_ACCEPTED, "reading what was written", refusal);
        memset(buffer, FILL, size);
        refusal = write_values(held, buffer, size, &written);
        expect(refusal.number == ORDC_ACCEPTED && written == length, "writing it again", refusal);
        expect(memcmp(text, buffer, length) == 0, "what was written again", refusal);
        free(text);
    }
    free(buffer);
    release(held);
    return fits;
}

/* What a mark does: accepted or refused by number, at a line of the text. */
struct verdict {
    uint64_t number, line;
};

/* The verdict on a mark at this place of a row; the resource is the snapshot's first, whose lines begin at 9. */
static struct verdict verdict_on(const int64_t row[ORDC_NUMBER_ROW], size_t place)
{
    /* by status, in the order of enum ordc_status: whether a mark turns the snapshot back; c where it goes by cold30 */
    static const char *const TURNED_BACK[] = {"1c10100", "1010100", "0010000", "0c10000"};
    int load = row[0] >= ORDC_CLR;
    uint64_t line = (load ? 11 : 12) + place - 2;
    char turned_back = load ? '1' : TURNED_BACK[row[0]][row[1]];
    if (load && place > 5) {
        return (struct verdict){ORDC_ACCEPTED, 0}; /* beyond its numbers */
    }
    if (place == (row[0] == ORDC_NCLR ? 2 : 7)) {
        return (struct verdict){ORDC_BADLY_WRITTEN, line}; /* a flag */
    }
    if (turned_back == '1' || (turned_back == 'c' && row[7] == 1)) {
        return (struct verdict){ORDC_SUSPECT_NUMBER, line};
    }
    return (struct verdict){ORDC_ACCEPTED, 0};
}

static void expect_verdict(struct verdict verdict, const char *what, struct ordc_refusal refusal)
{
    expect(refusal.number == verdict.number && refusal.line == verdict.line, what, refusal);
}

/* Writes one resource with these marks at place 8, of which the one at this place counts, to a block of just the length
 * and to a shorter one. `plain` is the length without marks. */
static void write_marked(struct values held, size_t place, int64_t marks, size_t plain)
{
    struct verdict verdict = verdict_on(held.numbers, place);
    size_t length = plain + (held.numbers[0] < ORDC_CLR || place < 6), told = 77, written = 77;
    held.numbers[ORDC_MARKS] = marks;
    struct ordc_refusal refusal = ordc_snapshot_length(held.header, held.ids, held.ids_length, held.numbers, held.numbers_length, &told);
    expect_verdict(verdict, "length of a marked snapshot", refusal);
    expect(told == (verdict.number == ORDC_ACCEPTED ? length : 77), "length of a marked snapshot, told", refusal);
    uint8_t *buffer = filled(length);
    refusal = write_values(held, buffer, length, &written);
    expect_verdict(verdict, "writing a marked snapshot", refusal);
    if (verdict.number == ORDC_ACCEPTED) {
        expect(written == length, "writing a marked snapshot, length", refusal);
        verdict.number = ORDC_BUFFER_SHORT; /* in a shorter buffer, below */
    }
    free(buffer);
    buffer = filled(length - 1);
    refusal = write_values(held, buffer, length - 1, &written);
    expect_verdict(verdict, "writing a marked snapshot, short buffer", refusal);
    expect(stayed(buffer, 0, length - 1), "writing a marked snapshot, buffer", refusal);
    free(buffer);
    held.numbers[ORDC_MARKS] = 0;
}

/* Prices and reads the text with a `?` put before byte 10 of the line of this place. */
static void read_marked(const int64_t curves[ORDC_CURVES], struct values held, size_t place, const uint8_t *plain, size_t length)
{
    struct verdict verdict = verdict_on(held.numbers, place);
    size_t at = 0, number_line = (held.numbers[0] < ORDC_CLR ? 12 : 11) + place - 2;
    for (size_t line = 1; plain[at] != '\n' || line < number_line; at++) {
        line += plain[at] == '\n';
    }
    uint8_t *text = filled(length + 1);
    memcpy(text, plain, at);
    text[at] = '?';
    memcpy(text + at + 1, plain + at, length - at);
    int64_t answer[ORDC_ANSWER], unmarked[ORDC_ANSWER];
    struct ordc_refusal refusal = ordc_price(curves, plain, length, unmarked);
    expect(refusal.number == ORDC_ACCEPTED, "pricing without a mark", refusal);
    refusal = ordc_price(curves, text, length + 1, answer);
    expect_verdict(verdict, "pricing a marked snapshot", refusal);
    expect(refusal.number != ORDC_ACCEPTED || memcmp(answer, unmarked, sizeof answer) == 0, "a mark changes a price", refusal);
    struct values read = space(ORDC_ID_ROW, ORDC_NUMBER_ROW);
    refusal = read_values(text, length + 1, read);
    expect_verdict(verdict, "reading a marked snapshot", refusal);
    if (verdict.number == ORDC_ACCEPTED) {
        held.numbers[ORDC_MARKS] = ORDC_MARK(place);
        expect(memcmp(read.numbers, held.numbers, ORDC_NUMBER_ROW * sizeof(int64_t)) == 0, "the marks read", refusal);
        held.numbers[ORDC_MARKS] = 0;
        verdict.number = ORDC_BUFFER_SHORT; /* where there is no space, below */
    } else {
        expect(stayed(read.numbers, 0, ORDC_NUMBER_ROW * sizeof(int64_t)), "reading a marked snapshot, numbers", refusal);
    }
    expect_verdict(verdict, "reading a marked snapshot, no space", ordc_read_snapshot(text, length + 1, read.header, NULL, 0, NULL, 0));
    release(read);
    free(text);
}

/* A mark on each number of one resource, of this row. */
static void mark_each(const int64_t curves[ORDC_CURVES], const int64_t row[ORDC_NUMBER_ROW])
{
    static const int64_t HEADER[ORDC_HEADER] = {7, 14, 2500, 10000, 3000000, 2300000, 0, 1};
    struct values held = space(ORDC_ID_ROW, ORDC_NUMBER_ROW);
    memcpy(held.header, HEADER, sizeof HEADER);
    memset(held.ids, 0, ORDC_ID_ROW);
    held.ids[0] = 'A';
    memcpy(held.numbers, row, ORDC_NUMBER_ROW * sizeof row[0]);
    uint8_t buffer[512];
    size_t length = 0, told = 0;
    struct ordc_refusal refusal = write_values(held, buffer, sizeof buffer, &length);
    expect(refusal.number == ORDC_ACCEPTED, "writing without marks", refusal);
    /* the magnitude of the least number has one binary digit, which is beyond all numbers */
    held.numbers[ORDC_MARKS] = INT64_MIN;
    refusal = ordc_snapshot_length(held.header, held.ids, held.ids_length, held.numbers, held.numbers_length, &told);
    expect(refusal.number == ORDC_ACCEPTED && told == length, "the least number at place 8", refusal);
    held.numbers[ORDC_MARKS] = 0;
    for (size_t place = 2; place < ORDC_MARKS; place++) {
        int64_t mark = ORDC_MARK(place);
        /* a magnitude, and digits beyond the six or four numbers of the kind: 64 or 16, and all above */
        int64_t beyond = row[0] < ORDC_CLR ? ORDC_MARK(8) : ORDC_MARK(6);
        int64_t all_beyond = INT64_MAX - (beyond - 1);
        int64_t marks[] = {mark, -mark, mark | beyond, -(mark | beyond), mark | all_beyond, -(mark | all_beyond)};
        for (size_t i = 0; i < sizeof marks / sizeof marks[0]; i++) {
            write_marked(held, place, marks[i], length);
        }
        if (row[0] < ORDC_CLR || place < 6) {
            read_marked(curves, held, place, buffer, length);
        }
    }
    release(held);
}

/* Every kind with every status and flag, below and at 95 percent of LSL, without and with Non-Spin. */
static void marks(const int64_t curves[ORDC_CURVES])
{
    for (int64_t kind = ORDC_GEN; kind <= ORDC_NCLR; kind++) {
        int64_t statuses = kind < ORDC_CLR ? ORDC_OUT + 1 : 1;
        for (int64_t status = ORDC_ON; status < statuses; status++) {
            for (int64_t turn = 0; turn < 8; turn++) {
                int64_t generator[ORDC_NUMBER_ROW] = {kind, status, 94 + turn % 2, 100, 500, 60, turn / 2 % 2, turn / 4, 0};
                int64_t load[ORDC_NUMBER_ROW] = {kind, 0, turn % 2, turn / 2, 0, turn / 4, 0, 0, 0};
                mark_each(curves, kind < ORDC_CLR ? generator : load);
            }
        }
    }
}

int main(int count, char **arguments)
{
    long turns = count > 1 ? atol(arguments[1]) : 2000;
    long accepted = 0;
    char curve_text[1024] = "voll=900000\nfloor=2000000\n";
    int64_t curves[ORDC_CURVES];
    for (int group = 0; group < ORDC_GROUPS; group++) {
        strcat(curve_text, "mu=-5\nsigma=1000000\n");
    }
    if (ordc_read_curves((const uint8_t *)curve_text, strlen(curve_text), curves).number != ORDC_ACCEPTED) {
        return EXIT_FAILURE;
    }
    shortest_and_longest();
    marks(curves);
    long suspect = 0;
    for (long turn = 0; turn < turns; turn++) {
        size_t length;
        struct ordc_refusal refusal;

        uint8_t *text = damaged(HOUR, &length);
        int64_t record[ORDC_RECORD] = {0}, kept[ORDC_RECORD];
        record[below(ORDC_RECORD)] = (int64_t)below(3) - 1;
        memcpy(kept, record, sizeof kept);
        refusal = ordc_book(record, text, length);
        check("book", refusal, "0111111101110000", kept, record, sizeof kept);
        accepted += refusal.number == ORDC_ACCEPTED;
        free(text);

        int64_t set[ORDC_CURVES], old[ORDC_CURVES];
        memcpy(set, curves, sizeof set);
        memcpy(old, curves, sizeof old);
        refusal = ordc_settle(record, (int64_t)below(3) - 1, 0, set);
        check("settle", refusal, "0100000100001100", old, set, sizeof old);

        text = damaged(curve_text, &length);
        refusal = ordc_read_curves(text, length, set);
        check("read", refusal, "0011111101000000", old, set, sizeof old);
        accepted += refusal.number == ORDC_ACCEPTED;
        free(text);

        static const size_t SIZES[] = {0, 0, 1, ORDC_PAGE - 1, ORDC_PAGE, ORDC_PAGE + 1};
        size_t choice = (size_t)turn % 7, size = choice < 6 ? SIZES[choice] : below(2 * ORDC_PAGE);
        int64_t shown[ORDC_CURVES];
        memcpy(shown, set, sizeof shown);
        size_t group = below(ORDC_GROUPS), place = below(ORDC_CURVES);
        shown[2 + 2 * group] = (int64_t)below(40000001) - 20000000;
        shown[3 + 2 * group] = (int64_t)below(20000000) + 1;
        page(shown, size, choice == 0, size < ORDC_PAGE ? ORDC_BUFFER_SHORT : ORDC_ACCEPTED);
        shown[place] = outside(place);
        page(shown, size, choice == 0, ORDC_IMPOSSIBLE_VALUES);

        set[below(ORDC_CURVES)] += (int64_t)below(2) * INT64_C(4000000000);
        write_curves(set);
        for (size_t i = 0; i < ORDC_CURVES; i++) {
            set[i] = within(i);
        }
        write_curves(set);
        set[place] = outside(place);
        write_curves(set);

        text = damaged(SNAPSHOT, &length);
        int64_t answer[ORDC_ANSWER] = {1, 2, 3, 4, 5, 6}, was[ORDC_ANSWER] = {1, 2, 3, 4, 5, 6};
        refusal = ordc_price(curves, text, length, answer);
        check("price", refusal, "0011111111000001", was, answer, sizeof was);
        accepted += refusal.number == ORDC_ACCEPTED;
        suspect += refusal.number == ORDC_SUSPECT_NUMBER;
        accepted += read_snapshot(text, length);
        free(text);
        accepted += write_snapshot(curves);
    }
    printf("turns=%ld\naccepted=%ld\nsuspect=%ld\n", turns, accepted, suspect);
    return EXIT_SUCCESS;
}
