/* Runs every function in a thread whose stack is ORDC_STACK bytes, as the header promises, and tells how much of it was used. */
#define _GNU_SOURCE
#include "ordc.h"

#include <pthread.h>
#include <stdarg.h>
#include <stdio.h>
#include <stdlib.h>
#include <string.h>
#include <sys/mman.h>
#include <unistd.h>

enum { FILL = 0xa5 };

static int64_t record[ORDC_RECORD], curves[ORDC_CURVES], answer[ORDC_ANSWER];
static uint8_t written[ORDC_CURVE_TEXT];
static size_t curves_length, written_length;
static uint8_t page[ORDC_PAGE + 1];
static uint8_t *page_buffer;
static size_t page_size;
static char text[1 << 20];
static size_t length;
static int64_t header[ORDC_HEADER], numbers[ORDC_RESOURCES * ORDC_NUMBER_ROW];
static uint8_t ids[ORDC_RESOURCES * ORDC_ID_ROW];
static size_t resources;
static uint8_t snapshot_text[1 << 20];
static size_t snapshot_size, snapshot_length;
static struct ordc_refusal refusal;

static void add(const char *form, ...)
{
    va_list values;
    va_start(values, form);
    length += (size_t)vsnprintf(text + length, sizeof text - length, form, values);
    va_end(values);
}

/* An hour of so many runs, all its powers `power`. */
static void hour(int month, int clock, int runs, int power)
{
    length = 0;
    add("month=%d\nhour=%d\nongen=%d\nload=0\ntie=0\nns=0\nreg=0\nrrs=0\nnclr=0\noffns=0\ncold30=0\nshed=0\nruns=%d\n", month, clock, power, runs);
    while (runs-- > 0) {
        add("hsl=1\nbase=0\nrrs=0\nnclr=0\nreg=0\nns=0\noffns=0\ncold30=0\nshort=0\n");
    }
}

/* A snapshot of so many resources, of every kind, with marks on those where they turn nothing back. The last resource is a
 * load, whose last number has this mark, `?` or none. */
static void snapshot(int count, const char *mark)
{
    static const char *const KINDS[] = {"gen", "wind", "irr", "nuke"};
    static const char *const MARKS[] = {"", "", "?", "?"};
    length = 0;
    add("month=7\nhour=14\nlambda=2500\nfactor=9500\nprc=3000000\neea1=2300000\nshort=0\ncount=%d\n", count);
    for (int i = 0; i < count; i++) {
        add("id=RESOURCE_%d\n", i);
        if (i == count - 1) {
            add("kind=nclr\nrrsok=1\nnet=1000\nlpc=10\nrrs=400%s\n", mark);
        } else if (i % 8 == 6) {
            add("kind=clr\nbase=2000\nlpc=10\nnonspin=5\nregup=6\n");
        } else if (i % 8 == 7) {
            add("kind=nclr\nrrsok=1\nnet=1000\nlpc=10\nrrs=400\n");
        } else {
            add("kind=%s\nstatus=ON\nnet=2000\nlsl=1000\nhsl=3000%s\nbase=1000\nnonspin=5%s\ncold30=0\n", KINDS[i % 4], MARKS[i % 4], MARKS[i % 4]);
        }
    }
}

static void *nothing(void *none)
{
    return none;
}

static void *book(void *none)
{
    refusal = ordc_book(record, (const uint8_t *)text, length);
    return none;
}

static void *settle(void *none)
{
    refusal = ordc_settle(record, 900000, 2000000, curves);
    return none;
}

static void *measure_curves(void *none)
{
    refusal = ordc_curves_length(curves, &curves_length);
    return none;
}

static void *write_curves(void *none)
{
    refusal = ordc_write_curves(curves, written, sizeof written, &written_length);
    return none;
}

static void *read_curves(void *none)
{
    refusal = ordc_read_curves(written, written_length, curves);
    return none;
}

static void *write_page(void *none)
{
    refusal = ordc_write_page(curves, page_buffer, page_size);
    return none;
}

static void *price(void *none)
{
    refusal = ordc_price(curves, (const uint8_t *)text, length, answer);
    return none;
}

static void *read_snapshot(void *none)
{
    refusal = ordc_read_snapshot((const uint8_t *)text, length, header, ids, resources * ORDC_ID_ROW, numbers, resources * ORDC_NUMBER_ROW);
    return none;
}

static void *measure_snapshot(void *none)
{
    refusal = ordc_snapshot_length(header, ids, resources * ORDC_ID_ROW, numbers, resources * ORDC_NUMBER_ROW, &snapshot_length);
    return none;
}

static void *write_snapshot(void *none)
{
    refusal = ordc_write_snapshot(header, ids, resources * ORDC_ID_ROW, numbers, resources * ORDC_NUMBER_ROW, snapshot_text, snapshot_size, &snapshot_length);
    return none;
}

static void expect(int holds, const char *what)
{
    if (!holds) {
        fprintf(stderr, "%s: number %u, line %u\n", what, (unsigned)refusal.number, (unsigned)refusal.line);
        exit(EXIT_FAILURE);
    }
}

/* Runs a call in a thread of ORDC_STACK bytes, which lie above memory that nobody may touch, and counts the bytes that were written to. */
static size_t used(void *(*call)(void *))
{
    size_t guard = (size_t)sysconf(_SC_PAGESIZE);
    uint8_t *area = mmap(NULL, guard + ORDC_STACK, PROT_READ | PROT_WRITE, MAP_PRIVATE | MAP_ANONYMOUS, -1, 0);
    expect(area != MAP_FAILED && mprotect(area, guard, PROT_NONE) == 0, "no memory");
    uint8_t *stack = area + guard;
    memset(stack, FILL, ORDC_STACK);
    pthread_attr_t attributes;
    pthread_t thread;
    expect(pthread_attr_init(&attributes) == 0 && pthread_attr_setstack(&attributes, stack, ORDC_STACK) == 0 && pthread_create(&thread, &attributes, call, NULL) == 0 && pthread_join(thread, NULL) == 0, "no thread");
    pthread_attr_destroy(&attributes);
    size_t left = 0;
    while (left < ORDC_STACK && stack[left] == FILL) {
        left++;
    }
    munmap(area, guard + ORDC_STACK);
    return ORDC_STACK - left;
}

static size_t most;

/* One call with what it must answer. */
static void try_call(const char *what, void *(*call)(void *), uint64_t number)
{
    size_t bytes = used(call);
    expect(refusal.number == number, what);
    printf("%-40s%8zu bytes\n", what, bytes);
    most = bytes > most ? bytes : most;
}

/* Pages of the curves to a null pointer and to buffers of no bytes, too few, enough and more. */
static void pages(int possible)
{
    static const size_t SIZES[] = {0, 0, 1, ORDC_PAGE - 1, ORDC_PAGE, ORDC_PAGE + 1};
    for (size_t i = 0; i < sizeof SIZES / sizeof SIZES[0]; i++) {
        char what[64];
        page_buffer = i == 0 ? NULL : page;
        page_size = SIZES[i];
        snprintf(what, sizeof what, "write page%s, size %zu%s", possible ? "" : ", impossible", page_size, i == 0 ? ", null" : "");
        try_call(what, write_page, !possible ? ORDC_IMPOSSIBLE_VALUES : page_size < ORDC_PAGE ? ORDC_BUFFER_SHORT : ORDC_ACCEPTED);
    }
}

/* The three calls on a snapshot of so many resources, accepted and refused as late as may be. */
static void values(int count)
{
    char what[64];
    snapshot(count, "?");
    resources = (size_t)count;
    snprintf(what, sizeof what, "read snapshot, %d, the last suspect", count);
    try_call(what, read_snapshot, ORDC_SUSPECT_NUMBER);
    snapshot(count, "");
    resources = (size_t)count - 1;
    snprintf(what, sizeof what, "read snapshot, space for %d", count - 1);
    try_call(what, read_snapshot, ORDC_BUFFER_SHORT);
    resources = (size_t)count;
    snprintf(what, sizeof what, "read snapshot, %d resources", count);
    try_call(what, read_snapshot, ORDC_ACCEPTED);
    snprintf(what, sizeof what, "snapshot length, %d resources", count);
    try_call(what, measure_snapshot, ORDC_ACCEPTED);
    expect(snapshot_length == length, what);
    snprintf(what, sizeof what, "write snapshot, %d resources", count);
    snapshot_size = length;
    try_call(what, write_snapshot, ORDC_ACCEPTED);
    expect(snapshot_length == length && memcmp(snapshot_text, text, length) == 0, what);
    snprintf(what, sizeof what, "write snapshot, %d, short buffer", count);
    snapshot_size = length - 1;
    try_call(what, write_snapshot, ORDC_BUFFER_SHORT);
    /* the last number of the last resource is suspect */
    int64_t *marks = numbers + (resources - 1) * ORDC_NUMBER_ROW + ORDC_MARKS;
    *marks = ORDC_MARK(5);
    snprintf(what, sizeof what, "snapshot length, %d, the last suspect", count);
    try_call(what, measure_snapshot, ORDC_SUSPECT_NUMBER);
    snprintf(what, sizeof what, "write snapshot, %d, the last suspect", count);
    try_call(what, write_snapshot, ORDC_SUSPECT_NUMBER);
    *marks = 0;
    /* the id of the last resource is that of the one before */
    memcpy(ids + (resources - 1) * ORDC_ID_ROW, ids + (resources - 2) * ORDC_ID_ROW, ORDC_ID_ROW);
    snprintf(what, sizeof what, "snapshot length, %d, repeated id", count);
    try_call(what, measure_snapshot, ORDC_REPEATED_ID);
    snprintf(what, sizeof what, "write snapshot, %d, repeated id", count);
    try_call(what, write_snapshot, ORDC_REPEATED_ID);
    text[length++] = '\n';
    snprintf(what, sizeof what, "read snapshot, a byte after %d", count);
    try_call(what, read_snapshot, ORDC_BYTES_FOLLOW);
}

int main(void)
{
    try_call("a thread that calls nothing", nothing, ORDC_ACCEPTED);
    hour(7, 14, 60, 1);
    try_call("book, 60 runs", book, ORDC_ACCEPTED);
    length--;
    try_call("book, the last line not ended", book, ORDC_LINE_ABSENT);
    try_call("settle, no hours", settle, ORDC_TOO_FEW_HOURS);
    memset(record, 0, sizeof record);
    for (int group = 0; group < 2 * ORDC_GROUPS; group++) {
        hour(3 * (group / 2 / 6) + 1, (4 * (group / 2 % 6) + 22) % 24, 1, group % 2 == 0 ? 1 : 1000001);
        book(NULL);
        expect(refusal.number == ORDC_ACCEPTED, "book");
    }
    try_call("settle", settle, ORDC_ACCEPTED);
    try_call("curves length", measure_curves, ORDC_ACCEPTED);
    try_call("write curves", write_curves, ORDC_ACCEPTED);
    expect(written_length == curves_length, "write curves");
    /* means on both sides of the reserves, and probabilities between the knots of the normal table */
    for (int group = 0; group < ORDC_GROUPS; group++) {
        curves[2 + 2 * group] = 1000003 * group - 10000000;
        curves[3 + 2 * group] = 1124667;
    }
    pages(1);
    try_call("curves length, means of both signs", measure_curves, ORDC_ACCEPTED);
    curves[ORDC_CURVES - 1] = 0;
    pages(0);
    try_call("curves length, impossible", measure_curves, ORDC_IMPOSSIBLE_VALUES);
    try_call("read curves", read_curves, ORDC_ACCEPTED);
    snapshot(3, "");
    try_call("price, 3 resources", price, ORDC_ACCEPTED);
    snapshot(64, "");
    try_call("price, 64 resources", price, ORDC_ACCEPTED);
    snapshot(65, "");
    try_call("price, 65 resources", price, ORDC_ACCEPTED);
    snapshot(4096, "");
    try_call("price, 4096 resources", price, ORDC_ACCEPTED);
    text[length++] = '\n';
    try_call("price, a byte after 4096 resources", price, ORDC_BYTES_FOLLOW);
    snapshot(4096, "?");
    try_call("price, 4096, the last suspect", price, ORDC_SUSPECT_NUMBER);
    values(3);
    values(64);
    values(65);
    values(ORDC_RESOURCES);
    printf("at most %zu of %d bytes\n", most, (int)ORDC_STACK);
    return EXIT_SUCCESS;
}
