/* A case file of two fragments and two events, paired from C in one call, then read and solved in two; then files that are refused.
   Exits with 0 where every answer is the expected one.
     cc -Iinclude examples/case.c target/staticlib/libserbihun.a -o case && ./case */
#include <stdio.h>
#include <string.h>

#include "serbihun.h"

enum { N = 2 };

#define SIZE_2 0x01, 0x02, 0x00, 0xE8, 0x03, 0x00, 0x00
#define ROW_7 0x02, 0x07, 0x00, 0x03, 0x00, 0x88, 0x13, 0x00, 0x00
#define ROW_9 0x02, 0x09, 0x00, 0x03, 0x00, 0x18, 0x15, 0x00, 0x00
#define COLUMN_0 0x03, 0x03, 0x00, 0xB4, 0x14, 0x00, 0x00
#define COLUMN_1 0x03, 0x03, 0x00, 0x0C, 0x17, 0x00, 0x00
#define END 0x04

static const uint8_t file[40] = {SIZE_2, ROW_7, ROW_9, COLUMN_0, COLUMN_1, END};

static int32_t costs[SERBIHUN_ROOM];
static uint8_t mask[SERBIHUN_ROOM];

static int wrong;

static void expect(const char *what, int64_t found, int64_t expected)
{
    if (found != expected) {
        printf("%s: %lld, expected %lld\n", what, (long long)found, (long long)expected);
        wrong = 1;
    }
}

static void expect_refused(const char *what, const uint8_t *bytes, size_t length, uint32_t number, size_t place)
{
    const struct serbihun_case c = serbihun_read_case(bytes, length, costs, SERBIHUN_ROOM, mask, SERBIHUN_ROOM);
    expect(what, c.number, number);
    expect(what, (int64_t)c.place, (int64_t)place);
    expect(what, (int64_t)(c.n + c.window), 0);
    expect(what, serbihun_hut(bytes, length, 0), SERBIHUN_NO_HUT);
}

static uint32_t number_with(size_t file_length, size_t costs_length, size_t mask_length)
{
    return serbihun_read_case(file, file_length, costs, costs_length, mask, mask_length).number;
}

static void expect_record(const char *what, size_t at, uint32_t number, size_t start, size_t length)
{
    const struct serbihun_record r = serbihun_record(file, sizeof file, at);
    expect(what, r.number, number);
    expect(what, (int64_t)r.start, (int64_t)start);
    expect(what, (int64_t)r.length, (int64_t)length);
}

/* Huts, columns and total in one call; and what a wrong room or a bad file leaves. */
static void pair_at_once(void)
{
    static int64_t working[SERBIHUN_ROOM], row_prices[SERBIHUN_LINES], column_prices[SERBIHUN_LINES];
    static uint8_t marks[SERBIHUN_ROOM];
    static uint16_t columns[SERBIHUN_LINES], huts[SERBIHUN_LINES];
    const size_t lines = SERBIHUN_LINES;
    struct serbihun_pairs p;
    size_t row;

    p = serbihun_pair_case(file, sizeof file, costs, SERBIHUN_ROOM, mask, SERBIHUN_ROOM, working, SERBIHUN_ROOM, marks, SERBIHUN_ROOM,
                           columns, lines, row_prices, lines, column_prices, lines - 1, huts, lines);
    expect("room for a price less", p.number, SERBIHUN_WRONG_ROOM);
    p = serbihun_pair_case(file, 39, costs, SERBIHUN_ROOM, mask, SERBIHUN_ROOM, working, SERBIHUN_ROOM, marks, SERBIHUN_ROOM,
                           columns, lines, row_prices, lines, column_prices, lines, huts, lines);
    expect("a cut file", p.number, SERBIHUN_CUT);
    expect("its place", (int64_t)p.place, 39);
    expect("what a refusal writes", huts[0] + columns[1] + costs[0], 0);

    p = serbihun_pair_case(file, sizeof file, costs, SERBIHUN_ROOM, mask, SERBIHUN_ROOM, working, SERBIHUN_ROOM, marks, SERBIHUN_ROOM,
                           columns, lines, row_prices, lines, column_prices, lines, huts, lines);
    expect("number", p.number, SERBIHUN_PAIRED);
    expect("n", (int64_t)p.n, N);
    expect("window", p.window, 1000);
    expect("total", p.total, 800);
    expect("hut of row 0", huts[0], 7);
    expect("hut of row 1", huts[1], 9);
    for (row = 0; row < p.n; row++) {
        expect("column", columns[row], (int64_t)row);
        printf("%u %u\n", (unsigned)huts[row], (unsigned)columns[row]);
    }
    printf("TOTAL %lld\n", (long long)p.total);
}

/* The file's costs and mask are what the solver takes. */
static void read_and_pair(void)
{
    static int64_t working[N * N], row_prices[N], column_prices[N];
    static uint8_t marks[N * N];
    static uint16_t columns[N];
    const int32_t expected_costs[N * N] = {300, 900, 100, 500};
    const uint32_t expected_huts[N] = {7, 9};
    struct serbihun_case c;
    struct serbihun_answer a;
    size_t row, column;

    c = serbihun_read_case(file, sizeof file, costs, SERBIHUN_ROOM, mask, SERBIHUN_ROOM);
    expect("number", c.number, SERBIHUN_ACCEPTED);
    expect("place", (int64_t)c.place, 0);
    expect("n", (int64_t)c.n, N);
    expect("window", c.window, 1000);
    if (wrong)
        return;

    printf("window %lu\n", (unsigned long)c.window);
    for (row = 0; row < N; row++) {
        const uint32_t hut = serbihun_hut(file, sizeof file, row);
        expect("hut", hut, expected_huts[row]);
        printf("hut %lu:", (unsigned long)hut);
        for (column = 0; column < N; column++) {
            expect("mask", mask[row * N + column], 1);
            expect("cost", costs[row * N + column], expected_costs[row * N + column]);
            if (mask[row * N + column])
                printf(" %ld", (long)costs[row * N + column]);
            else
                printf(" -");
        }
        printf("\n");
    }
    expect("hut of a row that is not there", serbihun_hut(file, sizeof file, N), SERBIHUN_NO_HUT);

    a = serbihun_solve(N, (const uint8_t *)costs, 4 * N * N, mask, N * N, N * (N - 1) / 2, working, N * N,
                       marks, N * N, columns, N, row_prices, N, column_prices, N);
    expect("answer", a.number, SERBIHUN_PAIRED);
    expect("total", a.total, 800);
    for (row = 0; row < N; row++) {
        expect("column", columns[row], (int64_t)row);
        printf("%lu %u\n", (unsigned long)serbihun_hut(file, sizeof file, row), (unsigned)columns[row]);
    }
    printf("TOTAL %lld\n", (long long)a.total);
}

/* The shortest file of each refusal, and room of another size; none of them writes. */
static void refusals(void)
{
    static const uint8_t fragment[1] = {0x02}, zero[1] = {0x00}, end[1] = {END};
    static const uint8_t none[7] = {0x01, 0x00, 0x00, 0xE8, 0x03, 0x00, 0x00};
    static const uint8_t many[7] = {0x01, 0x41, 0x00, 0xE8, 0x03, 0x00, 0x00};
    static const uint8_t wide[7] = {0x01, 0x02, 0x00, 0x01, 0xCA, 0x9A, 0x3B};
    static const uint8_t twice[14] = {SIZE_2, SIZE_2};
    static const uint8_t early[8] = {SIZE_2, END};
    static const uint8_t third[34] = {SIZE_2, ROW_7, ROW_9, ROW_7};
    uint8_t longer[41] = {0};
    size_t i;
    int written = 0;

    memset(costs, 0x55, sizeof costs);
    memset(mask, 0x55, sizeof mask);

    expect_refused("an empty file", file, 0, SERBIHUN_CUT, 0);
    expect_refused("a body cut short", fragment, sizeof fragment, SERBIHUN_CUT, 0);
    expect_refused("no end record", file, 39, SERBIHUN_CUT, 39);
    expect_refused("kind 0", zero, sizeof zero, SERBIHUN_UNKNOWN_KIND, 0);
    expect_refused("an end first", end, sizeof end, SERBIHUN_WRONG_ORDER, 0);
    expect_refused("a second size", twice, sizeof twice, SERBIHUN_WRONG_ORDER, 7);
    expect_refused("an end too early", early, sizeof early, SERBIHUN_WRONG_COUNT, 7);
    expect_refused("a third fragment", third, sizeof third, SERBIHUN_WRONG_COUNT, 25);
    expect_refused("n = 0", none, sizeof none, SERBIHUN_BAD_SIZE, 0);
    expect_refused("n = 65", many, sizeof many, SERBIHUN_BAD_SIZE, 0);
    expect_refused("a window of 1,000,000,001", wide, sizeof wide, SERBIHUN_BAD_SIZE, 0);
    memcpy(longer, file, sizeof file);
    expect_refused("a byte after the end", longer, sizeof longer, SERBIHUN_BYTES_AFTER, 40);

    expect("room for a cost less", number_with(sizeof file, SERBIHUN_ROOM - 1, SERBIHUN_ROOM), SERBIHUN_WRONG_ROOM);
    expect("room for a mask byte less", number_with(sizeof file, SERBIHUN_ROOM, SERBIHUN_ROOM - 1), SERBIHUN_WRONG_ROOM);
    expect("no room and no file", number_with(0, 0, 0), SERBIHUN_WRONG_ROOM);

    for (i = 0; i < SERBIHUN_ROOM; i++)
        written |= costs[i] != 0x55555555 || mask[i] != 0x55;
    expect("whether a refusal writes", written, 0);
}

/* From record to record through the file, and where there is none. */
static void records(void)
{
    static const uint8_t unknown[2] = {END, 0x05};
    struct serbihun_record r;

    expect_record("the size", 0, 0, 1, 6);
    expect_record("row 0", 7, 0, 8, 8);
    expect_record("row 1", 16, 0, 17, 8);
    expect_record("column 0", 25, 0, 26, 6);
    expect_record("column 1", 32, 0, 33, 6);
    expect_record("the end", 39, 0, 40, 0);
    expect_record("past the end", 40, SERBIHUN_CUT, 0, 0);
    expect_record("far past the end", SIZE_MAX, SERBIHUN_CUT, 0, 0);
    expect_record("no kind", 8, SERBIHUN_UNKNOWN_KIND, 0, 0);

    r = serbihun_record(unknown, sizeof unknown, 1);
    expect("kind 5", r.number, SERBIHUN_UNKNOWN_KIND);
    expect("its part", (int64_t)(r.start + r.length), 0);
}

int main(void)
{
    pair_at_once();
    read_and_pair();
    refusals();
    records();
    return wrong;
}
