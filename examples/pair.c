/* Three workers and three tasks, from C. Exits with 0 where every answer is the expected one.
     cc -Iinclude examples/pair.c target/staticlib/libserbihun.a -o pair && ./pair */
#include <stdio.h>
#include <string.h>

#include "serbihun.h"

enum { N = 3 };

static int64_t working[N * N], row_prices[N], column_prices[N];
static uint8_t marks[N * N];
static uint16_t columns[N];

/* On a little-endian machine an array of int32_t is its bytes already. */
static struct serbihun_answer solve(size_t n, const int32_t *costs, size_t cost_bytes, const uint8_t *mask, uint32_t budget)
{
    return serbihun_solve(n, (const uint8_t *)costs, cost_bytes, mask, N * N, budget, working, N * N,
                          marks, N * N, columns, N, row_prices, N, column_prices, N);
}

static int wrong;

static void expect(const char *what, int64_t found, int64_t expected)
{
    if (found != expected) {
        printf("%s: %lld, expected %lld\n", what, (long long)found, (long long)expected);
        wrong = 1;
    }
}

int main(void)
{
    const int32_t costs[N * N] = {4, -1, 3, 2, 0, 5, 3, 2, -2};
    const uint8_t all[N * N] = {1, 1, 1, 1, 1, 1, 1, 1, 1};
    const uint8_t column_0_forbidden[N * N] = {0, 1, 1, 0, 1, 1, 0, 1, 1};
    const uint8_t two_at_5[N * N] = {1, 1, 1, 1, 1, 2, 1, 1, 1};
    int32_t dear[N * N];
    struct serbihun_answer a;
    int i;

    a = solve(N, costs, sizeof costs, all, 3);
    expect("number", a.number, SERBIHUN_PAIRED);
    expect("total", a.total, -1);
    expect("column of row 0", columns[0], 1);
    expect("column of row 1", columns[1], 0);
    expect("column of row 2", columns[2], 2);
    expect("place, block rows and block columns", (int64_t)(a.place + a.block_rows + a.block_columns), 0);
    for (i = 0; i < N * N; i++)
        expect("cost of a cell", row_prices[i / N] + column_prices[i % N] + working[i], costs[i]);

    a = serbihun_solve_by_steps(N, (const uint8_t *)costs, sizeof costs, all, N * N, 3, working, N * N, marks, N * N, columns, N,
                                row_prices, N, column_prices, N);
    expect("total by steps", a.total, -1);

    expect("n = 0", solve(0, costs, sizeof costs, all, 3).number, SERBIHUN_EMPTY);
    expect("n = 65", solve(65, costs, sizeof costs, all, 3).number, SERBIHUN_TOO_LARGE);
    expect("a byte short", solve(N, costs, sizeof costs - 1, all, 3).number, SERBIHUN_WRONG_LENGTH);

    a = solve(N, costs, sizeof costs, two_at_5, 3);
    expect("a mask byte of 2", a.number, SERBIHUN_BAD_MASK);
    expect("its place", (int64_t)a.place, 5);

    memcpy(dear, costs, sizeof dear);
    dear[7] = -1000000001;
    a = solve(N, dear, sizeof dear, all, 3);
    expect("a cost out of range", a.number, SERBIHUN_BAD_COST);
    expect("its place", (int64_t)a.place, 7);

    a = solve(N, costs, sizeof costs, column_0_forbidden, 3);
    expect("a forbidden column", a.number, SERBIHUN_NO_PAIRING);
    expect("block rows", (int64_t)a.block_rows, 7);
    expect("block columns", (int64_t)a.block_columns, 1);

    if (!wrong)
        printf("every answer is the expected one\n");
    return wrong;
}
