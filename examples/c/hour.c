/*
 * Tests the book of a folder against its grid, monthly, and settles its hour.
 *
 * Started in that folder, with no arguments: it reads grid.bin, book.bin and prices.bin.
 * Made by gcc -I include -o hour examples/c/hour.c dist/x86-64-linux/libcrr.a
 */
#include <inttypes.h>
#include <stdio.h>
#include "crr.h"

static uint8_t grid[CRR_MAX_GRID_BYTES + 1], book[CRR_MAX_BOOK_BYTES + 1], price_file[CRR_MAX_PRICE_BYTES + 1];
static uint64_t limits[CRR_MAX_CONSTRAINTS], prices[CRR_MAX_CONSTRAINTS], priced[CRR_MAX_CONTRACTS];
static int64_t factors[CRR_MAX_NODES * CRR_MAX_CONSTRAINTS], cents[CRR_MAX_CONTRACTS];

static size_t load(const char *name, uint8_t *bytes, size_t room) {
    FILE *file = fopen(name, "rb");
    size_t n = file ? fread(bytes, 1, room, file) : 0;
    if (file) fclose(file);
    return n;
}

static int refused(const char *what, uint64_t number) {
    uint8_t text[CRR_REFUSAL_TEXT_BYTES];
    size_t bytes = 0;

    if (number == CRR_OK) return 0;
    crr_refusal_text(number, text, sizeof text, &bytes);
    fprintf(stderr, "%s refused: %" PRIu64 ", %.*s\n", what, number, (int)bytes, (const char *)text);
    return 1;
}

int main(int words, char **word) {
    size_t grid_len = load("grid.bin", grid, sizeof grid);
    size_t book_len = load("book.bin", book, sizeof book);
    size_t price_len = load("prices.bin", price_file, sizeof price_file);
    size_t nodes, constraints, count, lowest;
    uint64_t form, period, set, parts;
    int64_t excess, sum, whole;

    if (words != 1) {
        fprintf(stderr, "usage: %s, in a folder with grid.bin, book.bin and prices.bin\n", word[0]);
        return 2;
    }
    if (refused("grid", crr_read_grid(grid, grid_len, limits, CRR_MAX_CONSTRAINTS, factors,
                                      CRR_MAX_NODES * CRR_MAX_CONSTRAINTS, &nodes, &constraints, &form))) return 1;
    if (refused("prices", crr_read_prices(constraints, price_file, price_len, prices, CRR_MAX_CONSTRAINTS, &period))) return 1;
    if (refused("test", crr_test_book(nodes, constraints, CRR_MONTHLY, period, limits, constraints, factors,
                                      nodes * constraints, book, book_len, &set, &count, &lowest, &excess))) return 1;
    if (set == 0) printf("pass\n");
    else printf("fail: %zu overloaded, constraint %zu by %" PRId64 "\n", count, lowest, excess);
    if (refused("hour", crr_settle_hour(nodes, constraints, period, factors, nodes * constraints, prices, constraints,
                                        book, book_len, cents, CRR_MAX_CONTRACTS, priced, CRR_MAX_CONTRACTS,
                                        &sum, &whole, &parts))) return 1;
    printf("sum %" PRId64 ", exact %" PRId64 " cents and %" PRIu64 " parts\n", sum, whole, parts);
    return 0;
}
