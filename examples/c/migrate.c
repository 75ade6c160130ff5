/*
 * Migrates load in the book of a folder, on-peak: the rows of the example in 001,
 * section 7.4.8, among LSEs 1 to 4. Prints the nets, to be laid beside 001's matrix,
 * and the contracts that are added, and writes the new book to a file.
 *
 * Started in that folder, which has grid.bin and book.bin, with the name of that file:
 * migrate NEW_BOOK. 001 gives no loads; these are ours. Everything is in thousandths of
 * a MW.
 * Made by gcc -I include -o migrate examples/c/migrate.c dist/x86-64-linux/libcrr.a
 */
#include <inttypes.h>
#include <stdio.h>
#include "crr.h"

#define ROWS 9
#define LSES 4

static const uint8_t classes[ROWS] = {1, 1, 2, 2, 3, 3, 4, 5, 6}; /* residential to large */
static const uint64_t customers[ROWS] = {200, 600, 500, 450, 5, 35, 5, 4, 1};
static const uint64_t rates[ROWS] = {5, 5, 10, 10, 200, 200, 800, 850, 8000};
static const uint64_t olds[ROWS] = {1, 1, 2, 4, 1, 2, 3, 3, 1};
static const uint64_t news[ROWS] = {2, 3, 4, 3, 2, 3, 1, 2, 3};
static const uint64_t loads[LSES] = {90000, 86000, 40000, 45000};

static uint8_t grid[CRR_MAX_GRID_BYTES + 1], book[CRR_MAX_BOOK_BYTES + 1], file[CRR_MAX_BOOK_BYTES];
static uint64_t limits[CRR_MAX_CONSTRAINTS], rows[6 * CRR_MAX_CONTRACTS];
static int64_t factors[CRR_MAX_NODES * CRR_MAX_CONSTRAINTS], nets[LSES * LSES];

static size_t load(const char *name, uint8_t *bytes, size_t room) {
    FILE *in = fopen(name, "rb");
    size_t n = in ? fread(bytes, 1, room, in) : 0;
    if (in) fclose(in);
    return n;
}

static int refused(const char *what, uint64_t number) {
    uint8_t text[CRR_REFUSAL_TEXT_BYTES];
    size_t bytes = 0;

    if (number == CRR_OK) return 0;
    crr_refusal_text(number, text, sizeof text, &bytes);
    fprintf(stderr, "%s refused: %" PRIu64 ", %.*s\n", what, number, (int)bytes, (const char *)text);
    return 1;
}

/* A line for each LSE: what it loses to each other one; what it gains is negative. */
static void print_nets(void) {
    for (size_t from = 1; from <= LSES; from++) {
        printf("LSE %zu:", from);
        for (size_t to = 1; to <= LSES; to++) printf(" %6" PRId64, nets[(from - 1) * LSES + to - 1]);
        printf("\n");
    }
}

int main(int count, char **words) {
    size_t grid_len = load("grid.bin", grid, sizeof grid);
    size_t book_len = load("book.bin", book, sizeof book);
    size_t nodes, constraints, before, after, bytes;
    uint64_t form;
    FILE *out;

    if (count != 2) {
        fprintf(stderr, "usage: %s NEW_BOOK, in a folder with grid.bin and book.bin\n", words[0]);
        return 2;
    }
    if (refused("grid", crr_read_grid(grid, grid_len, limits, CRR_MAX_CONSTRAINTS, factors,
                                      CRR_MAX_NODES * CRR_MAX_CONSTRAINTS, &nodes, &constraints, &form))) return 1;
    if (refused("book", crr_read_book(nodes, book, book_len, rows, 6 * CRR_MAX_CONTRACTS, &before, &form))) return 1;
    if (refused("migration", crr_migrate_load(nodes, CRR_ON_PEAK, book, book_len, classes, ROWS, customers, ROWS, rates, ROWS,
                                              olds, ROWS, news, ROWS, loads, LSES, file, sizeof file, &bytes))) return 1;
    if (refused("nets", crr_net_transfers(LSES, classes, ROWS, customers, ROWS, rates, ROWS, olds, ROWS, news, ROWS, nets, LSES * LSES))) return 1;
    if (refused("new book", crr_read_book(nodes, file, bytes, rows, 6 * CRR_MAX_CONTRACTS, &after, &form))) return 1;
    print_nets();
    for (size_t i = before; i < after; i++) {
        const uint64_t *row = rows + 6 * i;
        printf("contract %zu: holder %" PRIu64 ", from %" PRIu64 " to %" PRIu64 ", %" PRIu64 "\n", i, row[2], row[3], row[4], row[5]);
    }
    out = fopen(words[1], "wb");
    if (!out || fwrite(file, 1, bytes, out) != bytes || fclose(out) != 0) {
        fprintf(stderr, "%s can't be written\n", words[1]);
        return 1;
    }
    printf("%zu contracts, %zu new: %zu bytes\n", after, after - before, bytes);
    return 0;
}
