/*
 * The library for R's .C, which passes pointers to ints, doubles and raw bytes: whole numbers of 64 bits
 * go as doubles, which hold each figure below 2^53 as it is.
 *
 * Made by R CMD SHLIB, or: gcc -shared -fPIC -I include -o shim.so examples/r/shim.c dist/x86-64-linux/libcrr.a
 */
#include <string.h>
#include "crr.h"

static uint64_t limits[CRR_MAX_CONSTRAINTS], prices[CRR_MAX_CONSTRAINTS], priced[CRR_MAX_CONTRACTS];
static int64_t factors[CRR_MAX_NODES * CRR_MAX_CONSTRAINTS], cells[CRR_MAX_CONTRACTS];

/* Tests the book, monthly, and settles the hour. figures: count, lowest, excess, sum, whole, parts; cents has
 * room for 1,000. */
void crr_r_hour(const uint8_t *grid, const int *grid_len, const uint8_t *book, const int *book_len,
                const uint8_t *price_file, const int *price_len, double *cents, double *figures, int *refusal) {
    size_t nodes, constraints, count, lowest, i;
    uint64_t form, period, set, parts;
    int64_t excess, sum, whole;

    *refusal = (int)crr_read_grid(grid, (size_t)*grid_len, limits, CRR_MAX_CONSTRAINTS, factors,
                                  CRR_MAX_NODES * CRR_MAX_CONSTRAINTS, &nodes, &constraints, &form);
    if (*refusal) return;
    *refusal = (int)crr_read_prices(constraints, price_file, (size_t)*price_len, prices, CRR_MAX_CONSTRAINTS, &period);
    if (*refusal) return;
    *refusal = (int)crr_test_book(nodes, constraints, CRR_MONTHLY, period, limits, constraints, factors, nodes * constraints,
                                  book, (size_t)*book_len, &set, &count, &lowest, &excess);
    if (*refusal) return;
    *refusal = (int)crr_settle_hour(nodes, constraints, period, factors, nodes * constraints, prices, constraints, book,
                                    (size_t)*book_len, cells, CRR_MAX_CONTRACTS, priced, CRR_MAX_CONTRACTS, &sum, &whole, &parts);
    if (*refusal) return;
    for (i = 0; i < CRR_MAX_CONTRACTS; i++) cents[i] = (double)cells[i];
    figures[0] = (double)count;
    figures[1] = (double)lowest;
    figures[2] = (double)excess;
    figures[3] = (double)sum;
    figures[4] = (double)whole;
    figures[5] = (double)parts;
}

/* The sentence of a refusal, ended by a 0 byte; text has room for CRR_REFUSAL_TEXT_BYTES and one more. */
void crr_r_refusal(const int *number, char **text) {
    uint8_t sentence[CRR_REFUSAL_TEXT_BYTES];
    size_t bytes = 0;

    crr_refusal_text((uint64_t)*number, sentence, sizeof sentence, &bytes);
    memcpy(*text, sentence, bytes);
    (*text)[bytes] = 0;
}
