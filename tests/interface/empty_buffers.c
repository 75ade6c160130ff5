/*
 * A null pointer beside length 0, as an empty std::vector gives one: each answer is that
 * of a pointer that is none, also where the call goes on behind the empty buffer. Also a
 * C++ program.
 */
#include <stdint.h>
#include <stdio.h>
#include <string.h>
#include "crr.h"

/* A grid of one node without constraints, and a book without contracts. */
static const uint8_t grid_file[] = {0x01, 0x00}, book_file[] = {0x00, 0x00};
static uint8_t file[CRR_MAX_GRID_BYTES], text[CRR_STATEMENT_BYTES];
static uint64_t cell[1];
static int64_t signed_cell[1];
static struct crr_running state;
static int passed, failed;

static void expect(const char *what, int holds) {
    if (holds) {
        passed++;
    } else {
        failed++;
        printf("interface: %s is wrong\n", what);
    }
}

/* Files and books: nothing to read, or nothing to write. */
static void files(void) {
    size_t nodes = 7, constraints = 7, contracts = 7, bytes = 7;
    uint64_t form = 7, period = 7;
    expect("an empty grid's file", crr_read_grid(NULL, 0, NULL, 0, NULL, 0, &nodes, &constraints, &form) == CRR_SHORT_FILE && nodes == 7);
    expect("a grid without constraints",
           crr_read_grid(grid_file, 2, NULL, 0, NULL, 0, &nodes, &constraints, &form) == CRR_OK && nodes == 1 && constraints == 0);
    expect("one written",
           crr_write_grid(CRR_NARROW, 1, 0, NULL, 0, NULL, 0, file, sizeof file, &bytes) == CRR_OK && bytes == 2 && memcmp(file, grid_file, 2) == 0);
    expect("one without a place", crr_write_grid(CRR_NARROW, 1, 0, NULL, 0, NULL, 0, NULL, 0, &bytes) == CRR_SHORT_TABLE && bytes == 2);
    expect("an empty book's file", crr_read_book(1, NULL, 0, NULL, 0, &contracts, &form) == CRR_SHORT_FILE && contracts == 7);
    expect("a book without contracts", crr_read_book(1, book_file, 2, NULL, 0, &contracts, &form) == CRR_OK && contracts == 0);
    expect("one written",
           crr_write_book(CRR_NARROW, 1, 0, NULL, 0, file, sizeof file, &bytes) == CRR_OK && bytes == 2 && memcmp(file, book_file, 2) == 0);
    expect("one without a place", crr_write_book(CRR_NARROW, 1, 0, NULL, 0, NULL, 0, &bytes) == CRR_SHORT_TABLE);
    expect("an empty price file", crr_read_prices(0, NULL, 0, NULL, 0, &period) == CRR_SHORT_FILE && period == 7);
    expect("prices of no constraint", crr_write_prices(CRR_ON_PEAK, 0, NULL, 0, file, sizeof file, &bytes) == CRR_OK && bytes == 1);
    expect("read again", crr_read_prices(0, file, 1, NULL, 0, &period) == CRR_OK && period == CRR_ON_PEAK);
    expect("no place for prices", crr_write_prices(CRR_ON_PEAK, 0, NULL, 0, NULL, 0, &bytes) == CRR_SHORT_TABLE);
}

/* What is made from a book, with empty lists. */
static void books(void) {
    static const uint64_t loads[] = {0};
    size_t bytes = 7;
    expect("no pairs", crr_remap_book(1, book_file, 2, NULL, 0, NULL, 0, file, sizeof file, &bytes) == CRR_OK && bytes == 2);
    expect("no place for a remapped book", crr_remap_book(1, book_file, 2, NULL, 0, NULL, 0, NULL, 0, &bytes) == CRR_SHORT_TABLE);
    expect("no book to remap", crr_remap_book(1, NULL, 0, NULL, 0, NULL, 0, NULL, 0, &bytes) == CRR_SHORT_FILE);
    expect("no place for the market's view", crr_write_market_view(1, book_file, 2, NULL, 0, &bytes) == CRR_SHORT_TABLE);
    expect("no book for the market", crr_write_market_view(1, NULL, 0, NULL, 0, &bytes) == CRR_SHORT_FILE);
    expect("a holder's view of nothing", crr_write_holder_view(1, book_file, 2, 7, NULL, 0, &bytes) == CRR_OK && bytes == 0);
    expect("no book for a holder", crr_write_holder_view(1, NULL, 0, 7, NULL, 0, &bytes) == CRR_SHORT_FILE);
    expect("no place for a canonical book", crr_write_canonical_book(1, book_file, 2, NULL, 0, &bytes) == CRR_SHORT_TABLE);
    expect("no book for the canonical form", crr_write_canonical_book(1, NULL, 0, NULL, 0, &bytes) == CRR_SHORT_FILE);
    expect("an empty hub", crr_add_hub_contract(1, book_file, 2, 0, 0, 0, NULL, 0, NULL, 0, 0, 1, NULL, 0, &bytes) == CRR_HUB_SHAPE);
    expect("no row of migration",
           crr_migrate_load(1, CRR_ON_PEAK, book_file, 2, NULL, 0, NULL, 0, NULL, 0, NULL, 0, NULL, 0, loads, 1, file, sizeof file, &bytes) == CRR_OK && bytes == 2);
    expect("no load",
           crr_migrate_load(1, CRR_ON_PEAK, book_file, 2, NULL, 0, NULL, 0, NULL, 0, NULL, 0, NULL, 0, NULL, 0, NULL, 0, &bytes) == CRR_MIGRATION_RANGE);
}

/* Tests, flows, cuts, costs, prices and amounts on the grid without constraints. */
static void figures(void) {
    size_t count = 7, lowest = 7, counted = 7, listed = 7;
    uint64_t set = 7, parts = 7, remainder = 7;
    int64_t excess = 7, sum = 7, whole = 7, quotient = 7;
    expect("the test",
           crr_test_book(1, 0, CRR_MONTHLY, CRR_ON_PEAK, NULL, 0, NULL, 0, book_file, 2, &set, &count, &lowest, &excess) == CRR_OK && set == 0);
    expect("the flows", crr_find_flows(1, 0, CRR_ON_PEAK, NULL, 0, NULL, 0, book_file, 2, NULL, 0, &counted) == CRR_OK && counted == 0);
    count = 0;
    expect("the totals", crr_add_flows(1, 0, CRR_ON_PEAK, NULL, 0, NULL, 0, book_file, 2, NULL, 0, &count, &counted) == CRR_OK && count == 0 && counted == 0);
    expect("the block", crr_judge_flows(0, CRR_MONTHLY, NULL, 0, NULL, 0, 0, &set, &count, &lowest, &excess) == CRR_OK && set == 0);
    expect("the cuts",
           crr_find_cuts(1, 0, CRR_MONTHLY, CRR_ON_PEAK, NULL, 0, NULL, 0, book_file, 2, NULL, 0, NULL, 0, &listed) == CRR_OK && listed == 0);
    expect("the shortfall",
           crr_find_shortfall(1, 0, CRR_MONTHLY, CRR_ON_PEAK, NULL, 0, NULL, 0, NULL, 0, book_file, 2, &excess, &parts, &sum, &set, &whole, &remainder) == CRR_OK && whole == 0
               && remainder == 0);
    expect("the exposure",
           crr_find_exposure(1, 0, CRR_MONTHLY, CRR_ON_PEAK, NULL, 0, NULL, 0, book_file, 2, NULL, 0, &excess, &parts, &whole, &remainder) == CRR_OK && whole == 0 && remainder == 0);
    expect("the MCC", crr_find_mcc(1, 0, NULL, 0, NULL, 0, signed_cell, 1) == CRR_OK && signed_cell[0] == 0);
    expect("no cell for the MCC", crr_find_mcc(1, 0, NULL, 0, NULL, 0, NULL, 0) == CRR_SHORT_TABLE);
    expect("the MCC of no hub", crr_find_hub_mcc(1, 0, NULL, 0, NULL, 0, NULL, 0, NULL, 0, &quotient, &remainder) == CRR_HUB_SHAPE);
    expect("the hour",
           crr_settle_hour(1, 0, CRR_ON_PEAK, NULL, 0, NULL, 0, book_file, 2, NULL, 0, NULL, 0, &sum, &whole, &parts) == CRR_OK && sum == 0 && whole == 0 && parts == 0);
    expect("no demand", crr_share_balance(1, NULL, 0, NULL, 0) == CRR_SHARE_RANGE);
    cell[0] = 1;
    expect("no place for shares", crr_share_balance(1, cell, 1, NULL, 0) == CRR_SHORT_TABLE);
}

/* The running test, and the texts. */
static void states_and_texts(void) {
    static const uint64_t award[] = {0, 1, 0, 0, 0, 1};
    size_t bytes = 7;
    expect("no state", crr_open_running(1, 0, CRR_MONTHLY, CRR_ON_PEAK, NULL, 0, NULL, 0, NULL, 0, NULL, 0, NULL, 0) == CRR_SHORT_TABLE);
    expect("no table", crr_open_running(1, 0, CRR_MONTHLY, CRR_ON_PEAK, NULL, 0, NULL, 0, CRR_RUNNING(&state)) == CRR_OK);
    expect("an award on no table",
           crr_add_award(1, 0, CRR_MONTHLY, CRR_ON_PEAK, NULL, 0, NULL, 0, award, 6, CRR_RUNNING(&state)) == CRR_OK && state.numbers[0] == 1);
    expect("no award", crr_add_award(1, 0, CRR_MONTHLY, CRR_ON_PEAK, NULL, 0, NULL, 0, NULL, 0, CRR_RUNNING(&state)) == CRR_SHORT_TABLE);
    expect("no marks", crr_mark_tier(1, NULL, 0, NULL, 0) == CRR_SHORT_TABLE && crr_return_to_tier(1, NULL, 0, NULL, 0) == CRR_SHORT_TABLE);
    expect("a report on nothing",
           crr_write_report(NULL, 0, NULL, 0, text, sizeof text, &bytes) == CRR_OK && memcmp(text, "refused,grid,1\n", bytes) == 0);
    expect("one without a book",
           crr_write_report(grid_file, 2, NULL, 0, text, sizeof text, &bytes) == CRR_OK && memcmp(text, "refused,book,1\n", bytes) == 0);
    expect("no place for a report", crr_write_report(NULL, 0, NULL, 0, NULL, 0, &bytes) == CRR_SHORT_TABLE);
    expect("a statement on nothing",
           crr_write_statement(NULL, 0, NULL, 0, NULL, 0, text, sizeof text, &bytes) == CRR_OK && memcmp(text, "refused,grid,1\n", bytes) == 0);
    expect("one without prices",
           crr_write_statement(grid_file, 2, book_file, 2, NULL, 0, text, sizeof text, &bytes) == CRR_OK && memcmp(text, "refused,prices,1\n", bytes) == 0);
    expect("no sentence", crr_refusal_text(12, NULL, 0, &bytes) == CRR_OK && bytes == 0);
    expect("no place for a sentence", crr_refusal_text(1, NULL, 0, &bytes) == CRR_SHORT_TABLE && bytes == 0);
    expect("no place for a statement", crr_write_statement(NULL, 0, NULL, 0, NULL, 0, NULL, 0, &bytes) == CRR_SHORT_TABLE);
}

int main(void) {
    files();
    books();
    figures();
    states_and_texts();
    printf("interface, empty buffers: %d passed, %d failed\n", passed, failed);
    return failed != 0;
}
