/*
 * Calls every function of crr.h, on case L of document 01: each file read and written
 * again, the grid and the book in both forms, a node retired, the market's view and a
 * holder's, the canonical book, a contract from a hub added, the test, the flows, the
 * cuts, what the book costs, the released shares, the MCC, that of a hub, the hour, the
 * two texts; the calendar; a balance shared; load migrated; a running test with a tier to
 * come back to; the interface's number and a refusal's sentence. Each is called on a thread whose
 * stack has what crr.h says is enough. Also a C++ program.
 */
#include <pthread.h>
#include <stdint.h>
#include <stdio.h>
#include <string.h>
#include "crr.h"

static uint8_t grid_file[CRR_MAX_GRID_BYTES], book_file[CRR_MAX_BOOK_BYTES], price_file[CRR_MAX_PRICE_BYTES];
static uint8_t copy[CRR_MAX_GRID_BYTES], text[CRR_STATEMENT_BYTES];
static uint64_t numbers[CRR_MAX_CONTRACTS], cuts[CRR_MAX_CONTRACTS];
static uint64_t limits[CRR_MAX_CONSTRAINTS], prices[CRR_MAX_CONSTRAINTS], rows[6 * CRR_MAX_CONTRACTS], priced[CRR_MAX_CONTRACTS];
static const uint64_t old_nodes[] = {2}, new_nodes[] = {1};
/* A first limit that case L's book exceeds. */
static const uint64_t tight[] = {6001, 50000};
/* Case L's limits and prices, and one cent on the constraint that the tight limits overload. */
static const uint64_t case_limits[] = {100000, 50000}, hour_prices[] = {1000, 2550}, one_cent[] = {1, 0};
/* Case L's grid and book in the wide form, and the cell after each. */
static const uint8_t wide_grid[] = {0x00, 0x05, 0x00, 0x03, 0x00, 0x30, 0xd4, 0x00, 0x03, 0x0d, 0x40, 0xea, 0x60,
                                    0xec, 0x78, 0x00, 0x00, 0x00, 0x00, 0x03, 0xd8, 0xf0, 0x27, 0x10, 0x00, 7};
static const uint8_t wide_book[] = {0x01, 0x3f, 0x40, 0x70, 0x00, 0x00, 0x10, 0x27, 0x10, 0xc0, 0x80, 0x00, 0x00, 0x20, 0x01, 0xf4,
                                    0x40, 0x70, 0x00, 0x00, 0x20, 0x00, 0x01, 0x00, 0x90, 0x00, 0x00, 0x10, 0x00, 0x05, 7};
/* Case L's book after node 2 was retired into node 1, and the cell after it. */
static const uint8_t remapped[] = {0x01, 0x00, 0x40, 0x70, 0x00, 0x10, 0x27, 0x10, 0xc0, 0x80, 0x00, 0x10, 0x01, 0xf4,
                                   0x40, 0x70, 0x00, 0x10, 0x00, 0x01, 0x00, 0x90, 0x00, 0x10, 0x00, 0x05, 7};
/* Case L's book as the market sees it, what holder 7 sees of it in both forms, and the cell after each. */
static const uint8_t market[] = {0x01, 0x00, 0x40, 0x00, 0x00, 0x10, 0x27, 0x10, 0xc0, 0x00, 0x00, 0x20, 0x01, 0xf4,
                                 0x40, 0x00, 0x00, 0x20, 0x00, 0x01, 0x00, 0x00, 0x00, 0x10, 0x00, 0x05, 7};
static const uint8_t view_7[] = {0x00, 0x00, 0x40, 0x70, 0x00, 0x10, 0x27, 0x10, 0x00, 0x02, 0x40, 0x70, 0x00, 0x20, 0x00, 0x01, 7};
static const uint8_t wide_view_7[] = {0x00, 0x00, 0x40, 0x70, 0x00, 0x00, 0x10, 0x27, 0x10, 0x00, 0x02, 0x40, 0x70, 0x00, 0x00, 0x20, 0x00, 0x01, 7};
static uint8_t view[CRR_MAX_HOLDER_VIEW_BYTES];
/* Case L's book in the canonical form, and the cell after it. */
static const uint8_t canonical[] = {0x01, 0x00, 0x00, 0x90, 0x00, 0x10, 0x00, 0x05, 0x40, 0x70, 0x00, 0x10, 0x27, 0x10,
                                  0x40, 0x70, 0x00, 0x20, 0x00, 0x01, 0xc0, 0x80, 0x00, 0x20, 0x01, 0xf4, 7};
/* Two rows of one contract, wide, and their sum; the cell after it. */
static const uint8_t split[] = {0x00, 0xbf, 0x40, 0x70, 0x00, 0x00, 0x10, 0x00, 0x05, 0x40, 0x70, 0x00, 0x00, 0x10, 0x00, 0x05};
static const uint8_t added[] = {0x00, 0x7f, 0x40, 0x70, 0x00, 0x00, 0x10, 0x00, 0x0a, 7};
/* A hub of all three nodes, and case L's book with a contract of 1,000 from it to node 2 added, and the cell after it. */
static const uint64_t hub_nodes[] = {2, 0, 1}, hub_weights[] = {33333, 33333, 33334}, twice[] = {2, 0, 2}, many[CRR_MAX_HUB_NODES + 1] = {0};
static const uint8_t grown[] = {0x01, 0xc0, 0x40, 0x70, 0x00, 0x10, 0x27, 0x10, 0xc0, 0x80, 0x00, 0x20, 0x01, 0xf4, 0x40,
                                0x70, 0x00, 0x20, 0x00, 0x01, 0x00, 0x90, 0x00, 0x10, 0x00, 0x05, 0x40, 0x70, 0x00, 0x20,
                                0x01, 0x4d, 0x40, 0x70, 0x10, 0x20, 0x01, 0x4e, 0x40, 0x70, 0x20, 0x20, 0x01, 0x4d, 7};
static int64_t factors[CRR_MAX_NODES * CRR_MAX_CONSTRAINTS], flows[CRR_MAX_CONSTRAINTS], mcc[CRR_MAX_NODES], cents[CRR_MAX_CONTRACTS];
static const uint64_t demands[] = {5, 3, 1}, no_demands[] = {0, 0};
static int64_t shares[4];
/* Ten customers of 1 MW each move from LSE 7, whose load is 40 MW, to LSE 8; case L's book after that, and the cell after it. */
static const uint8_t classes[] = {1};
static int64_t nets[CRR_MAX_LSES * CRR_MAX_LSES];
static const uint64_t moved_customers[] = {10}, moved_rates[] = {1000}, old_lses[] = {7}, new_lses[] = {8}, no_loads[CRR_MAX_LSES] = {0};
static const uint64_t loads[CRR_MAX_LSES] = {0, 0, 0, 0, 0, 0, 40000};
static const uint8_t migrated[] = {0x01, 0x80, 0x40, 0x70, 0x00, 0x10, 0x27, 0x10, 0xc0, 0x80, 0x00, 0x20, 0x01, 0xf4, 0x40, 0x70, 0x00, 0x20, 0x00, 0x01,
                                   0x00, 0x90, 0x00, 0x10, 0x00, 0x05, 0x40, 0x80, 0x00, 0x10, 0x09, 0xc4, 0x40, 0x70, 0x10, 0x00, 0x09, 0xc4, 7};
/* A running test with a first limit that one award fills, and what is added to it: that award, a thousandth more, one of the other period, an option. */
static struct crr_running state, before;
static const uint64_t full[] = {6000, 50000};
static const uint64_t filling[] = {0, 1, 7, 0, 1, 10000}, beyond[] = {0, 1, 7, 0, 1, 1}, off_peak[] = {0, 0, 9, 0, 1, 1000000}, option[] = {1, 1, 8, 1, 0, 500};
static size_t grid_len, book_len, price_len;
static int passed, failed;

static void expect(const char *what, int holds) {
    if (holds) {
        passed++;
    } else {
        failed++;
        printf("interface: %s is wrong\n", what);
    }
}

static size_t load(const char *name, uint8_t *bytes, size_t room) {
    FILE *file = fopen(name, "rb");
    size_t n = file ? fread(bytes, 1, room, file) : 0;
    if (file) fclose(file);
    return n;
}

static int starts_with(const char *line, size_t bytes) {
    return bytes >= strlen(line) && memcmp(text, line, strlen(line)) == 0;
}

/* The two texts. */
static void *texts(void *nothing) {
    size_t bytes = 0;

    expect("crr_write_report", crr_write_report(grid_file, grid_len, book_file, book_len, text, sizeof text, &bytes) == CRR_OK
                                   && starts_with("period,process,verdict,overloaded,lowest,excess,constraints\n", bytes));
    expect("crr_write_statement", crr_write_statement(grid_file, grid_len, book_file, book_len, price_file, price_len, text, sizeof text, &bytes) == CRR_OK
                                      && starts_with("contract,holder,kind,cents,priced\n0,7,OBL,900,2\n1,8,OPT,0,2\n", bytes));
    expect("crr_write_statement, wide", crr_write_statement(wide_grid, 25, wide_book, 30, price_file, price_len, text, sizeof text, &bytes) == CRR_OK
                                            && starts_with("contract,holder,kind,cents,priced\n0,7,OBL,900,2\n1,8,OPT,0,2\n", bytes));
    return nothing;
}

/* What the book costs at the hour's prices, at one cent, and at worst. */
static void *costs(void *nothing) {
    size_t nodes = 3, constraints = 2;
    uint64_t paid_parts = 7, rent_parts = 7, parts = 7, least_parts = 7, most_parts = 7, worst[] = {7, 7, 7};
    int64_t paid = 7, rent = 7, shortfall = 7, least = 7, most = 7;

    expect("crr_find_shortfall", crr_find_shortfall(nodes, constraints, CRR_MONTHLY, CRR_ON_PEAK, tight, 2, factors, nodes * constraints, hour_prices, 2,
                                                    book_file, book_len, &paid, &paid_parts, &rent, &rent_parts, &shortfall, &parts) == CRR_OK
                                     && paid == 899 && paid_parts == 17000000 && rent == 133501 && rent_parts == 0 && shortfall == -132602 && parts == 17000000);
    expect("crr_find_shortfall, one cent", crr_find_shortfall(nodes, constraints, CRR_MONTHLY, CRR_ON_PEAK, tight, 2, factors, nodes * constraints, one_cent, 2,
                                                              book_file, book_len, &paid, &paid_parts, &rent, &rent_parts, &shortfall, &parts) == CRR_OK
                                               && shortfall == 0 && parts == 34970000);
    expect("crr_find_shortfall, too few prices", crr_find_shortfall(nodes, constraints, CRR_MONTHLY, CRR_ON_PEAK, tight, 2, factors, nodes * constraints, hour_prices, 1,
                                                                    book_file, book_len, &paid, &paid_parts, &rent, &rent_parts, &shortfall, &parts) == CRR_SHORT_TABLE
                                                     && shortfall == 0 && parts == 34970000);
    expect("crr_find_exposure", crr_find_exposure(nodes, constraints, CRR_ANNUAL, CRR_ON_PEAK, tight, 2, factors, nodes * constraints, book_file, book_len,
                                                  worst, 3, &least, &least_parts, &most, &most_parts) == CRR_OK
                                    && least == 1225025 && least_parts == 0 && most == 1225025 && most_parts == 0 && worst[0] == 500000 && worst[1] == 0 && worst[2] == 7);
    expect("crr_find_exposure, too few cells", crr_find_exposure(nodes, constraints, CRR_MONTHLY, CRR_ON_PEAK, tight, 2, factors, nodes * constraints, book_file, book_len,
                                                                 worst, 1, &least, &least_parts, &most, &most_parts) == CRR_SHORT_TABLE
                                                   && least == 1225025 && worst[0] == 500000);
    expect("crr_find_exposure, a pass", crr_find_exposure(nodes, constraints, CRR_MONTHLY, CRR_ON_PEAK, case_limits, 2, factors, nodes * constraints, book_file, book_len,
                                                          worst, 2, &least, &least_parts, &most, &most_parts) == CRR_OK
                                            && least == 0 && least_parts == 0 && most == 0 && most_parts == 0 && worst[0] == 0 && worst[1] == 0);
    return nothing;
}

/* The test's flows added up in two steps, and judged. */
static void *totals(void *nothing) {
    size_t count = 0, counted = 7, overloaded = 7, lowest = 7;
    uint64_t set = 7;
    int64_t excess = 7, sums[] = {0, 0, 7};

    expect("crr_add_flows", crr_add_flows(3, 2, CRR_ON_PEAK, tight, 2, factors, 6, book_file, book_len, sums, 3, &count, &counted) == CRR_OK && count == 3 && counted == 3);
    expect("crr_judge_flows", crr_judge_flows(2, CRR_ANNUAL, tight, 2, sums, 3, count, &set, &overloaded, &lowest, &excess) == CRR_OK
                                  && set == 1 && overloaded == 1 && lowest == 0 && excess == 245005000);
    expect("crr_add_flows, again", crr_add_flows(3, 2, CRR_ON_PEAK, tight, 2, factors, 6, book_file, book_len, sums, 3, &count, &counted) == CRR_OK
                                       && count == 6 && counted == 3 && sums[2] == 7);
    expect("crr_judge_flows, of both", crr_judge_flows(2, CRR_MONTHLY, case_limits, 2, sums, 2, count, &set, &overloaded, &lowest, &excess) == CRR_OK && set == 0 && overloaded == 0
                                           && lowest == 0 && excess == 0);
    expect("crr_judge_flows, no totals", crr_judge_flows(2, CRR_MONTHLY, case_limits, 2, sums, 2, 0, &set, &overloaded, &lowest, &excess) == CRR_CONTRACT_COUNT && set == 0);
    count = CRR_MAX_SUMMED;
    expect("crr_add_flows, too many", crr_add_flows(3, 2, CRR_ON_PEAK, tight, 2, factors, 6, book_file, book_len, sums, 3, &count, &counted) == CRR_CONTRACT_COUNT
                                          && count == CRR_MAX_SUMMED && counted == 3);
    return nothing;
}

/* Every other function. */
static void *others(void *nothing) {
    size_t nodes = 0, constraints = 0, contracts = 0, bytes = 0, count = 7, lowest = 7, counted = 7, listed = 7;
    uint64_t form = 7, period = 7, set = 7, percent = 7, parts = 0, hours = 7, peak = 7, weekday = 0, year = 7, month = 7, day = 7, remainder = 7;
    int64_t excess = 7, sum = 0, whole = 0, quotient = 7;

    expect("crr_read_grid", crr_read_grid(grid_file, grid_len, limits, CRR_MAX_CONSTRAINTS, factors, CRR_MAX_NODES * CRR_MAX_CONSTRAINTS, &nodes, &constraints, &form) == CRR_OK
                                && form == CRR_NARROW && nodes == 3 && constraints == 2 && limits[0] == 100000 && factors[0] == 60000 && factors[4] == -10000);
    expect("crr_write_grid", crr_write_grid(form, nodes, constraints, limits, CRR_MAX_CONSTRAINTS, factors, CRR_MAX_NODES * CRR_MAX_CONSTRAINTS, copy, sizeof copy, &bytes) == CRR_OK
                                 && bytes == grid_len && memcmp(copy, grid_file, bytes) == 0);
    copy[25] = 7;
    expect("crr_write_grid, wide", crr_write_grid(CRR_WIDE, nodes, constraints, limits, CRR_MAX_CONSTRAINTS, factors, CRR_MAX_NODES * CRR_MAX_CONSTRAINTS, copy, sizeof copy, &bytes) == CRR_OK
                                       && bytes == 25 && memcmp(copy, wide_grid, sizeof wide_grid) == 0);
    limits[1] = 7;
    expect("crr_read_grid, wide", crr_read_grid(wide_grid, 25, limits, CRR_MAX_CONSTRAINTS, factors, CRR_MAX_NODES * CRR_MAX_CONSTRAINTS, &nodes, &constraints, &form) == CRR_OK
                                      && form == CRR_WIDE && nodes == 3 && constraints == 2 && limits[1] == 50000);
    expect("crr_read_book", crr_read_book(nodes, book_file, book_len, rows, 6 * CRR_MAX_CONTRACTS, &contracts, &form) == CRR_OK
                                && form == CRR_NARROW && contracts == 4 && rows[5] == 10000 && rows[6] == 1);
    expect("crr_write_book", crr_write_book(form, nodes, contracts, rows, 6 * CRR_MAX_CONTRACTS, copy, sizeof copy, &bytes) == CRR_OK
                                 && bytes == book_len && memcmp(copy, book_file, bytes) == 0);
    copy[30] = 7;
    expect("crr_write_book, wide", crr_write_book(CRR_WIDE, nodes, contracts, rows, 6 * CRR_MAX_CONTRACTS, copy, sizeof copy, &bytes) == CRR_OK
                                       && bytes == 30 && memcmp(copy, wide_book, sizeof wide_book) == 0);
    rows[11] = 7;
    expect("crr_read_book, wide", crr_read_book(CRR_MAX_NODES, wide_book, 30, rows, 6 * CRR_MAX_CONTRACTS, &contracts, &form) == CRR_OK
                                      && form == CRR_WIDE && contracts == 4 && rows[11] == 500);
    copy[26] = 7;
    expect("crr_remap_book", crr_remap_book(nodes, book_file, book_len, old_nodes, 1, new_nodes, 1, copy, sizeof copy, &bytes) == CRR_OK
                                 && bytes == book_len && memcmp(copy, remapped, sizeof remapped) == 0);
    copy[26] = 7;
    expect("crr_write_market_view", crr_write_market_view(nodes, book_file, book_len, copy, sizeof copy, &bytes) == CRR_OK
                                        && bytes == book_len && memcmp(copy, market, sizeof market) == 0);
    copy[0] = copy[25] = 7;
    expect("crr_write_market_view, too few cells", crr_write_market_view(nodes, book_file, book_len, copy, book_len - 1, &bytes) == CRR_SHORT_TABLE
                                                       && bytes == book_len && copy[0] == 7 && copy[25] == 7);
    view[16] = 7;
    expect("crr_write_holder_view", crr_write_holder_view(nodes, book_file, book_len, 7, view, sizeof view, &bytes) == CRR_OK
                                        && bytes == 16 && memcmp(view, view_7, sizeof view_7) == 0);
    view[18] = 7;
    expect("crr_write_holder_view, wide", crr_write_holder_view(nodes, wide_book, 30, 7, view, 18, &bytes) == CRR_OK
                                              && bytes == 18 && memcmp(view, wide_view_7, sizeof wide_view_7) == 0);
    expect("crr_write_holder_view, too few cells", crr_write_holder_view(nodes, book_file, book_len, 7, view, 15, &bytes) == CRR_SHORT_TABLE
                                                       && bytes == 18 && memcmp(view, wide_view_7, sizeof wide_view_7) == 0);
    expect("crr_write_holder_view, no such holder", crr_write_holder_view(nodes, book_file, book_len, 1024, view, 0, &bytes) == CRR_HOLDER_RANGE && bytes == 18);
    expect("crr_write_holder_view, no contract", crr_write_holder_view(nodes, book_file, book_len, 0, view, 0, &bytes) == CRR_OK && bytes == 0);
    expect("crr_write_canonical_book", crr_write_canonical_book(nodes, book_file, book_len, copy, sizeof copy, &bytes) == CRR_OK
                                         && bytes == 26 && memcmp(copy, canonical, sizeof canonical) == 0);
    expect("crr_write_canonical_book, again", crr_write_canonical_book(nodes, canonical, 26, copy, 26, &bytes) == CRR_OK
                                                && bytes == 26 && memcmp(copy, canonical, sizeof canonical) == 0);
    copy[9] = bytes = 7;
    expect("crr_write_canonical_book, too few bytes", crr_write_canonical_book(nodes, split, 16, copy, 8, &bytes) == CRR_SHORT_TABLE
                                                        && bytes == 7 && memcmp(copy, canonical, 9) == 0);
    expect("crr_write_canonical_book, fewer rows, wide", crr_write_canonical_book(nodes, split, 16, copy, 9, &bytes) == CRR_OK
                                                           && bytes == 9 && memcmp(copy, added, sizeof added) == 0);
    copy[44] = 7;
    expect("crr_add_hub_contract", crr_add_hub_contract(nodes, book_file, book_len, 0, CRR_ON_PEAK, 7, hub_nodes, 3, hub_weights, 3, 2, 1000, copy, sizeof copy, &bytes) == CRR_OK
                                       && bytes == 44 && memcmp(copy, grown, sizeof grown) == 0);
    expect("crr_add_hub_contract, too few bytes", crr_add_hub_contract(nodes, book_file, book_len, 0, CRR_ON_PEAK, 7, hub_nodes, 3, hub_weights, 3, 2, 999, copy, 43, &bytes) == CRR_SHORT_TABLE
                                                      && bytes == 44 && memcmp(copy, grown, sizeof grown) == 0);
    expect("crr_add_hub_contract, a node twice", crr_add_hub_contract(nodes, book_file, book_len, 0, CRR_ON_PEAK, 7, twice, 3, hub_weights, 3, 2, 1000, copy, 0, &bytes) == CRR_HUB_NODE_TWICE);
    expect("crr_add_hub_contract, unequal lists", crr_add_hub_contract(nodes, book_file, book_len, 0, CRR_ON_PEAK, 7, twice, 3, hub_weights, 2, 2, 1000, copy, 0, &bytes) == CRR_HUB_SHAPE
                                                      && bytes == 44);
    expect("crr_read_prices", crr_read_prices(constraints, price_file, price_len, prices, CRR_MAX_CONSTRAINTS, &period) == CRR_OK && period == CRR_ON_PEAK && prices[1] == 2550);
    expect("crr_write_prices", crr_write_prices(period, constraints, prices, CRR_MAX_CONSTRAINTS, copy, sizeof copy, &bytes) == CRR_OK
                                   && bytes == price_len && memcmp(copy, price_file, bytes) == 0);
    expect("crr_test_book", crr_test_book(nodes, constraints, CRR_MONTHLY, period, limits, constraints, factors, nodes * constraints, book_file, book_len, &set, &count, &lowest, &excess) == CRR_OK
                                && set == 0 && count == 0 && lowest == 0 && excess == 0);
    flows[2] = 7;
    expect("crr_find_flows", crr_find_flows(nodes, constraints, CRR_ON_PEAK, limits, constraints, factors, nodes * constraints, book_file, book_len, flows, 3, &counted) == CRR_OK
                                 && flows[0] == 635070000 && flows[1] == -200060000 && flows[2] == 7 && counted == 3);
    flows[1] = 7;
    expect("crr_find_flows, too few cells", crr_find_flows(nodes, constraints, CRR_OFF_PEAK, limits, constraints, factors, nodes * constraints, book_file, book_len, flows, 1, &counted) == CRR_SHORT_TABLE
                                                && flows[0] == 635070000 && flows[1] == 7 && counted == 3);
    expect("crr_find_cuts, a pass", crr_find_cuts(nodes, constraints, CRR_MONTHLY, period, limits, constraints, factors, nodes * constraints, book_file, book_len,
                                                  numbers, 0, cuts, 0, &listed) == CRR_OK
                                        && listed == 0);
    numbers[0] = numbers[2] = cuts[0] = cuts[2] = listed = 7;
    expect("crr_find_cuts, too few cells", crr_find_cuts(nodes, constraints, CRR_MONTHLY, period, tight, constraints, factors, nodes * constraints, book_file, book_len,
                                                         numbers, 2, cuts, 1, &listed) == CRR_SHORT_TABLE
                                               && numbers[0] == 7 && cuts[0] == 7 && listed == 7);
    expect("crr_find_cuts", crr_find_cuts(nodes, constraints, CRR_MONTHLY, period, tight, constraints, factors, nodes * constraints, book_file, book_len,
                                          numbers, CRR_MAX_CONTRACTS, cuts, CRR_MAX_CONTRACTS, &listed) == CRR_OK
                                && listed == 2 && numbers[0] == 1 && cuts[0] == 500 && numbers[1] == 0 && cuts[1] == 583 && numbers[2] == 7 && cuts[2] == 7);
    expect("crr_released_percent, annual", crr_released_percent(CRR_ANNUAL, &percent) == CRR_OK && percent == 65);
    expect("crr_released_percent, Tier LT", crr_released_percent(CRR_TIER_LT, &percent) == CRR_OK && percent == 60);
    expect("crr_released_percent, monthly", crr_released_percent(CRR_MONTHLY, &percent) == CRR_OK && percent == 100);
    expect("crr_released_percent, 3", crr_released_percent(3, &percent) == CRR_PROCESS_NUMBER && percent == 100);
    expect("crr_find_mcc", crr_find_mcc(nodes, constraints, factors, nodes * constraints, prices, constraints, mcc, CRR_MAX_NODES) == CRR_OK
                               && mcc[0] == -9000000 && mcc[1] == 0 && mcc[2] == -92000000);
    expect("crr_find_hub_mcc", crr_find_hub_mcc(nodes, constraints, factors, nodes * constraints, prices, constraints, hub_nodes, 3, hub_weights, 3, &quotient, &remainder) == CRR_OK
                                   && quotient == -33666330 && remainder == 0);
    expect("crr_find_hub_mcc, more than 32 nodes", crr_find_hub_mcc(nodes, constraints, factors, nodes * constraints, prices, constraints, many, CRR_MAX_HUB_NODES + 1,
                                                                    many, CRR_MAX_HUB_NODES + 1, &quotient, &remainder) == CRR_HUB_SHAPE
                                                       && quotient == -33666330 && remainder == 0);
    cents[3] = cents[4] = 7;
    priced[3] = priced[4] = 7;
    expect("crr_settle_hour", crr_settle_hour(nodes, constraints, period, factors, nodes * constraints, prices, constraints, book_file, book_len,
                                              cents, CRR_MAX_CONTRACTS, priced, CRR_MAX_CONTRACTS, &sum, &whole, &parts) == CRR_OK
                                  && cents[0] == 900 && cents[1] == 0 && cents[2] == -1 && cents[3] == 0 && cents[4] == 7 && sum == 899 && whole == 899 && parts == 17000000
                                  && priced[0] == 3 && priced[1] == 3 && priced[2] == 3 && priced[3] == 0 && priced[4] == 7);
    shares[3] = 7;
    expect("crr_share_balance", crr_share_balance(10, demands, 3, shares, 4) == CRR_OK && shares[0] == 6 && shares[1] == 3 && shares[2] == 1 && shares[3] == 7);
    expect("crr_share_balance, negative", crr_share_balance(-10, demands, 3, shares, 3) == CRR_OK && shares[0] == -6 && shares[1] == -3 && shares[2] == -1);
    expect("crr_share_balance, no coordinators", crr_share_balance(10, demands, 0, shares, 4) == CRR_SHARE_RANGE);
    expect("crr_share_balance, balance too large", crr_share_balance(INT64_MIN, no_demands, 2, shares, 1) == CRR_SHARE_RANGE);
    expect("crr_share_balance, no demand", crr_share_balance(10, no_demands, 2, shares, 1) == CRR_NO_DEMAND);
    expect("crr_share_balance, too few cells", crr_share_balance(10, demands, 3, shares, 2) == CRR_SHORT_TABLE
                                                   && shares[0] == -6 && shares[1] == -3 && shares[2] == -1 && shares[3] == 7);
    nets[64] = 7;
    expect("crr_net_transfers", crr_net_transfers(8, classes, 1, moved_customers, 1, moved_rates, 1, old_lses, 1, new_lses, 1, nets, CRR_MAX_LSES * CRR_MAX_LSES) == CRR_OK
                                    && nets[0] == 0 && nets[55] == 10000 && nets[62] == -10000 && nets[63] == 0 && nets[64] == 7);
    nets[55] = 7;
    expect("crr_net_transfers, too few cells", crr_net_transfers(8, classes, 1, moved_customers, 1, moved_rates, 1, old_lses, 1, new_lses, 1, nets, 63) == CRR_SHORT_TABLE
                                                   && nets[55] == 7);
    expect("crr_net_transfers, seven LSEs", crr_net_transfers(7, classes, 1, moved_customers, 1, moved_rates, 1, old_lses, 1, new_lses, 1, nets, 0) == CRR_MIGRATION_RANGE
                                                && nets[55] == 7);
    expect("crr_net_transfers, no rows", crr_net_transfers(1, classes, 0, moved_customers, 0, moved_rates, 0, old_lses, 0, new_lses, 0, nets, 1) == CRR_OK && nets[0] == 0);
    copy[38] = 7;
    expect("crr_migrate_load", crr_migrate_load(nodes, CRR_ON_PEAK, book_file, book_len, classes, 1, moved_customers, 1, moved_rates, 1, old_lses, 1, new_lses, 1,
                                                loads, CRR_MAX_LSES, copy, sizeof copy, &bytes) == CRR_OK
                                   && bytes == 38 && memcmp(copy, migrated, sizeof migrated) == 0);
    expect("crr_migrate_load, too few bytes", crr_migrate_load(nodes, CRR_ON_PEAK, wide_book, 30, classes, 1, moved_customers, 1, moved_rates, 1, old_lses, 1, new_lses, 1,
                                                               loads, CRR_MAX_LSES, copy, 43, &bytes) == CRR_SHORT_TABLE
                                                  && bytes == 38 && memcmp(copy, migrated, sizeof migrated) == 0);
    expect("crr_migrate_load, wide", crr_migrate_load(nodes, CRR_ON_PEAK, wide_book, 30, classes, 1, moved_customers, 1, moved_rates, 1, old_lses, 1, new_lses, 1,
                                                      loads, CRR_MAX_LSES, copy, 44, &bytes) == CRR_OK
                                         && bytes == 44 && copy[0] == 0x01 && copy[1] == 0xbf && memcmp(copy + 2, wide_book + 2, 28) == 0 && copy[43] == 0xc4);
    expect("crr_migrate_load, off-peak", crr_migrate_load(nodes, CRR_OFF_PEAK, book_file, book_len, classes, 1, moved_customers, 1, moved_rates, 1, old_lses, 1, new_lses, 1,
                                                          loads, CRR_MAX_LSES, copy, book_len, &bytes) == CRR_OK
                                             && bytes == book_len && memcmp(copy, book_file, bytes) == 0);
    expect("crr_migrate_load, seven LSEs", crr_migrate_load(nodes, CRR_ON_PEAK, book_file, book_len, classes, 1, moved_customers, 1, moved_rates, 1, old_lses, 1, new_lses, 1,
                                                            loads, 7, copy, sizeof copy, &bytes) == CRR_MIGRATION_RANGE);
    expect("crr_migrate_load, no load", crr_migrate_load(nodes, CRR_ON_PEAK, book_file, book_len, classes, 1, moved_customers, 1, moved_rates, 1, old_lses, 1, new_lses, 1,
                                                         no_loads, CRR_MAX_LSES, copy, sizeof copy, &bytes) == CRR_LOAD_EXCEEDED
                                            && bytes == book_len);
    state.numbers[13] = 7;
    expect("crr_open_running", crr_open_running(nodes, constraints, CRR_MONTHLY, CRR_ON_PEAK, full, 2, factors, nodes * constraints, CRR_RUNNING(&state)) == CRR_OK
                                   && state.numbers[0] == 0 && state.numbers[13] == 0 && state.flows[319] == 0);
    expect("crr_open_running, too few cells", crr_open_running(nodes, constraints, CRR_MONTHLY, CRR_ON_PEAK, full, 2, factors, nodes * constraints,
                                                               state.awards, CRR_RUNNING_AWARDS - 1, CRR_RUNNING_MARKS(&state)) == CRR_SHORT_TABLE);
    expect("crr_add_award", crr_add_award(nodes, constraints, CRR_MONTHLY, CRR_ON_PEAK, full, 2, factors, nodes * constraints, filling, 6, CRR_RUNNING(&state)) == CRR_OK
                                && memcmp(state.awards, filling, sizeof filling) == 0 && state.numbers[0] == 1 && state.numbers[1] == 1
                                && state.flows[0] == 600000000 && state.flows[1] == -200000000 && state.flows[2] == 0);
    before = state;
    expect("crr_add_award, a limit exceeded", crr_add_award(nodes, constraints, CRR_MONTHLY, CRR_ON_PEAK, full, 2, factors, nodes * constraints, beyond, 6, CRR_RUNNING(&state)) == CRR_AWARD_OVERLOAD
                                                  && memcmp(&state, &before, sizeof state) == 0);
    expect("crr_add_award, off-peak", crr_add_award(nodes, constraints, CRR_MONTHLY, CRR_ON_PEAK, full, 2, factors, nodes * constraints, off_peak, 6, CRR_RUNNING(&state)) == CRR_OK
                                          && state.numbers[0] == 2 && state.numbers[1] == 1 && state.flows[0] == 600000000);
    expect("crr_mark_tier", crr_mark_tier(CRR_MARK_LT, CRR_RUNNING_MARKS(&state)) == CRR_OK
                                && state.numbers[11] == 1 && state.numbers[12] == 2 && state.numbers[13] == 1 && state.flows[256] == 600000000 && state.flows[257] == -200000000);
    before = state;
    expect("crr_mark_tier, no such tier", crr_mark_tier(5, CRR_RUNNING_MARKS(&state)) == CRR_TIER_MARK && memcmp(&state, &before, sizeof state) == 0);
    expect("crr_add_award, an option", crr_add_award(nodes, constraints, CRR_MONTHLY, CRR_ON_PEAK, full, 2, factors, nodes * constraints, option, 6, CRR_RUNNING(&state)) == CRR_OK
                                           && state.numbers[0] == 3 && state.numbers[1] == 2 && state.flows[0] == 600000000 && state.flows[1] == -190000000);
    expect("crr_return_to_tier, not marked", crr_return_to_tier(1, CRR_RUNNING_MARKS(&state)) == CRR_TIER_MARK && state.numbers[0] == 3);
    expect("crr_return_to_tier", crr_return_to_tier(CRR_MARK_LT, CRR_RUNNING_MARKS(&state)) == CRR_OK
                                     && memcmp(state.numbers, before.numbers, sizeof state.numbers) == 0 && memcmp(state.flows, before.flows, sizeof state.flows) == 0);
    expect("a running test's awards", crr_write_book(CRR_NARROW, nodes, (size_t)state.numbers[0], state.awards, CRR_RUNNING_AWARDS, copy, sizeof copy, &bytes) == CRR_OK && bytes == 14
                                          && crr_test_book(nodes, constraints, CRR_MONTHLY, CRR_ON_PEAK, full, 2, factors, nodes * constraints, copy, bytes, &set, &count, &lowest, &excess) == CRR_OK
                                          && set == 0);
    expect("crr_month_hours", crr_month_hours(2024, 1, &hours) == CRR_OK && hours == 416);
    expect("crr_month_hours, month 13", crr_month_hours(2024, 13, &hours) == CRR_NO_SUCH_DATE && hours == 416);
    expect("crr_month_hours, before the first year", crr_month_hours(CRR_FIRST_YEAR - 1, 12, &hours) == CRR_NO_SUCH_DATE && hours == 416);
    expect("crr_hour_period", crr_hour_period(2024, 7, 5, 22, &peak) == CRR_OK && peak == CRR_ON_PEAK);
    expect("crr_hour_period, a holiday", crr_hour_period(2024, 7, 4, 22, &peak) == CRR_OK && peak == CRR_OFF_PEAK);
    peak = 7;
    expect("crr_hour_period, hour ending 26", crr_hour_period(2024, 7, 5, 26, &peak) == CRR_NO_SUCH_DATE && peak == 7);
    expect("crr_hour_period, no such day", crr_hour_period(2024, 6, 31, 22, &peak) == CRR_NO_SUCH_DATE && peak == 7);
    expect("crr_weekday", crr_weekday(2024, 2, 29, &weekday) == CRR_OK && weekday == 4);
    expect("crr_weekday, no such day", crr_weekday(2023, 2, 29, &weekday) == CRR_NO_SUCH_DATE && weekday == 4);
    expect("crr_month_later", crr_month_later(2024, 1, 31, &year, &month, &day) == CRR_OK && year == 2024 && month == 2 && day == 29);
    expect("crr_month_later, over the year's end", crr_month_later(2023, 12, 31, &year, &month, &day) == CRR_OK && year == 2024 && month == 1 && day == 31);
    expect("crr_month_later, beyond the last year", crr_month_later(CRR_LAST_YEAR, 12, 1, &year, &month, &day) == CRR_NO_SUCH_DATE
                                                        && year == 2024 && month == 1 && day == 31);
    expect("crr_interface", crr_interface() == CRR_INTERFACE);
    text[22] = 7;
    expect("crr_refusal_text", crr_refusal_text(CRR_PRICE_RANGE, text, sizeof text, &bytes) == CRR_OK && bytes == 21 && starts_with("a price above 500,000", bytes) && text[22] == 7);
    expect("crr_refusal_text, too few bytes", crr_refusal_text(CRR_NO_DEMAND, text, 37, &bytes) == CRR_SHORT_TABLE && bytes == 21 && starts_with("a price above 500,000", bytes));
    expect("crr_refusal_text, no such refusal", crr_refusal_text(12, text, 0, &bytes) == CRR_OK && bytes == 0);
    /* A refusal is its number alone. */
    set = 7;
    expect("a refusal", crr_test_book(0, constraints, CRR_MONTHLY, period, limits, constraints, factors, nodes * constraints, book_file, book_len, &set, &count, &lowest, &excess) == CRR_NODE_COUNT
                            && set == 7);
    return nothing;
}

static void on_thread(void *(*calls)(void *), size_t stack) {
    pthread_attr_t attributes;
    pthread_t thread;

    if (pthread_attr_init(&attributes) != 0 || pthread_attr_setstacksize(&attributes, stack) != 0
        || pthread_create(&thread, &attributes, calls, NULL) != 0 || pthread_join(thread, NULL) != 0) {
        expect("a thread of so little stack", 0);
    }
}

int main(void) {
    grid_len = load("grid.bin", grid_file, sizeof grid_file);
    book_len = load("book.bin", book_file, sizeof book_file);
    price_len = load("prices.bin", price_file, sizeof price_file);
    on_thread(others, CRR_STACK_BYTES);
    on_thread(texts, CRR_TEXT_STACK_BYTES);
    on_thread(costs, CRR_TEXT_STACK_BYTES);
    on_thread(totals, CRR_STACK_BYTES);
    printf("interface: %d passed, %d failed\n", passed, failed);
    return failed != 0;
}
