/*
 * crr.h: congestion revenue rights (CRRs), tested against a grid and settled
 * hour by hour.
 *
 * The library is libcrr.a, and libcrr.so for programs that load it when they run
 * (`./library` builds both), for 64-bit machines: x86-64 and aarch64 Linux. crr.dll
 * is that for Windows, and crr.wasm, through js/, that for JavaScript. It allocates
 * nothing, keeps no state and does no input or output, so any number of threads may
 * call it at once. There is no floating point in it.
 * crr_write_report, crr_write_statement, crr_find_shortfall and crr_find_exposure hold
 * tables on the stack: 200,000 bytes (CRR_TEXT_STACK_BYTES) are enough for each. 50,000
 * (CRR_STACK_BYTES) are enough for any other function.
 *
 *
 * INTERFACE. This header's declarations have the number CRR_INTERFACE, and
 * crr_interface gives that of the library. A program that loads the library compares
 * the two once, before any other call: where they differ, it was made for another
 * library. The number changes where a function, a size, a unit or a meaning that was
 * there becomes another one, and with it the name that the shared library goes by
 * (libcrr.so.1); a function more leaves it as it is.
 *
 *
 * UNITS. All figures are whole numbers.
 *
 *   quantity       thousandths of a MW, 1 to 1,000,000
 *   cut            thousandths of a MW, by which a quantity is lowered
 *   limit          thousandths of a MW, 0 to 100,000,000
 *   shift factor   hundred-thousandths, -100,000 to 100,000
 *   shadow price   cents per MWh, 0 to 500,000
 *   flow, excess   10^-8 MW
 *   MCC            10^-5 cents per MWh (marginal cost of congestion)
 *   parts          10^-8 cents, 0 to 99,999,999
 *   balance        cents, -1,000,000,000 to 1,000,000,000
 *   demand         units of any one kind, 0 to 1,000,000,000
 *   weight         hundred-thousandths of a hub, 1 to 100,000
 *   customers      customers that moved, 0 to 1,000,000
 *   rate           thousandths of a MW per customer, 0 to 10,000
 *   load           thousandths of a MW, 0 to 1,000,000,000,000
 *   period         0 off-peak, 1 on-peak
 *   process        0 annual, 1 Tier LT, 2 monthly: 65, 60 and 100 percent of each
 *                  limit is released
 *   tier           1, 2, 3, or 4 for LT: the name of a mark, and no process
 *   date           year 2010 to 2037, month 1 to 12, day from 1 to the month's last
 *   weekday        1 Monday to 7 Sunday
 *   hour ending    1 to 24; 25 for the hour that comes twice where the clock is set
 *                  back
 *
 * Nodes, constraints, contracts and coordinators are numbered from 0: nodes up to
 * 3,999. Load-serving entities (LSEs) are numbered from 1, each being the holder of
 * that number.
 *
 *
 * TABLES. Each may be longer than is needed: only the first cells are read or
 * written. Lists are exact and read whole, their lengths say how many there are:
 * demands, a hub's two lists, and those of crr_remap_book, crr_net_transfers and
 * crr_migrate_load.
 *
 *   limits    one cell for each constraint
 *   factors   one cell for each node and constraint; the factor of node n on
 *             constraint k is in cell n * constraints + k
 *   prices    one cell for each constraint
 *   book      six cells for each contract: kind (0 obligation, 1 option), period,
 *             holder (0 to 1,023), source, sink (up to 3,999; the sink may equal
 *             the source), quantity
 *   flows     one cell for each constraint
 *   numbers   one cell for each contract listed: its number in the book, contracts of
 *             both periods counted
 *   cuts      one cell for each contract listed, in the same order: its cut
 *   mcc       one cell for each node
 *   cents     one cell for each contract
 *   priced    one cell for each contract, a set of constraints: bit k is
 *             constraint k
 *   demands   one cell for each coordinator, and no other
 *   shares    one cell for each coordinator
 *   hub_nodes, hub_weights
 *             one cell of each for each node of a hub, and no other: its number, and
 *             beside it its weight
 *   loads     one cell for each LSE, and no other: that of LSE i in cell i - 1
 *
 * The awards, numbers and flows of a running test are others: see there.
 *
 *
 * HUBS. A trading hub is 1 to CRR_MAX_HUB_NODES nodes, each with a weight of 1 to
 * 100,000, together CRR_HUB_WEIGHT, no node twice. The order in which they are listed
 * has no effect on any answer. A book never holds a hub: a contract from a hub becomes
 * contracts from its nodes (crr_add_hub_contract), and the test and the settlement
 * know these alone.
 *
 *
 * RUNNING TEST. Awards are tried one after another, for one period and process, and
 * dropped again: crr_open_running opens a running test, crr_add_award adds an award
 * where every flow stays within its released limit, crr_mark_tier marks how far one
 * has come, and crr_return_to_tier goes back to there. The state is the caller's. It
 * is three buffers (struct crr_running has them) that may be looked at between calls:
 *
 *   awards    6,000 cells: award i, as a row of a book, in cells 6 * i to 6 * i + 5
 *   numbers   14 cells. Cell 0: how many awards are held, of both periods. Cell 1: how
 *             many of these are counted, those of the period. Of tier i: in cell
 *             3 * i - 1 whether it is marked, 1 or 0; in cell 3 * i how many awards
 *             were held at the mark, in cell 3 * i + 1 how many of these counted
 *   flows     320 cells. Cell k: the flow on constraint k of the awards counted, as
 *             crr_find_flows gives it. Cell 64 * i + k: that at tier i's mark. Cells of
 *             constraints that the grid has not are 0
 *
 * Rows from the number held on, and the cells of a tier that is not marked but for
 * the first, mean nothing: what was dropped is left there.
 *
 * After every call, refused or not, flows and count are those worked out afresh over
 * the awards held. These, written as a book by crr_write_book from the rows as they
 * stand, in a form that can hold their ends (the wide one always can), pass
 * crr_test_book in the process and period, so that no list of shadow prices makes
 * their net payment exceed the congestion rent.
 *
 * What callers owe for this: the state was opened by crr_open_running, no cell of it
 * was altered but by these functions, and counts, process, period and tables are the
 * opening's in every crr_add_award. Otherwise the checks up to 7 still hold, a refusal
 * still changes nothing, and no call reads or writes outside its buffers, but nothing
 * is said of flows and verdict. crr_add_award answers 10 for any number held of 1,000
 * or more, and for an award of the period 21 also where the count exceeds the number
 * held, or some flow exceeds 200,000,000,000 * count in size.
 *
 *
 * FORMS. The file of a grid and that of a book have two forms each. The narrow one
 * is for node numbers of one byte: a grid of at most 200 nodes, a book whose sources
 * and sinks are at most 255. The wide one is for up to 4,000 nodes: a node count of
 * 16 bits, sources and sinks of 12. Each function that takes such a file takes both
 * and tells them apart by the first two bytes. A grid and a book may differ in form.
 * Grids or books that differ in nothing else are tested, listed for cuts and settled
 * alike, and are read to the same tables. What depends on the form besides is a view or
 * file written from a book (its length and bytes, and so its 9), the 11 of a node above
 * 255 that would go into a narrow book (remapped, a hub's nodes and sink), and a text's
 * 5 for a grid of more than 32,768 bytes. Writers are told the form by a number: 0
 * (CRR_NARROW) is narrow, any other number is wide (CRR_WIDE is 1). Readers give 0 or
 * 1, so that what was read can be written again, byte for byte; a book made from a book
 * (remapped, canonical, for the market, grown by a hub's contract or by load migration)
 * keeps its form. Write the wide form where a node number needs it, and otherwise the
 * narrow one: it is shorter, and it is the one that libraries without forms take, which
 * refuse every wide file. The layouts are in crates/layouts/specs.
 *
 *
 * ANSWERS. Every function but crr_interface returns 0, or the number of the refusal
 * (below). Its checks run in the order that its comment lists, by number and by name
 * without CRR_, and the first that fails gives the number. crr_refusal_text has a
 * sentence for each. On a refusal nothing that was lent has changed: no cell of any
 * buffer, and no figure. On success only what the comment names is written: the
 * first cells of a buffer, and the figures; a buffer's other cells stay as they
 * are. Every function answers on every input of the right form; none needs its
 * input checked beforehand.
 *
 *
 * WHAT CALLERS OWE. A buffer is passed as a pointer and a length in cells, not in
 * bytes.
 *
 *   - Every pointer is aligned for its type, and non-null but where the length beside
 *     it is 0: an empty std::vector's null is taken, and so is that of a file of no
 *     bytes. A figure's pointer is never null.
 *   - The length cells from the pointer on are one object's, readable, and
 *     writable where the parameter is not const. What is lent to be written need
 *     not be set before the call: any bytes there will do. The state of a running test
 *     and the totals of crr_add_flows are read and written.
 *   - What is passed to be written, buffer or figure, overlaps nothing else that
 *     is passed in the same call. Buffers that are only read may overlap.
 *   - No other thread writes what is passed, or reads what is passed to be
 *     written, during the call.
 */
#ifndef CRR_H
#define CRR_H

#include <stddef.h>
#include <stdint.h>

#if defined(SIZE_MAX) && SIZE_MAX != UINT64_MAX
#error "crr.h is for 64-bit machines"
#endif

#ifdef __cplusplus
extern "C" {
#endif

/* The version of the project that this header is of, and the number of this interface. */
#define CRR_VERSION "0.1.0"
#define CRR_INTERFACE 2

/* Stack that is enough: for crr_write_report, crr_write_statement, crr_find_shortfall and
 * crr_find_exposure, and for any other. */
#define CRR_TEXT_STACK_BYTES 200000
#define CRR_STACK_BYTES 50000

/* Sizes: the most that is accepted. */
#define CRR_MAX_NODES 4000
#define CRR_MAX_NARROW_NODES 200 /* of a grid's file in the narrow form */
#define CRR_MAX_CONSTRAINTS 64
#define CRR_MAX_CONTRACTS 1000
#define CRR_MAX_SUMMED 20000000 /* contracts whose flows are added up */
#define CRR_MAX_COORDINATORS 256
#define CRR_MAX_HUB_NODES 32
#define CRR_MAX_LSES 16
#define CRR_MAX_MIGRATION_ROWS 1000

/* The cells of a running test: its awards, numbers and flows. */
#define CRR_RUNNING_AWARDS 6000
#define CRR_RUNNING_NUMBERS 14
#define CRR_RUNNING_FLOWS 320

/* Tier LT's mark. CRR_TIER_LT is the process, and as a tier it would be tier 1. */
#define CRR_MARK_LT 4

/* The weights of a hub's nodes together. */
#define CRR_HUB_WEIGHT 100000

/* Figures of load migration: the most that is accepted. */
#define CRR_MAX_CUSTOMERS 1000000
#define CRR_MAX_CUSTOMER_LOAD 10000 /* thousandths of a MW per customer */
#define CRR_MAX_LOAD 1000000000000

/* The longest files. One byte more is never accepted. */
#define CRR_MAX_GRID_BYTES 576220
#define CRR_MAX_BOOK_BYTES 7002
#define CRR_MAX_HOLDER_VIEW_BYTES 9000
#define CRR_MAX_PRICE_BYTES 153

/* The longest grid's file that crr_write_statement and crr_write_report take. */
#define CRR_MAX_TEXT_GRID_BYTES 32768

/* What crr_write_statement and crr_write_report ask for, whatever they write. */
#define CRR_STATEMENT_BYTES 29085
#define CRR_REPORT_BYTES 2048

/* The longest sentence of crr_refusal_text fits into so many. */
#define CRR_REFUSAL_TEXT_BYTES 128

/* The years of the calendar. */
#define CRR_FIRST_YEAR 2010
#define CRR_LAST_YEAR 2037

/* Forms. */
#define CRR_NARROW 0
#define CRR_WIDE 1

/* Periods and processes. */
#define CRR_OFF_PEAK 0
#define CRR_ON_PEAK 1
#define CRR_ANNUAL 0
#define CRR_TIER_LT 1
#define CRR_MONTHLY 2

/*
 * Refusals, by number. Each comes for its own condition only.
 */
#define CRR_OK 0               /* no refusal */
#define CRR_SHORT_FILE 1       /* a file of fewer bytes than its header: two (grid, book), four (wide grid) or one (prices) */
#define CRR_NODE_COUNT 2       /* nodes 0 or above 4,000; reading or writing a narrow grid, above 200 */
#define CRR_CONSTRAINT_COUNT 3 /* constraints above 64 */
#define CRR_SPARE_BITS 4       /* the spare bits of a file's header have neither form's pattern */
#define CRR_FILE_LENGTH 5      /* a file's length differs from what its form and counts fix; a text's grid, also above 32,768 bytes */
#define CRR_LIMIT_RANGE 6      /* a limit above 100,000,000 */
#define CRR_FACTOR_RANGE 7     /* a factor below -100,000 or above 100,000 */
#define CRR_PADDING 8          /* a padding bit at a file's end is set */
#define CRR_SHORT_TABLE 9      /* a lent table, or a place for an answer, of too few cells; remapping, unequal lists */
#define CRR_CONTRACT_COUNT 10  /* more than 1,000 contracts, a book that would grow past 1,000, or a 1,001st award */
#define CRR_NODE_NUMBER 11     /* a source, sink or listed node not below the node count; written to a narrow book, above 255 */
/* 12 is no longer given: a contract whose source equals its sink is accepted. */
#define CRR_QUANTITY_RANGE 13  /* quantity 0 or above 1,000,000 */
#define CRR_PRICE_COUNT 14     /* the price file's constraint count differs from the one stated */
#define CRR_PRICE_RANGE 15     /* a price above 500,000 */
#define CRR_PROCESS_NUMBER 16  /* process not 0 to 2 */
#define CRR_PERIOD_OR_KIND 17  /* a period not 0 or 1; writing a book, adding to one or adding an award, a kind or period not 0 or 1 */
#define CRR_HOLDER_RANGE 18    /* holder above 1,023 */
#define CRR_NO_SUCH_DATE 19    /* a date or month that does not exist or is outside 2010 to 2037 */
#define CRR_TIER_MARK 20       /* running test: a tier not 1 to 4, or returning to one that is not marked */
#define CRR_AWARD_OVERLOAD 21  /* running test: with the award some flow would exceed its released limit */
#define CRR_MIGRATION_RANGE 22 /* load migration: a figure, count or LSE number outside its range, unequal lists, or a row whose old and new LSE are one */
#define CRR_LOAD_EXCEEDED 23   /* load migration: an LSE that loses load has none, or less than its losses to all gainers */
#define CRR_HUB_SHAPE 24       /* a hub not of 1 to 32 nodes, unequal lists, or weights outside 1 to 100,000 or not together 100,000 */
#define CRR_HUB_NODE_TWICE 25  /* a node listed twice in a hub */
#define CRR_SHARE_RANGE 26     /* sharing a balance: no demands or more than 256, or a balance or demand outside its range */
#define CRR_NO_DEMAND 27       /* sharing a balance: the demands total 0 */

/*
 * Gives the number of the interface that the library has: CRR_INTERFACE of the header
 * that it was built with. It refuses nothing.
 */
uint64_t crr_interface(void);

/*
 * Writes what a refusal's number means: the sentence that stands beside it above, 0
 * for none among them. ASCII, no line feed, no 0 byte at the end. A number that no
 * refusal has is without a sentence, which is no refusal: it gives 0 bytes.
 *
 * On success writes the sentence to the first bytes of text, and its length to
 * *bytes. CRR_REFUSAL_TEXT_BYTES are enough for any.
 *
 * Refusals: 9 SHORT_TABLE if the sentence doesn't fit.
 */
uint64_t crr_refusal_text(uint64_t number, uint8_t *text, size_t text_len, size_t *bytes);

/*
 * Reads a grid's file, of either form.
 *
 * On success writes the file's limits and factors to the first cells of both
 * tables, the counts to *nodes and *constraints, and 0 (narrow) or 1 (wide) to
 * *form.
 *
 * The file is wide where its node field, the first byte, is 0 and its spare bit, the
 * last of the second byte, is set; else it is narrow. Refusals, in this order:
 * 1 SHORT_FILE (narrow, fewer than two bytes; wide, fewer than four), 2 NODE_COUNT
 * (narrow, not 1 to 200 nodes; wide, not 1 to 4,000), 3 CONSTRAINT_COUNT,
 * 4 SPARE_BITS (narrow alone: the spare bit is set), 5 FILE_LENGTH (by the form's own
 * length), 6 LIMIT_RANGE, 7 FACTOR_RANGE, 8 PADDING, and 9 SHORT_TABLE if the limits
 * or the factors don't fit.
 */
uint64_t crr_read_grid(const uint8_t *file, size_t file_len,
                       uint64_t *limits, size_t limits_len,
                       int64_t *factors, size_t factors_len,
                       size_t *nodes, size_t *constraints, uint64_t *form);

/*
 * Writes a grid's file from the first cells of its tables, in the form told: 0
 * narrow, any other number wide.
 *
 * On success writes the file to the first bytes of file, and its length to
 * *bytes. The longest has CRR_MAX_GRID_BYTES, the longest narrow one 29,018.
 *
 * Refusals, in this order: 2 NODE_COUNT (narrow, not 1 to 200 nodes; wide, not 1 to
 * 4,000), 3 CONSTRAINT_COUNT, 9 SHORT_TABLE (limits, factors), 6 LIMIT_RANGE,
 * 7 FACTOR_RANGE, and 9 SHORT_TABLE if the bytes don't fit.
 */
uint64_t crr_write_grid(uint64_t form, size_t nodes, size_t constraints,
                        const uint64_t *limits, size_t limits_len,
                        const int64_t *factors, size_t factors_len,
                        uint8_t *file, size_t file_len,
                        size_t *bytes);

/*
 * Reads a book's file, of either form, for a grid of so many nodes.
 *
 * On success writes six cells for each contract to the first cells of book, the
 * same for both forms, the number of contracts to *contracts, and 0 (narrow) or 1
 * (wide) to *form.
 *
 * The file is wide where all six spare bits, the last of the second byte, are set,
 * and narrow where they are clear. Refusals, in this order: 2 NODE_COUNT (not 1 to
 * 4,000 nodes, for both forms), 1 SHORT_FILE (fewer than two bytes),
 * 10 CONTRACT_COUNT, 4 SPARE_BITS (some of the spare bits are set and some clear),
 * 5 FILE_LENGTH (by the form's own length), then contract by contract 11 NODE_NUMBER,
 * 13 QUANTITY_RANGE, and 9 SHORT_TABLE if the contracts don't fit.
 */
uint64_t crr_read_book(size_t nodes,
                       const uint8_t *file, size_t file_len,
                       uint64_t *book, size_t book_len,
                       size_t *contracts, uint64_t *form);

/*
 * Writes a book's file, for a grid of so many nodes, from the first 6 * contracts
 * cells of book, in the form told: 0 narrow, any other number wide.
 *
 * On success writes the file to the first bytes of file, and its length to
 * *bytes. The longest has CRR_MAX_BOOK_BYTES, the longest narrow one 6,002.
 *
 * Refusals, in this order: 2 NODE_COUNT (not 1 to 4,000 nodes, for both forms),
 * 10 CONTRACT_COUNT, 9 SHORT_TABLE (book), then contract by contract
 * 17 PERIOD_OR_KIND, 18 HOLDER_RANGE, 11 NODE_NUMBER (narrow, also a source or sink
 * above 255), 13 QUANTITY_RANGE, and 9 SHORT_TABLE if the bytes don't fit.
 */
uint64_t crr_write_book(uint64_t form, size_t nodes, size_t contracts,
                        const uint64_t *book, size_t book_len,
                        uint8_t *file, size_t file_len,
                        size_t *bytes);

/*
 * Remaps a book's file, for a grid of so many nodes: moves the ends of its
 * contracts by pairs of node numbers, cell i of old_nodes and cell i of new_nodes.
 * The pairs act one after another, each on what those before it gave: an end that is
 * the old node becomes the new one. 1 to 2 and then 2 to 3 sends 1 to 3; 1 to 2 and
 * then 2 to 1 exchanges nothing. Both lists are read whole. They may be of any
 * length, empty too, and name a node more than once; a pair of equal numbers moves
 * nothing.
 *
 * On success writes the file, of the same contracts with both ends moved, to the
 * first bytes of file, and its length, which is book_len, to *bytes. The form, kinds,
 * periods, holders, quantities and the order of the contracts stay. Ends may become
 * equal.
 *
 * Refusals, in this order: 2 NODE_COUNT, 1 SHORT_FILE, 10 CONTRACT_COUNT,
 * 4 SPARE_BITS, 5 FILE_LENGTH, then contract by contract 11 NODE_NUMBER,
 * 13 QUANTITY_RANGE; 11 NODE_NUMBER (a number of old_nodes, of new_nodes; where the
 * book is narrow, also one of new_nodes above 255), 9 SHORT_TABLE if the lists differ
 * in length, and 9 SHORT_TABLE if the bytes don't fit.
 */
uint64_t crr_remap_book(size_t nodes,
                        const uint8_t *book, size_t book_len,
                        const uint64_t *old_nodes, size_t old_len,
                        const uint64_t *new_nodes, size_t new_len,
                        uint8_t *file, size_t file_len,
                        size_t *bytes);

/*
 * Writes the market's view of a book's file, for a grid of so many nodes: the same
 * contracts, in the same order and form, with holder 0 in each. It is itself a
 * book's file, and its flows, verdicts and amounts are the book's.
 *
 * On success writes the file to the first bytes of file, and its length, which is
 * book_len, to *bytes.
 *
 * No holder number reaches the market: for one node count and places of equal
 * length, two books that differ in nothing but holder numbers give the same answer
 * and the same bytes, also where they are refused. That is said of what is answered
 * and written, not of the time that it takes.
 *
 * Refusals, in this order: 2 NODE_COUNT, 1 SHORT_FILE, 10 CONTRACT_COUNT,
 * 4 SPARE_BITS, 5 FILE_LENGTH, then contract by contract 11 NODE_NUMBER,
 * 13 QUANTITY_RANGE; and 9 SHORT_TABLE if the bytes don't fit.
 */
uint64_t crr_write_market_view(size_t nodes,
                               const uint8_t *book, size_t book_len,
                               uint8_t *file, size_t file_len,
                               size_t *bytes);

/*
 * Writes a holder's view of a book's file, for a grid of so many nodes: the holder's
 * contracts of both periods, in the order of the book. Each is its number in the
 * book, counted from 0, in two bytes, the more significant first, and then the
 * contract's own bytes, six of a narrow book and seven of a wide one, as they stand
 * in the file. Nothing stands before, between or behind them: the view says neither
 * how many contracts the book has nor which form, and is no book's file.
 *
 * On success writes the view to the first bytes of view, and its length to *bytes:
 * 8 for each of the holder's contracts where the book is narrow, 9 where it is wide.
 * The longest has CRR_MAX_HOLDER_VIEW_BYTES. For a holder without contracts it is 0,
 * which is no refusal, and view may then have no byte.
 *
 * Nothing of other holders' contracts reaches the holder: for one node count and
 * places of equal length, two accepted books of one form in which the holder has the
 * same contracts with the same numbers give the same answer and the same bytes. That
 * is said of what is answered and written, not of time: a call takes the longer, the
 * more contracts match the holder.
 *
 * Refusals, in this order: 2 NODE_COUNT, 1 SHORT_FILE, 10 CONTRACT_COUNT,
 * 4 SPARE_BITS, 5 FILE_LENGTH, then contract by contract 11 NODE_NUMBER,
 * 13 QUANTITY_RANGE; 18 HOLDER_RANGE, and 9 SHORT_TABLE if the view doesn't fit.
 */
uint64_t crr_write_holder_view(size_t nodes,
                               const uint8_t *book, size_t book_len,
                               uint64_t holder,
                               uint8_t *view, size_t view_len,
                               size_t *bytes);

/*
 * Writes the canonical form of a book's file, for a grid of so many nodes: what
 * document 02 calls its "settled form", one for
 * all copies of a book, whatever the order of their rows and however they are split.
 * Contracts are sorted by kind, period, holder, source and sink, each by its number;
 * those that agree in all five are added together, and their total is cut into rows
 * of 1,000,000, with what is left, where it is not 0, in one row behind them.
 *
 * On success writes the file to the first bytes of file, and its length to *bytes. The
 * form stays. There are never more rows than the book has, so book_len bytes are
 * enough, and fewer often are. The rows are sorted in 21,000 bytes of stack.
 *
 * Two books of one form have equal bytes in the canonical form exactly when, for each
 * kind, period, holder, source and sink, their total quantities are equal. The
 * canonical form of a canonical form is itself. For a book and its canonical form
 * crr_test_book and crr_find_flows give the same but for *counted, and crr_settle_hour
 * the same *whole and *parts. Cents are rounded row by row, so they and their *sum may
 * differ.
 *
 * Refusals, in this order: 2 NODE_COUNT, 1 SHORT_FILE, 10 CONTRACT_COUNT,
 * 4 SPARE_BITS, 5 FILE_LENGTH, then contract by contract 11 NODE_NUMBER,
 * 13 QUANTITY_RANGE, and 9 SHORT_TABLE if the bytes of the canonical form don't fit.
 */
uint64_t crr_write_canonical_book(size_t nodes,
                                  const uint8_t *book, size_t book_len,
                                  uint8_t *file, size_t file_len,
                                  size_t *bytes);

/*
 * Adds a contract from a hub to a sink to a book's file, for a grid of so many nodes,
 * as contracts from the hub's nodes to the sink, with the kind, period and holder
 * given.
 *
 * A node's share of the quantity is quantity * weight / 100,000 rounded down. The
 * thousandths that are left over go one each to the largest remainders, of equal ones
 * to the lower node number. So the shares add up to the quantity, and none is a
 * thousandth or more from its exact part. A share of 0 makes no contract; one whose
 * node is the sink makes a contract with equal ends. By weights 33,334, 33,333 and
 * 33,333 of nodes 0, 1 and 2 a quantity of 1,000 becomes 334, 333 and 333, and one of
 * 1 a single contract, from node 0.
 *
 * On success writes the grown book's file to the first bytes of file, and its length
 * to *bytes: the contracts of the book as they were, in their order, then the new
 * ones by rising node number, in the book's form. A new contract may repeat one that
 * the book has; nothing is added together. CRR_MAX_BOOK_BYTES bytes are always enough.
 *
 * An option at a hub becomes options, each of which counts by itself in the test and
 * in the settlement: it is no option on the hub's price. Allocated contracts are not
 * combined into one of the hub again, as the text of 003, 36.8.4.1, would have it.
 *
 * Refusals, in this order: 2 NODE_COUNT, 1 SHORT_FILE, 10 CONTRACT_COUNT,
 * 4 SPARE_BITS, 5 FILE_LENGTH, then contract by contract 11 NODE_NUMBER,
 * 13 QUANTITY_RANGE; 17 PERIOD_OR_KIND (kind, period), 18 HOLDER_RANGE,
 * 11 NODE_NUMBER (a number of hub_nodes, the sink; where the book is narrow, also one
 * above 255), 13 QUANTITY_RANGE, 24 HUB_SHAPE, 25 HUB_NODE_TWICE, 10 CONTRACT_COUNT
 * (the book's contracts and those made are more than 1,000), and 9 SHORT_TABLE if the
 * bytes don't fit. Unequal lists are 24.
 */
uint64_t crr_add_hub_contract(size_t nodes,
                              const uint8_t *book, size_t book_len,
                              uint64_t kind, uint64_t period, uint64_t holder,
                              const uint64_t *hub_nodes, size_t hub_nodes_len,
                              const uint64_t *hub_weights, size_t hub_weights_len,
                              uint64_t sink, uint64_t quantity,
                              uint8_t *file, size_t file_len,
                              size_t *bytes);

/*
 * Reads a price file, for a grid of so many constraints.
 *
 * On success writes one price for each constraint to the first cells of prices,
 * and the hour's period to *period.
 *
 * Refusals, in this order: 3 CONSTRAINT_COUNT, 1 SHORT_FILE, 14 PRICE_COUNT,
 * 5 FILE_LENGTH, 15 PRICE_RANGE, 8 PADDING, and 9 SHORT_TABLE if the prices don't
 * fit.
 */
uint64_t crr_read_prices(size_t constraints,
                         const uint8_t *file, size_t file_len,
                         uint64_t *prices, size_t prices_len,
                         uint64_t *period);

/*
 * Writes a price file from the first cells of prices.
 *
 * On success writes the file to the first bytes of file, and its length to
 * *bytes. The longest has CRR_MAX_PRICE_BYTES.
 *
 * Refusals, in this order: 17 PERIOD_OR_KIND, 3 CONSTRAINT_COUNT, 9 SHORT_TABLE
 * (prices), 15 PRICE_RANGE, and 9 SHORT_TABLE if the bytes don't fit.
 */
uint64_t crr_write_prices(uint64_t period, size_t constraints,
                          const uint64_t *prices, size_t prices_len,
                          uint8_t *file, size_t file_len,
                          size_t *bytes);

/*
 * The simultaneous feasibility test: whether the contracts of one period, of a
 * book's file, are feasible on a grid in a process.
 *
 * On success the answer is 0 both for a pass and for a fail. *set tells them
 * apart: it is 0 exactly on pass. On fail writes to *set the overloaded
 * constraints (bit k is constraint k), to *count how many they are, to *lowest
 * the lowest of them, and to *excess by how much its flow exceeds its released
 * limit, which is above 0. On pass writes 0 to all four.
 *
 * *set is 0 exactly when no list of shadow prices makes the net payment of the
 * period's contracts exceed the congestion rent. On fail, prices of 1 cent at
 * *lowest and 0 elsewhere do, by *excess in 10^-8 cents for an hour.
 *
 * Refusals, in this order: 2 NODE_COUNT, 3 CONSTRAINT_COUNT, 16 PROCESS_NUMBER,
 * 17 PERIOD_OR_KIND, 9 SHORT_TABLE (limits, factors), 6 LIMIT_RANGE, 7 FACTOR_RANGE,
 * then the book's own: 1 SHORT_FILE, 10 CONTRACT_COUNT, 4 SPARE_BITS, 5 FILE_LENGTH,
 * and contract by contract 11 NODE_NUMBER, 13 QUANTITY_RANGE.
 */
uint64_t crr_test_book(size_t nodes, size_t constraints,
                       uint64_t process, uint64_t period,
                       const uint64_t *limits, size_t limits_len,
                       const int64_t *factors, size_t factors_len,
                       const uint8_t *book, size_t book_len,
                       uint64_t *set, size_t *count, size_t *lowest,
                       int64_t *excess);

/*
 * Finds the flow on each constraint of the contracts of one period, of a book's
 * file, as the test counts them: an option only where its flow is positive.
 *
 * On success writes one flow for each constraint to the first cells of flows, and
 * to *counted how many contracts the period has. The test finds constraint k
 * overloaded in a process exactly when flows[k] is above limits[k] * percent *
 * 1,000, with the percent that crr_released_percent gives.
 *
 * Refusals, in this order: 2 NODE_COUNT, 3 CONSTRAINT_COUNT, 17 PERIOD_OR_KIND,
 * 9 SHORT_TABLE (limits, factors), 6 LIMIT_RANGE, 7 FACTOR_RANGE, then the book's
 * own: 1 SHORT_FILE, 10 CONTRACT_COUNT, 4 SPARE_BITS, 5 FILE_LENGTH, and contract by
 * contract 11 NODE_NUMBER, 13 QUANTITY_RANGE; and 9 SHORT_TABLE if the flows don't
 * fit.
 */
uint64_t crr_find_flows(size_t nodes, size_t constraints, uint64_t period,
                        const uint64_t *limits, size_t limits_len,
                        const int64_t *factors, size_t factors_len,
                        const uint8_t *book, size_t book_len,
                        int64_t *flows, size_t flows_len,
                        size_t *counted);

/*
 * Adds the flow on each constraint of the contracts of one period, of a book's file, to
 * running totals: a step of a test of any size.
 *
 * A grid and a book beyond the sizes above are tested block by block: a block is any
 * 64 of the constraints or fewer, and each constraint is in one. A block's totals
 * begin as flows of 0 and a *count of 0. Then the whole book's contracts are added in
 * any order, at most 1,000 at a call, as a small book on a small grid: limits are the
 * block's, nodes are numbered as the caller likes, and each has the factors on the
 * block's constraints of the node that it stands for. When all are added
 * crr_judge_flows judges the block.
 *
 * On success adds to the first cells of flows, one for each constraint, what
 * crr_find_flows would write there, and to *count how many contracts the period has,
 * which it writes to *counted. flows and *count are read, too: they are what the call
 * before left, or 0. Document 01 knows the sizes of one call alone: this function goes
 * beyond it.
 *
 * Refusals, in this order: 2 NODE_COUNT, 3 CONSTRAINT_COUNT, 17 PERIOD_OR_KIND,
 * 9 SHORT_TABLE (limits, factors), 6 LIMIT_RANGE, 7 FACTOR_RANGE, then the book's
 * own: 1 SHORT_FILE, 10 CONTRACT_COUNT, 4 SPARE_BITS, 5 FILE_LENGTH, and contract by
 * contract 11 NODE_NUMBER, 13 QUANTITY_RANGE; 9 SHORT_TABLE if flows has fewer cells
 * than there are constraints; last 10 CONTRACT_COUNT (*count is above CRR_MAX_SUMMED
 * or would become so, or a flow exceeds 200,000,000,000 * *count in size, which no total
 * of so many contracts does).
 */
uint64_t crr_add_flows(size_t nodes, size_t constraints, uint64_t period,
                       const uint64_t *limits, size_t limits_len,
                       const int64_t *factors, size_t factors_len,
                       const uint8_t *book, size_t book_len,
                       int64_t *flows, size_t flows_len,
                       size_t *count, size_t *counted);

/*
 * Judges the running totals of a block of constraints, as the test judges: the last
 * step of a test of any size, for each block.
 *
 * flows has the totals that crr_add_flows left, and summed is its *count: how many
 * contracts they are of.
 *
 * On success writes to *set, *count, *lowest and *excess what crr_test_book writes, 0
 * to all four on pass. Constraints are numbered as they stand in the block.
 *
 * Where crr_add_flows added every contract of the period once for each block, *set is 0
 * for all blocks exactly when no list of shadow prices on the whole grid makes the net
 * payment of these contracts exceed the congestion rent. Where it is not, prices of 1
 * cent at the block's constraint *lowest and 0 elsewhere do, by *excess in 10^-8 cents
 * for an hour. This function goes beyond document 01, as crr_add_flows does.
 *
 * Refusals, in this order: 3 CONSTRAINT_COUNT, 16 PROCESS_NUMBER, 9 SHORT_TABLE
 * (limits, flows), 6 LIMIT_RANGE, 10 CONTRACT_COUNT (summed above CRR_MAX_SUMMED, or a
 * flow that exceeds 200,000,000,000 * summed in size).
 */
uint64_t crr_judge_flows(size_t constraints, uint64_t process,
                         const uint64_t *limits, size_t limits_len,
                         const int64_t *flows, size_t flows_len,
                         size_t summed,
                         uint64_t *set, size_t *count, size_t *lowest,
                         int64_t *excess);

/*
 * Finds, for a book that fails the test, every contract of the period tested whose
 * quantity, lowered alone, makes the book pass in the process, with the smallest cut
 * that does.
 *
 * A cut is by how much the quantity is lowered, all other contracts staying as they
 * are: from 1 to the whole quantity, which takes the contract out of the book.
 *
 * On success writes a row for each such contract, by rising cuts and equal cuts by
 * rising contract numbers: the numbers to the first cells of numbers, the cuts to the
 * first cells of cuts, and to *listed how many rows there are. With contract
 * numbers[i] lowered by cuts[i] the book passes crr_test_book, with a smaller cut of
 * it the book fails. With a larger one it may fail again: an obligation that is
 * lowered further takes its counter-flow away from other constraints. A contract
 * that is not listed has no cut that clears the book.
 *
 * *listed is 0 for a book that passes, and also for one that fails and that no
 * single contract's cut clears: crr_test_book tells them apart.
 *
 * Refusals, in this order: 2 NODE_COUNT, 3 CONSTRAINT_COUNT, 16 PROCESS_NUMBER,
 * 17 PERIOD_OR_KIND, 9 SHORT_TABLE (limits, factors), 6 LIMIT_RANGE, 7 FACTOR_RANGE,
 * then the book's own: 1 SHORT_FILE, 10 CONTRACT_COUNT, 4 SPARE_BITS, 5 FILE_LENGTH,
 * and contract by contract 11 NODE_NUMBER, 13 QUANTITY_RANGE; last 9 SHORT_TABLE if
 * numbers or cuts has fewer cells than there are rows. CRR_MAX_CONTRACTS cells of
 * each are enough, and a book that passes asks for none.
 */
uint64_t crr_find_cuts(size_t nodes, size_t constraints,
                       uint64_t process, uint64_t period,
                       const uint64_t *limits, size_t limits_len,
                       const int64_t *factors, size_t factors_len,
                       const uint8_t *book, size_t book_len,
                       uint64_t *numbers, size_t numbers_len,
                       uint64_t *cuts, size_t cuts_len,
                       size_t *listed);

/*
 * Finds what a book costs at a price list, for a process and period: net payment,
 * congestion rent and shortfall of one hour (document 01, "Terms of the third
 * demand").
 *
 * prices has one shadow price for each constraint, in cents. Net payment is the sum of
 * the exact amounts of the period's contracts, charges negative; rent is the sum over
 * constraints of released limit times price; shortfall is net payment less rent.
 *
 * On success writes each as whole cents rounded down and parts: the figure is whole *
 * 100,000,000 + parts, in 10^-8 cents.
 *
 * At one cent on the constraint that crr_test_book names on a fail, and 0 elsewhere,
 * the shortfall is the excess that it gives. Where crr_test_book passes, no price
 * list's shortfall is above 0. Document 01 defines the three figures and asks for no
 * function that gives them: this one goes beyond it.
 *
 * Refusals, in this order: 2 NODE_COUNT, 3 CONSTRAINT_COUNT, 16 PROCESS_NUMBER,
 * 17 PERIOD_OR_KIND, 9 SHORT_TABLE (limits, factors, prices), 6 LIMIT_RANGE,
 * 7 FACTOR_RANGE, 15 PRICE_RANGE, then the book's own: 1 SHORT_FILE, 10 CONTRACT_COUNT,
 * 4 SPARE_BITS, 5 FILE_LENGTH, and contract by contract 11 NODE_NUMBER,
 * 13 QUANTITY_RANGE.
 */
uint64_t crr_find_shortfall(size_t nodes, size_t constraints,
                            uint64_t process, uint64_t period,
                            const uint64_t *limits, size_t limits_len,
                            const int64_t *factors, size_t factors_len,
                            const uint64_t *prices, size_t prices_len,
                            const uint8_t *book, size_t book_len,
                            int64_t *payment_whole, uint64_t *payment_parts,
                            int64_t *rent_whole, uint64_t *rent_parts,
                            int64_t *shortfall_whole, uint64_t *shortfall_parts);

/*
 * Finds what a book can cost in a process and period: how much its holders can be owed
 * beyond the congestion rent of one hour, at the worst shadow prices.
 *
 * The worst shortfall is the most that any list of prices, 0 to 500,000 cents on each
 * constraint, makes net payment exceed rent. It is at least *least_whole cents and
 * *least_parts, which the prices written reach, and at most *most_whole and
 * *most_parts.
 *
 * Where at most ten constraints are overloaded the two are one figure, the worst
 * shortfall itself: 500,000 on every set of them is tried, and the prices written are
 * those of the set that costs the most (of equals the one whose number, bit k for
 * constraint k, is the least). Where more are, the prices are 500,000 on every
 * overloaded constraint or, where that costs more, on the one of the largest excess
 * alone (the lowest such), and the most is every excess above 0 at 500,000 cents. Even
 * then the two are equal where the period has no options, and where no option loads
 * one overloaded constraint and relieves another; the most is never more than the
 * least times the number of overloaded constraints. Both are 0 exactly where
 * crr_test_book passes.
 *
 * On success writes one price for each constraint to the first cells of prices, 0
 * wherever nothing is overloaded. crr_find_shortfall at these prices gives the least,
 * and at none more than the most. Document 01 defines the worst shortfall and asks for
 * no function that finds it: this one goes beyond it.
 *
 * Refusals, in this order: 2 NODE_COUNT, 3 CONSTRAINT_COUNT, 16 PROCESS_NUMBER,
 * 17 PERIOD_OR_KIND, 9 SHORT_TABLE (limits, factors), 6 LIMIT_RANGE, 7 FACTOR_RANGE,
 * then the book's own: 1 SHORT_FILE, 10 CONTRACT_COUNT, 4 SPARE_BITS, 5 FILE_LENGTH,
 * and contract by contract 11 NODE_NUMBER, 13 QUANTITY_RANGE; last 9 SHORT_TABLE if
 * prices has fewer cells than there are constraints.
 */
uint64_t crr_find_exposure(size_t nodes, size_t constraints,
                           uint64_t process, uint64_t period,
                           const uint64_t *limits, size_t limits_len,
                           const int64_t *factors, size_t factors_len,
                           const uint8_t *book, size_t book_len,
                           uint64_t *prices, size_t prices_len,
                           int64_t *least_whole, uint64_t *least_parts,
                           int64_t *most_whole, uint64_t *most_parts);

/* The state of a running test, which crr_open_running opens. */
struct crr_running {
    uint64_t awards[CRR_RUNNING_AWARDS];
    uint64_t numbers[CRR_RUNNING_NUMBERS];
    int64_t flows[CRR_RUNNING_FLOWS];
};

/*
 * A state's buffers with their lengths, from a pointer to it: all three, as
 * crr_open_running and crr_add_award take them last, and the two of crr_mark_tier and
 * crr_return_to_tier.
 */
#define CRR_RUNNING(state) (state)->awards, CRR_RUNNING_AWARDS, CRR_RUNNING_MARKS(state)
#define CRR_RUNNING_MARKS(state) (state)->numbers, CRR_RUNNING_NUMBERS, (state)->flows, CRR_RUNNING_FLOWS

/*
 * Opens a running test (see RUNNING TEST) on a grid, for a process and a period: no
 * award is held and no tier is marked. A state in use starts afresh.
 *
 * On success writes 0 to the first 14 cells of numbers and the first 320 of flows, and
 * nothing to awards.
 *
 * Refusals, in this order: 2 NODE_COUNT, 3 CONSTRAINT_COUNT, 16 PROCESS_NUMBER,
 * 17 PERIOD_OR_KIND, 9 SHORT_TABLE (limits, factors; awards of fewer than 6,000
 * cells, numbers of fewer than 14, flows of fewer than 320), 6 LIMIT_RANGE,
 * 7 FACTOR_RANGE.
 */
uint64_t crr_open_running(size_t nodes, size_t constraints,
                          uint64_t process, uint64_t period,
                          const uint64_t *limits, size_t limits_len,
                          const int64_t *factors, size_t factors_len,
                          const uint64_t *awards, size_t awards_len,
                          uint64_t *numbers, size_t numbers_len,
                          int64_t *flows, size_t flows_len);

/*
 * Adds an award to a running test: the first six cells of award, a row of a book. It is
 * held where, with it, no flow exceeds its released limit; a flow that equals it is
 * none that exceeds it. An award of the other period is held too, as one of the 1,000,
 * but adds no flow, is not counted, and never draws 21. So the order counts: what is
 * refused by 21 now may be held after another award.
 *
 * On success writes the award to the six cells of awards behind the awards held, to
 * cell 0 of numbers one more, and, for an award of the period, to cell 1 one more and
 * to the first cells of flows, one for each constraint, the flows with the award's.
 *
 * Refusals, in this order: 2 NODE_COUNT, 3 CONSTRAINT_COUNT, 16 PROCESS_NUMBER,
 * 17 PERIOD_OR_KIND, 9 SHORT_TABLE (as crr_open_running, and an award of fewer than
 * six cells), 6 LIMIT_RANGE, 7 FACTOR_RANGE, 10 CONTRACT_COUNT (1,000 awards are
 * held), then of the award 17 PERIOD_OR_KIND, 18 HOLDER_RANGE, 11 NODE_NUMBER,
 * 13 QUANTITY_RANGE, and 21 AWARD_OVERLOAD (some flow would exceed its released
 * limit; it is not said which).
 */
uint64_t crr_add_award(size_t nodes, size_t constraints,
                       uint64_t process, uint64_t period,
                       const uint64_t *limits, size_t limits_len,
                       const int64_t *factors, size_t factors_len,
                       const uint64_t *award, size_t award_len,
                       uint64_t *awards, size_t awards_len,
                       uint64_t *numbers, size_t numbers_len,
                       int64_t *flows, size_t flows_len);

/*
 * Marks a tier of a running test at the awards held now, also where there are none. A
 * tier that is marked already is marked anew.
 *
 * On success writes, of tier i, 1 and cells 0 and 1 to cells 3 * i - 1, 3 * i and
 * 3 * i + 1 of numbers, and cells 0 to 63 of flows to cells 64 * i to 64 * i + 63.
 *
 * Refusals, in this order: 9 SHORT_TABLE (numbers, flows), 20 TIER_MARK (a tier not 1
 * to 4).
 */
uint64_t crr_mark_tier(uint64_t tier,
                       uint64_t *numbers, size_t numbers_len,
                       int64_t *flows, size_t flows_len);

/*
 * Returns to a marked tier of a running test: the awards held at its mark are held
 * again, those added since are dropped, and so is every mark made when more awards
 * were held, whatever its tier. The mark returned to stays.
 *
 * On success writes, of tier i, cells 3 * i and 3 * i + 1 of numbers to cells 0 and 1,
 * cells 64 * i to 64 * i + 63 of flows to cells 0 to 63, and 0 to cell 3 * j - 1 of
 * numbers for each tier j whose cell 3 * j is above cell 3 * i.
 *
 * Refusals, in this order: 9 SHORT_TABLE (numbers, flows), 20 TIER_MARK (a tier not 1
 * to 4), 20 TIER_MARK (one that is not marked).
 */
uint64_t crr_return_to_tier(uint64_t tier,
                            uint64_t *numbers, size_t numbers_len,
                            int64_t *flows, size_t flows_len);

/*
 * Gives the share of each limit that a process releases.
 *
 * On success writes it to *percent: 65, 60 or 100.
 *
 * Refusals: 16 PROCESS_NUMBER.
 */
uint64_t crr_released_percent(uint64_t process, uint64_t *percent);

/*
 * Finds the MCC of all nodes: minus the sum over constraints of factor * price.
 *
 * On success writes one MCC for each node to the first cells of mcc.
 *
 * Refusals, in this order: 2 NODE_COUNT, 3 CONSTRAINT_COUNT, 9 SHORT_TABLE (factors,
 * prices, mcc), 7 FACTOR_RANGE, 15 PRICE_RANGE.
 */
uint64_t crr_find_mcc(size_t nodes, size_t constraints,
                      const int64_t *factors, size_t factors_len,
                      const uint64_t *prices, size_t prices_len,
                      int64_t *mcc, size_t mcc_len);

/*
 * Finds the MCC of a hub: the sum over its nodes of weight * MCC of the node, divided
 * by 100,000. The MCCs are those of crr_find_mcc, worked out afresh.
 *
 * On success writes to *quotient the MCC rounded down, also where it is negative, and
 * to *remainder what is left, 0 to 99,999: *quotient * 100,000 + *remainder is the sum.
 * A sum of -1 is -1 and 99,999.
 *
 * Refusals, in this order: 2 NODE_COUNT, 3 CONSTRAINT_COUNT, 9 SHORT_TABLE (factors,
 * prices), 7 FACTOR_RANGE, 15 PRICE_RANGE, 11 NODE_NUMBER (a number of hub_nodes),
 * 24 HUB_SHAPE, 25 HUB_NODE_TWICE. Those before 11 are of all factors and prices, as
 * for crr_find_mcc. Unequal lists are 24.
 */
uint64_t crr_find_hub_mcc(size_t nodes, size_t constraints,
                          const int64_t *factors, size_t factors_len,
                          const uint64_t *prices, size_t prices_len,
                          const uint64_t *hub_nodes, size_t hub_nodes_len,
                          const uint64_t *hub_weights, size_t hub_weights_len,
                          int64_t *quotient, uint64_t *remainder);

/*
 * Settles an hour of a period, for the contracts of a book's file. A contract's
 * exact amount is (MCC of sink - MCC of source) * quantity; an option's is 0 when
 * that is negative. Positive is paid, negative charged. The constraints that
 * priced it are those where price * (factor of source - factor of sink) is not 0.
 *
 * On success writes one cell for each contract to the first cells of cents: its
 * amount to the nearest cent, a half away from zero; and one to the first cells
 * of priced: the set of the constraints that priced it, whether or not an option
 * is paid. Both are 0 for the other period's contracts. Writes to *sum the cells
 * of cents added, and the exact total of the period's contracts, summed before
 * rounding, as *whole cents, rounded down, and *parts. A total of -83,000,000 is
 * -1 whole cents and 17,000,000 parts.
 *
 * Refusals, in this order: 2 NODE_COUNT, 3 CONSTRAINT_COUNT, 17 PERIOD_OR_KIND,
 * 9 SHORT_TABLE (factors, prices), 7 FACTOR_RANGE, 15 PRICE_RANGE, then the book's
 * own: 1 SHORT_FILE, 10 CONTRACT_COUNT, 4 SPARE_BITS, 5 FILE_LENGTH, and contract by
 * contract 11 NODE_NUMBER, 13 QUANTITY_RANGE; last 9 SHORT_TABLE if the cents or the
 * sets don't fit.
 */
uint64_t crr_settle_hour(size_t nodes, size_t constraints, uint64_t period,
                         const int64_t *factors, size_t factors_len,
                         const uint64_t *prices, size_t prices_len,
                         const uint8_t *book, size_t book_len,
                         int64_t *cents, size_t cents_len,
                         uint64_t *priced, size_t priced_len,
                         int64_t *sum, int64_t *whole, uint64_t *parts);

/*
 * Shares a balance, of either sign, among Scheduling Coordinators by their demands:
 * cell i of demands is that of coordinator i. There are demands_len of them, 1 to
 * CRR_MAX_COORDINATORS: here the list's length is the count, and no cell of it is
 * left out.
 *
 * A coordinator's exact proportion is balance * demand / total of the demands. Each
 * gets it rounded towards zero. The cents that are left over, of the balance's sign,
 * go one each to the largest remainders in size, of equal ones to the lower number.
 * So the shares add up to the balance, and none is a cent or more from its exact
 * proportion. By demands 1, 1, 1 a balance of 100 is shared as 34, 33, 33, and one of
 * -100 as -34, -33, -33.
 *
 * On success writes one share for each coordinator, in cents, to the first cells of
 * shares.
 *
 * Refusals, in this order: 26 SHARE_RANGE (not 1 to 256 demands; a balance below
 * -1,000,000,000 or above 1,000,000,000; a demand above 1,000,000,000), 27 NO_DEMAND,
 * and 9 SHORT_TABLE if the shares don't fit.
 */
uint64_t crr_share_balance(int64_t balance,
                           const uint64_t *demands, size_t demands_len,
                           int64_t *shares, size_t shares_len);

/*
 * Nets the load that moved between LSEs: the square of net transfers that
 * crr_migrate_load follows, for those who want to see it; no paper asks for it by
 * itself. There are so many LSEs, 1 to CRR_MAX_LSES, and the rows of five lists are
 * those of crr_migrate_load, where the net transfer from one LSE to another is
 * defined. The lists may be empty.
 *
 * On success writes lses * lses cells, a row for each LSE: that from LSE i to LSE j is
 * in cell (i - 1) * lses + j - 1 of nets, in thousandths of a MW. What LSE i loses to
 * LSE j is above 0, what it gains below 0; each is the opposite of its mirror, the
 * cell from j to i. CRR_MAX_LSES * CRR_MAX_LSES cells are always enough. Where
 * crr_migrate_load takes the same rows and as many loads, the contracts that it adds
 * follow these cells.
 *
 * Refusals, in this order: 22 MIGRATION_RANGE (not 1 to 16 LSEs, more than 1,000
 * rows, lists of unequal length, customers above 1,000,000, a rate above 10,000, an
 * LSE number that is 0 or above lses, a row whose old and new LSE are one), and
 * 9 SHORT_TABLE if the cells don't fit.
 */
uint64_t crr_net_transfers(size_t lses,
                           const uint8_t *classes, size_t classes_len,
                           const uint64_t *customers, size_t customers_len,
                           const uint64_t *rates, size_t rates_len,
                           const uint64_t *olds, size_t olds_len,
                           const uint64_t *news, size_t news_len,
                           int64_t *nets, size_t nets_len);

/*
 * Migrates load: the monthly transfer of CRRs between LSEs whose customers moved, for
 * one period, from a book's file, for a grid of so many nodes. There are loads_len
 * LSEs, 1 to CRR_MAX_LSES; the contracts of LSE i are those of holder i, and cell i - 1
 * of loads is its current load in the period. Row r, of up to CRR_MAX_MIGRATION_ROWS,
 * stands in cell r of five lists of equal length: a class, which is any byte and
 * changes nothing; the customers moved, the thousandths of a MW that each has (rates),
 * and the numbers of their old and their new LSE. The lists may be empty.
 *
 * The net transfer from one LSE to another is customers * rate summed over the rows
 * from the one to the other, less that of the rows back. Where it is above 0 the one
 * loses load and the other gains it. Each obligation of the period that a loser holds
 * in the book then gives, for each of its gainers, two obligations of the same period
 * and of quantity * net transfer / the loser's load, rounded down: the gainer's, with
 * the contract's own source and sink, and the loser's, with the two exchanged. Where
 * that is 0 it gives neither. Options, the other period's contracts and those of
 * holders that are no LSE give none, nor do the contracts made here.
 *
 * On success writes the new book's file to the first bytes of file, and its length to
 * *bytes: the contracts of the book as they were, in their order, then the new ones,
 * by the contract that gives them, then by gainer, the gainer's before the loser's, in
 * the book's form. Where no net is above 0 these are the book's own bytes.
 * CRR_MAX_BOOK_BYTES bytes are always enough.
 *
 * Every constraint's flow stays: on the new book crr_find_flows gives the same but for
 * *counted, crr_test_book the same, and crr_settle_hour the same *whole and *parts.
 * Cents are rounded contract by contract, so their *sum may differ. The other period
 * is another call, on the new book, with that period's rates and loads.
 *
 * Refusals, in this order: 17 PERIOD_OR_KIND, 2 NODE_COUNT, 1 SHORT_FILE,
 * 10 CONTRACT_COUNT, 4 SPARE_BITS, 5 FILE_LENGTH, then contract by contract
 * 11 NODE_NUMBER, 13 QUANTITY_RANGE; 22 MIGRATION_RANGE (not 1 to 16 loads, more than
 * 1,000 rows, lists of unequal length, customers above 1,000,000, a rate above
 * 10,000, a load above 1,000,000,000,000, an LSE number that is 0 or above loads_len,
 * a row whose old and new LSE are one), 23 LOAD_EXCEEDED (an LSE with a net above 0
 * to some other, whose load is 0 or less than its nets above 0 together; what it
 * gains is not set off), 10 CONTRACT_COUNT (the book's contracts and the new ones are
 * more than 1,000), and 9 SHORT_TABLE if the bytes don't fit.
 */
uint64_t crr_migrate_load(size_t nodes, uint64_t period,
                          const uint8_t *book, size_t book_len,
                          const uint8_t *classes, size_t classes_len,
                          const uint64_t *customers, size_t customers_len,
                          const uint64_t *rates, size_t rates_len,
                          const uint64_t *olds, size_t olds_len,
                          const uint64_t *news, size_t news_len,
                          const uint64_t *loads, size_t loads_len,
                          uint8_t *file, size_t file_len,
                          size_t *bytes);

/*
 * Writes the feasibility report on a grid's file and a book's file: a heading and
 * a line for each period and process, or the one line `refused,grid,N` or
 * `refused,book,N`. ASCII, each line ended by one line feed, no 0 byte at the end.
 * A grid of more than CRR_MAX_TEXT_GRID_BYTES bytes draws 5 where none of 1, 2, 3
 * and 4 does; of grids in the wide form that leaves those of 4,000 nodes with up to
 * 3 constraints, or of 226 nodes with 64.
 *
 * On success writes the report to the first bytes of text, and its length to
 * *bytes.
 *
 * Refusals: 9 SHORT_TABLE if text has fewer than CRR_REPORT_BYTES bytes. What is
 * wrong with a file is told by the report's line, and the answer is 0.
 */
uint64_t crr_write_report(const uint8_t *grid_file, size_t grid_file_len,
                          const uint8_t *book_file, size_t book_file_len,
                          uint8_t *text, size_t text_len,
                          size_t *bytes);

/*
 * Writes the hour statement on a grid's file, a book's file and a price file: the
 * heading `contract,holder,kind,cents,priced`, a line of these five for each
 * contract of the hour's period, the sum and the exact total, or the one line
 * `refused,grid,N`, `refused,book,N` or `refused,prices,N`. The field `priced` is
 * how many constraints priced the contract. ASCII, each line ended by one line
 * feed, no 0 byte at the end. A grid's length is limited as for crr_write_report.
 *
 * On success writes the statement to the first bytes of text, and its length to
 * *bytes.
 *
 * Refusals: 9 SHORT_TABLE if text has fewer than CRR_STATEMENT_BYTES bytes. What is
 * wrong with a file is told by the statement's line, and the answer is 0.
 */
uint64_t crr_write_statement(const uint8_t *grid_file, size_t grid_file_len,
                             const uint8_t *book_file, size_t book_file_len,
                             const uint8_t *price_file, size_t price_file_len,
                             uint8_t *text, size_t text_len,
                             size_t *bytes);

/*
 * Gives the on-peak hours of a month: the hours ending 7 to 22, 16 of a day, on
 * Mondays to Saturdays that are no holiday. Holidays are 1 January, the last Monday
 * of May, 4 July, the first Monday of September, the fourth Thursday of November and
 * 25 December. One that falls on a Sunday moves to the Monday after it; one that
 * falls on a Saturday does not move, and the Friday before it is a day like others.
 *
 * On success writes their number to *hours: 384, 400, 416 or 432. January 2024 has
 * 416.
 *
 * Refusals: 19 NO_SUCH_DATE (a year not 2010 to 2037, a month not 1 to 12).
 */
uint64_t crr_month_hours(uint64_t year, uint64_t month, uint64_t *hours);

/*
 * Gives the period of an hour of a date, by the rule of crr_month_hours: on-peak are
 * the hours ending 7 to 22 of the days that it counts. Hours ending are 1 to 24; 25 is
 * the hour that comes twice on the day whose clock is set back, and is off-peak. Of
 * the hours ending 1 to 24 of a month's days as many are on-peak as crr_month_hours
 * gives. This goes beyond the papers, which ask for the months' counts alone.
 *
 * On success writes it to *period: 0 off-peak, 1 on-peak.
 *
 * Refusals, in this order: 19 NO_SUCH_DATE (the date, as for crr_weekday), 19
 * NO_SUCH_DATE (an hour ending not 1 to 25).
 */
uint64_t crr_hour_period(uint64_t year, uint64_t month, uint64_t day,
                         uint64_t hour_ending, uint64_t *period);

/*
 * Gives the weekday of a date.
 *
 * On success writes it to *weekday: 1 is Monday, 7 is Sunday.
 *
 * Refusals: 19 NO_SUCH_DATE (a year not 2010 to 2037, a month not 1 to 12, a day that
 * the month does not have).
 */
uint64_t crr_weekday(uint64_t year, uint64_t month, uint64_t day,
                     uint64_t *weekday);

/*
 * Gives the date one month later: the same day of the next month, or that month's
 * last day where it is a shorter one. 31 January 2024 gives 29 February 2024, and
 * that gives 29 March 2024.
 *
 * On success writes the date to *later_year, *later_month and *later_day.
 *
 * Refusals, in this order: 19 NO_SUCH_DATE (the date given, as for crr_weekday),
 * 19 NO_SUCH_DATE (the date reached: all of December 2037).
 */
uint64_t crr_month_later(uint64_t year, uint64_t month, uint64_t day,
                         uint64_t *later_year, uint64_t *later_month,
                         uint64_t *later_day);

#ifdef __cplusplus
}
#endif

#endif
