/*
 * crr.hpp: crr.h for C++20. Spans in, values out; a refusal is an exception with its number and its
 * sentence. Header only: link the library as from C.
 *
 * Figures are whole numbers in the units of crr.h. The functions that most programs call are here; any
 * other of crr.h is called as it is, under crr::check, which throws where it refuses:
 *
 *   crr::check("crr_remap_book", crr_remap_book(...));
 */
#ifndef CRR_HPP
#define CRR_HPP

#include <cstddef>
#include <cstdint>
#include <span>
#include <stdexcept>
#include <string>
#include <utility>
#include <vector>

#include "crr.h"

namespace crr {

using Bytes = std::span<const std::uint8_t>;
using Cells = std::span<const std::uint64_t>;

enum class Period : std::uint64_t { off_peak = CRR_OFF_PEAK, on_peak = CRR_ON_PEAK };
enum class Process : std::uint64_t { annual = CRR_ANNUAL, tier_lt = CRR_TIER_LT, monthly = CRR_MONTHLY };
enum class Kind : std::uint64_t { obligation = 0, option = 1 };
enum class Form : std::uint64_t { narrow = CRR_NARROW, wide = CRR_WIDE };

/* The sentence of a refusal's number; empty where no refusal has it. */
inline std::string refusal_text(std::uint64_t number) {
    std::uint8_t text[CRR_REFUSAL_TEXT_BYTES];
    std::size_t bytes = 0;
    crr_refusal_text(number, text, sizeof text, &bytes);
    return std::string(text, text + bytes);
}

/* Input that was turned down. No buffer that was lent has changed. */
class Refused : public std::runtime_error {
public:
    Refused(std::string function, std::uint64_t number)
        : std::runtime_error(function + ": refused, " + std::to_string(number) + ": " + refusal_text(number)),
          function_(std::move(function)), number_(number) {}
    const std::string &function() const noexcept { return function_; }
    std::uint64_t number() const noexcept { return number_; }

private:
    std::string function_;
    std::uint64_t number_;
};

/* Throws where a function of crr.h refused. */
inline void check(const char *function, std::uint64_t number) {
    if (number != CRR_OK) throw Refused(function, number);
}

/* Throws where the library that was loaded is of another interface than this header. */
inline void check_interface() {
    if (crr_interface() != CRR_INTERFACE)
        throw std::runtime_error("libcrr has interface " + std::to_string(crr_interface()) + ", and crr.h " +
                                 std::to_string(CRR_INTERFACE));
}

struct Grid {
    std::size_t nodes = 0, constraints = 0;
    std::vector<std::uint64_t> limits; /* one for each constraint */
    std::vector<std::int64_t> factors; /* of node n on constraint k: n * constraints + k */
    Form form = Form::narrow;
};

struct Contract {
    Kind kind = Kind::obligation;
    Period period = Period::off_peak;
    std::uint64_t holder = 0, source = 0, sink = 0, quantity = 0;
};

struct Prices {
    Period period = Period::off_peak;
    std::vector<std::uint64_t> prices; /* one for each constraint */
};

/* `set` has bit k for overloaded constraint k; the other figures are 0 on a pass. */
struct Verdict {
    std::uint64_t set = 0;
    std::size_t count = 0, lowest = 0;
    std::int64_t excess = 0;
    bool passed() const noexcept { return set == 0; }
};

/* Whole cents, rounded down, and parts of 10^-8 cents. */
struct ExactCents {
    std::int64_t whole = 0;
    std::uint64_t parts = 0;
};

struct Hour {
    std::vector<std::int64_t> cents;   /* one for each contract */
    std::vector<std::uint64_t> priced; /* the constraints that priced it */
    std::int64_t sum = 0;
    ExactCents exact;
};

struct Shortfall {
    ExactCents payment, rent, shortfall;
};

struct Exposure {
    ExactCents least, most;
    std::vector<std::uint64_t> prices; /* at which the least is reached */
};

struct Cut {
    std::uint64_t contract, cut;
};

namespace inner {
template <class Word> std::uint64_t number(Word word) { return static_cast<std::uint64_t>(word); }
} // namespace inner

inline Grid read_grid(Bytes file) {
    Grid grid;
    std::uint64_t form = 0;
    grid.limits.resize(CRR_MAX_CONSTRAINTS);
    grid.factors.resize(std::size_t(CRR_MAX_NODES) * CRR_MAX_CONSTRAINTS);
    check("crr_read_grid", crr_read_grid(file.data(), file.size(), grid.limits.data(), grid.limits.size(), grid.factors.data(),
                                         grid.factors.size(), &grid.nodes, &grid.constraints, &form));
    grid.limits.resize(grid.constraints);
    grid.factors.resize(grid.nodes * grid.constraints);
    grid.form = Form(form);
    return grid;
}

inline std::vector<std::uint8_t> write_grid(const Grid &grid) {
    std::vector<std::uint8_t> file(CRR_MAX_GRID_BYTES);
    std::size_t bytes = 0;
    check("crr_write_grid",
          crr_write_grid(inner::number(grid.form), grid.nodes, grid.constraints, grid.limits.data(), grid.limits.size(),
                         grid.factors.data(), grid.factors.size(), file.data(), file.size(), &bytes));
    file.resize(bytes);
    return file;
}

inline std::vector<Contract> read_book(std::size_t nodes, Bytes file) {
    std::vector<std::uint64_t> cells(std::size_t(6) * CRR_MAX_CONTRACTS);
    std::size_t contracts = 0;
    std::uint64_t form = 0;
    check("crr_read_book", crr_read_book(nodes, file.data(), file.size(), cells.data(), cells.size(), &contracts, &form));
    std::vector<Contract> book;
    for (const std::uint64_t *row = cells.data(); book.size() < contracts; row += 6)
        book.push_back({Kind(row[0]), Period(row[1]), row[2], row[3], row[4], row[5]});
    return book;
}

inline std::vector<std::uint8_t> write_book(std::size_t nodes, std::span<const Contract> book, Form form = Form::narrow) {
    std::vector<std::uint64_t> cells;
    for (const Contract &row : book)
        cells.insert(cells.end(), {inner::number(row.kind), inner::number(row.period), row.holder, row.source, row.sink, row.quantity});
    std::vector<std::uint8_t> file(CRR_MAX_BOOK_BYTES);
    std::size_t bytes = 0;
    check("crr_write_book", crr_write_book(inner::number(form), nodes, book.size(), cells.data(), cells.size(), file.data(),
                                           file.size(), &bytes));
    file.resize(bytes);
    return file;
}

inline Prices read_prices(std::size_t constraints, Bytes file) {
    Prices hour;
    std::uint64_t period = 0;
    hour.prices.resize(CRR_MAX_CONSTRAINTS);
    check("crr_read_prices", crr_read_prices(constraints, file.data(), file.size(), hour.prices.data(), hour.prices.size(), &period));
    hour.prices.resize(constraints);
    hour.period = Period(period);
    return hour;
}

inline Verdict test_book(const Grid &grid, Bytes book, Process process, Period period) {
    Verdict verdict;
    check("crr_test_book",
          crr_test_book(grid.nodes, grid.constraints, inner::number(process), inner::number(period), grid.limits.data(),
                        grid.limits.size(), grid.factors.data(), grid.factors.size(), book.data(), book.size(), &verdict.set,
                        &verdict.count, &verdict.lowest, &verdict.excess));
    return verdict;
}

/* The flow on each constraint, in 10^-8 MW. */
inline std::vector<std::int64_t> find_flows(const Grid &grid, Bytes book, Period period) {
    std::vector<std::int64_t> flows(grid.constraints);
    std::size_t counted = 0;
    check("crr_find_flows", crr_find_flows(grid.nodes, grid.constraints, inner::number(period), grid.limits.data(), grid.limits.size(),
                                           grid.factors.data(), grid.factors.size(), book.data(), book.size(), flows.data(),
                                           flows.size(), &counted));
    return flows;
}

inline std::vector<Cut> find_cuts(const Grid &grid, Bytes book, Process process, Period period) {
    std::vector<std::uint64_t> numbers(CRR_MAX_CONTRACTS), cuts(CRR_MAX_CONTRACTS);
    std::size_t listed = 0;
    check("crr_find_cuts",
          crr_find_cuts(grid.nodes, grid.constraints, inner::number(process), inner::number(period), grid.limits.data(),
                        grid.limits.size(), grid.factors.data(), grid.factors.size(), book.data(), book.size(), numbers.data(),
                        numbers.size(), cuts.data(), cuts.size(), &listed));
    std::vector<Cut> found;
    for (std::size_t i = 0; i < listed; i++) found.push_back({numbers[i], cuts[i]});
    return found;
}

/* The MCC of each node, in 10^-5 cents per MWh. */
inline std::vector<std::int64_t> find_mcc(const Grid &grid, Cells prices) {
    std::vector<std::int64_t> mcc(grid.nodes);
    check("crr_find_mcc", crr_find_mcc(grid.nodes, grid.constraints, grid.factors.data(), grid.factors.size(), prices.data(),
                                       prices.size(), mcc.data(), mcc.size()));
    return mcc;
}

inline Hour settle_hour(const Grid &grid, Bytes book, Period period, Cells prices) {
    const std::size_t contracts = read_book(grid.nodes, book).size();
    Hour hour;
    hour.cents.resize(contracts);
    hour.priced.resize(contracts);
    check("crr_settle_hour",
          crr_settle_hour(grid.nodes, grid.constraints, inner::number(period), grid.factors.data(), grid.factors.size(),
                          prices.data(), prices.size(), book.data(), book.size(), hour.cents.data(), hour.cents.size(),
                          hour.priced.data(), hour.priced.size(), &hour.sum, &hour.exact.whole, &hour.exact.parts));
    return hour;
}

inline Shortfall find_shortfall(const Grid &grid, Bytes book, Process process, Period period, Cells prices) {
    Shortfall cost;
    check("crr_find_shortfall",
          crr_find_shortfall(grid.nodes, grid.constraints, inner::number(process), inner::number(period), grid.limits.data(),
                             grid.limits.size(), grid.factors.data(), grid.factors.size(), prices.data(), prices.size(),
                             book.data(), book.size(), &cost.payment.whole, &cost.payment.parts, &cost.rent.whole,
                             &cost.rent.parts, &cost.shortfall.whole, &cost.shortfall.parts));
    return cost;
}

inline Exposure find_exposure(const Grid &grid, Bytes book, Process process, Period period) {
    Exposure worst;
    worst.prices.resize(grid.constraints);
    check("crr_find_exposure",
          crr_find_exposure(grid.nodes, grid.constraints, inner::number(process), inner::number(period), grid.limits.data(),
                            grid.limits.size(), grid.factors.data(), grid.factors.size(), book.data(), book.size(),
                            worst.prices.data(), worst.prices.size(), &worst.least.whole, &worst.least.parts, &worst.most.whole,
                            &worst.most.parts));
    return worst;
}

} // namespace crr

#endif
