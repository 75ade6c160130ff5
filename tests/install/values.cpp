// crr.hpp on case L, whose figures are known: every function of it, and what a refusal throws.
#undef NDEBUG
#include <cassert>
#include <fstream>
#include <iostream>
#include <iterator>
#include "crr.hpp"

static std::vector<std::uint8_t> load(const char *name) {
    std::ifstream file(name, std::ios::binary);
    return {std::istreambuf_iterator<char>(file), {}};
}

int main() {
    crr::check_interface();
    const std::vector<std::uint8_t> file = load("book.bin");
    const crr::Grid grid = crr::read_grid(load("grid.bin"));
    assert(grid.nodes == 3 && grid.constraints == 2 && grid.limits == (std::vector<std::uint64_t>{100000, 50000}));
    assert(crr::write_grid(grid) == load("grid.bin"));
    const std::vector<crr::Contract> book = crr::read_book(grid.nodes, file);
    assert(crr::write_book(grid.nodes, book) == file);
    const crr::Prices hour = crr::read_prices(grid.constraints, load("prices.bin"));
    assert(hour.period == crr::Period::on_peak && hour.prices == (std::vector<std::uint64_t>{1000, 2550}));
    assert(crr::find_mcc(grid, hour.prices) == (std::vector<std::int64_t>{-9000000, 0, -92000000}));
    const crr::Hour settled = crr::settle_hour(grid, file, hour.period, hour.prices);
    assert(settled.sum == 899 && settled.exact.whole == 899 && settled.exact.parts == 17000000);
    assert(settled.cents.size() == book.size() && settled.priced.size() == book.size());
    assert(crr::test_book(grid, file, crr::Process::monthly, hour.period).passed());
    assert(crr::find_cuts(grid, file, crr::Process::monthly, hour.period).empty());

    // The same book at a limit of 0 on the first constraint fails there.
    crr::Grid tight = grid;
    tight.limits[0] = 0;
    const crr::Verdict verdict = crr::test_book(tight, file, crr::Process::monthly, hour.period);
    const std::vector<std::int64_t> flows = crr::find_flows(tight, file, hour.period);
    assert(!verdict.passed() && verdict.lowest == 0 && verdict.excess == flows[0] && flows[0] > 0);
    const crr::Exposure worst = crr::find_exposure(tight, file, crr::Process::monthly, hour.period);
    const crr::Shortfall cost = crr::find_shortfall(tight, file, crr::Process::monthly, hour.period, worst.prices);
    assert(cost.shortfall.whole == worst.least.whole && cost.shortfall.parts == worst.least.parts && worst.least.whole > 0);

    try {
        crr::read_grid({});
        assert(false);
    } catch (const crr::Refused &refused) {
        assert(refused.number() == CRR_SHORT_FILE && refused.function() == "crr_read_grid");
        assert(std::string(refused.what()).find("a file of fewer bytes than its header") != std::string::npos);
    }
    std::cout << "crr.hpp " CRR_VERSION " answers\n";
}
