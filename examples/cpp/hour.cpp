/*
 * What examples/c/hour.c does, by crr.hpp: tests the book of a folder against its grid, monthly, and
 * settles its hour.
 *
 * Started in that folder, with no arguments: it reads grid.bin, book.bin and prices.bin.
 * Made by g++ -std=c++20 -I include -o hour examples/cpp/hour.cpp dist/x86-64-linux/libcrr.a
 */
#include <exception>
#include <fstream>
#include <iostream>
#include <iterator>
#include "crr.hpp"

static std::vector<std::uint8_t> load(const char *name) {
    std::ifstream file(name, std::ios::binary);
    return {std::istreambuf_iterator<char>(file), {}};
}

static int settle() {
    crr::check_interface();
    const std::vector<std::uint8_t> book = load("book.bin");
    const crr::Grid grid = crr::read_grid(load("grid.bin"));
    const crr::Prices hour = crr::read_prices(grid.constraints, load("prices.bin"));
    const crr::Verdict verdict = crr::test_book(grid, book, crr::Process::monthly, hour.period);
    if (verdict.passed())
        std::cout << "pass\n";
    else
        std::cout << "fail: " << verdict.count << " overloaded, constraint " << verdict.lowest << " by " << verdict.excess << "\n";
    const crr::Hour settled = crr::settle_hour(grid, book, hour.period, hour.prices);
    std::cout << "sum " << settled.sum << ", exact " << settled.exact.whole << " cents and " << settled.exact.parts << " parts\n";
    return 0;
}

int main(int words, char **word) {
    if (words != 1) {
        std::cerr << "usage: " << word[0] << ", in a folder with grid.bin, book.bin and prices.bin\n";
        return 2;
    }
    try {
        return settle();
    } catch (const std::exception &problem) {
        std::cerr << problem.what() << "\n";
        return 1;
    }
}
