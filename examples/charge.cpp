// charge.cpp - the charge for the plan on a sheet.
//
//     charge BOOK SHEET [PRICE..]
//
// A PRICE for each slot, in hundredths of a unit of money per kWh, from 0 to 65535. Prints what each slot costs exactly, the
// sum, and the charge. Exit status: 0 a charge, 1 a refusal, 2 an error of this program.
#include <cstddef>
#include <cstdint>
#include <cstdio>
#include <string>
#include <vector>

#include "jadeshuttle.h"
#include "refusals.h"
#include "sheets.hpp"

namespace {

// x / 10^places, as "12.345".
std::string decimal(std::uint64_t x, std::size_t places)
{
    std::string digits = std::to_string(x);
    if (digits.size() <= places)
        digits.insert(0, places + 1 - digits.size(), '0');
    digits.insert(digits.size() - places, ".");
    return digits;
}

// A quarter hour has P / 40 kWh, and costs P * price / 40 hundredths: with 3 and 5 decimals both are exact.
void print_slot(std::size_t number, std::uint64_t active, std::uint64_t price)
{
    std::printf("%4zu %8s %9s %8s %16s\n", number, tenths(static_cast<std::int64_t>(active)).c_str(),
                decimal(25 * active, 3).c_str(), decimal(price, 2).c_str(), decimal(25 * active * price, 5).c_str());
}

int charge(const std::string &book, const std::string &sheet, const std::vector<std::uint16_t> &prices)
{
    const jadeshuttle_charge_answer answer =
        jadeshuttle_charge(bytes(book), book.size(), bytes(sheet), sheet.size(),
                           data_of(prices), prices.size());
    if (answer.number != JADESHUTTLE_SUCCESS) {
        print_refusal(answer.number, answer.line);
        return 1;
    }
    std::puts("slot       kW       kWh    price            exact");
    std::uint64_t sum = 0;  // in 40ths of a hundredth
    for (std::size_t s = 0; s < prices.size(); s++) {
        const std::uint64_t active = slot_on(sheet, field(book, 4, 2), s).active;
        print_slot(s + 1, active, prices[s]);
        sum += active * prices[s];
    }
    std::printf(" sum %44s\n", decimal(25 * sum, 5).c_str());
    std::printf("charge %s\n", decimal(answer.charge, 2).c_str());
    return 0;
}

}  // namespace

int main(int argc, char **argv)
{
    const auto prices = numbers_from<std::uint16_t>(3, argc, argv);
    if (argc < 3 || !prices) {
        std::fputs("usage: charge BOOK SHEET [PRICE..]\n", stderr);
        return 2;
    }
    return with_files("charge", {argv[1], argv[2]},
                      [&](const std::vector<std::string> &texts) { return charge(texts[0], texts[1], *prices); });
}
