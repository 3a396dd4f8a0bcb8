// check.cpp - reads a sheet for its book, and says in which slots a relay would hold.
//
//     check BOOK SHEET [PERCENT]
//
// The relay is set at PERCENT of each slot's limit, from 1 to 1000; 100 where it is not given. Apparent power and share are
// rounded up.
// Exit status: 0 the relay holds in every slot, 1 a refusal, 2 an error of this program, 3 the relay trips in some slot.
#include <cstddef>
#include <cstdint>
#include <cstdio>
#include <string>
#include <vector>

#include "jadeshuttle.h"
#include "refusals.h"
#include "sheets.hpp"

namespace {

std::uint64_t apparent_squared(const Slot &slot)
{
    return slot.active * slot.active + static_cast<std::uint64_t>(slot.reactive * slot.reactive);
}

// The smallest number whose square is at least x; x is below 2^63.
std::uint64_t root_up(std::uint64_t x)
{
    std::uint64_t low = 0, high = std::uint64_t{1} << 32;
    while (low < high) {
        const std::uint64_t middle = (low + high) / 2;
        if (middle * middle < x)
            low = middle + 1;
        else
            high = middle;
    }
    return low;
}

// Whether the apparent power is at most so many percent of the limit, in whole numbers.
bool holds(const Slot &slot, std::uint64_t percent)
{
    return 10'000 * apparent_squared(slot) <= percent * percent * slot.limit * slot.limit;
}

// The apparent power in percent of the limit; none for the limit 0.
std::string share(const Slot &slot)
{
    const std::uint64_t limit_squared = slot.limit * slot.limit;
    if (limit_squared == 0)
        return "-";
    const std::uint64_t ratio = (1'000'000 * apparent_squared(slot) + limit_squared - 1) / limit_squared;
    return tenths(static_cast<std::int64_t>(root_up(ratio)));
}

void print_slot(std::size_t number, const Slot &slot, bool held)
{
    const auto apparent = static_cast<std::int64_t>(root_up(apparent_squared(slot)));
    std::printf("%4zu %8s %8s %8s %8s %8s  %s\n", number, tenths(static_cast<std::int64_t>(slot.active)).c_str(),
                tenths(slot.reactive).c_str(), tenths(apparent).c_str(),
                tenths(static_cast<std::int64_t>(slot.limit)).c_str(), share(slot).c_str(), held ? "holds" : "trips");
}

// Prints the level of each load, from the code of the choice.
void print_loads(std::uint64_t code, std::size_t loads)
{
    for (std::size_t k = 1; k <= loads; k++) {
        const auto level = static_cast<int>((code >> 2 * (k - 1)) & 3);
        if (level == 0)
            std::printf("load %zu stands\n", k);
        else
            std::printf("load %zu runs at level %d\n", k, level);
    }
}

// Prints the slots of an accepted sheet. Whether the relay holds in all of them.
bool print_slots(const std::string &sheet, std::size_t slots, std::size_t loads, std::uint64_t percent)
{
    bool all = true;
    std::printf("slot       kW     kvar      kVA    limit        %%  relay at %d %%\n", static_cast<int>(percent));
    for (std::size_t s = 0; s < slots; s++) {
        const Slot slot = slot_on(sheet, loads, s);
        const bool held = holds(slot, percent);
        print_slot(s + 1, slot, held);
        all = all && held;
    }
    return all;
}

int check(const std::string &book, const std::string &sheet, std::uint64_t percent)
{
    const jadeshuttle_reading reading = jadeshuttle_read_sheet(bytes(book), book.size(), bytes(sheet), sheet.size());
    if (reading.number != JADESHUTTLE_SUCCESS) {
        print_refusal(reading.number, reading.line);
        return 1;
    }
    const std::size_t slots = field(book, 2, 2);
    const std::size_t loads = field(book, 4, 2);
    std::printf("worth %s, trials %s\n", std::to_string(reading.worth).c_str(), std::to_string(reading.trials).c_str());
    print_loads(reading.code, loads);
    return print_slots(sheet, slots, loads, percent) ? 0 : 3;
}

}  // namespace

int main(int argc, char **argv)
{
    const auto percent = number_in(argc == 4 ? argv[3] : "100", 1000);
    if (argc < 3 || argc > 4 || !percent || *percent == 0) {
        std::fputs("usage: check BOOK SHEET [PERCENT]\n", stderr);
        return 2;
    }
    return with_files("check", {argv[1], argv[2]},
                      [&](const std::vector<std::string> &texts) { return check(texts[0], texts[1], *percent); });
}
