// pool.cpp - pools the books of two mills on one transformer, and parts a joint sheet by mill.
//
//     pool FIRST SECOND [BYTES]
//     pool -1 FIRST SECOND SHEET
//     pool -2 FIRST SECOND SHEET
//
// Prints the pooled book. Lends BYTES bytes of buffer, at most 3515; without BYTES, 3515, which suffice for every book.
// With -1 or -2, SHEET is a sheet of the pooled book, and what it has the first or the second mill do is printed as a
// sheet of that mill's own book, with the trials of SHEET.
// Exit status: 0 a book or a sheet, 1 a refusal, 2 an error of this program.
#include <cstddef>
#include <cstdint>
#include <cstdio>
#include <optional>
#include <string>
#include <vector>

#include "jadeshuttle.h"
#include "refusals.h"
#include "sheets.hpp"

namespace {

// The pooled book; none where it is refused, which is printed.
std::optional<std::string> pooled(const std::string &first, const std::string &second, std::size_t room)
{
    std::uint8_t book[JADESHUTTLE_BOOK_MAX];
    const jadeshuttle_answer answer =
        jadeshuttle_pool(bytes(first), first.size(), bytes(second), second.size(), book, room);
    if (answer.number != JADESHUTTLE_SUCCESS) {
        print_refusal(answer.number, answer.line);
        return std::nullopt;
    }
    return std::string(book, book + answer.bytes);
}

int print_pooled(const std::string &first, const std::string &second, std::size_t room)
{
    const auto book = pooled(first, second, room);
    if (!book)
        return 1;
    std::fwrite(book->data(), 1, book->size(), stdout);
    return 0;
}

// What the loads of a mill are worth and draw.
struct Sums {
    std::uint64_t worth;
    std::vector<Slot> slots;
};

// Adds a load at this level, or standing. Its line begins at `at` in an accepted book: kind, o, on a 06 line the standing
// pairs, then for each level a worth and the pairs.
void add_load(Sums &sums, const std::string &book, std::size_t at, std::size_t level)
{
    const std::size_t pairs = 8 * sums.slots.size();
    const bool draws_standing = field(book, at, 2) == 0x06;
    if (level == 0 && !draws_standing)
        return;
    std::size_t place = at + 4;
    if (level != 0) {
        place += (draws_standing ? pairs : 0) + (level - 1) * (4 + pairs);
        sums.worth += field(book, place, 4);
        place += 4;
    }
    for (Slot &slot : sums.slots) {
        const auto q = static_cast<std::int64_t>(field(book, place + 4, 4));
        slot.active += field(book, place, 4);
        slot.reactive += q < 0x8000 ? q : q - 0x10000;
        place += 8;
    }
}

// The slots of an accepted book with their limits, and nothing drawn. The limits are the last digits of the header.
Sums nothing(const std::string &book)
{
    const std::size_t slots = field(book, 2, 2), first = book.find('\n') - 4 * slots;
    Sums sums{0, {}};
    for (std::size_t s = 0; s < slots; s++)
        sums.slots.push_back({0, 0, field(book, first + 4 * s, 4)});
    return sums;
}

// The last so many hexadecimal digits of a number, in two's complement.
std::string hex(std::uint64_t number, std::size_t digits)
{
    std::string text;
    for (std::size_t i = digits; i-- > 0;)
        text += "0123456789ABCDEF"[number >> 4 * i & 15];
    return text;
}

// The sheet of this book with these trials and levels (2 digits for each load).
std::string sheet_of(const std::string &book, std::uint64_t trials, const std::string &levels)
{
    Sums sums = nothing(book);
    std::size_t at = 0;
    for (std::size_t k = 0; k < levels.size(); k += 2) {
        at = book.find('\n', at) + 1;
        add_load(sums, book, at, field(levels, k, 2));
    }
    std::string sheet = "04" + hex(sums.worth, 8) + hex(trials, 8) + levels + "\n";
    for (const Slot &slot : sums.slots) {
        const auto q = static_cast<std::uint64_t>(slot.reactive);
        sheet += "05" + hex(slot.active, 8) + hex(q, 8) + hex(slot.limit, 4) + "\n";
    }
    return sheet;
}

// Whether the sheet belongs to the book; if not, the refusal is printed.
bool accepted(const std::string &book, const std::string &sheet)
{
    const jadeshuttle_reading reading = jadeshuttle_read_sheet(bytes(book), book.size(), bytes(sheet), sheet.size());
    if (reading.number != JADESHUTTLE_SUCCESS)
        print_refusal(reading.number, reading.line);
    return reading.number == JADESHUTTLE_SUCCESS;
}

// The joint sheet has the levels of the first mill's loads, and then those of the second's.
int print_part(bool of_second, const std::string &first, const std::string &second, const std::string &sheet)
{
    const auto book = pooled(first, second, JADESHUTTLE_BOOK_MAX);
    if (!book || !accepted(*book, sheet))
        return 1;
    const std::string &own = of_second ? second : first;
    const std::size_t at = of_second ? 18 + 2 * field(first, 4, 2) : 18;
    const std::string part = sheet_of(own, field(sheet, 10, 8), sheet.substr(at, 2 * field(own, 4, 2)));
    if (!accepted(own, part))
        return own_error("pool", "the mill's sheet", "is not one of its book");
    std::fwrite(part.data(), 1, part.size(), stdout);
    return 0;
}

}  // namespace

int main(int argc, char **argv)
{
    const std::string word = argc > 1 ? argv[1] : "";
    if (argc == 5 && (word == "-1" || word == "-2"))
        return with_files("pool", {argv[2], argv[3], argv[4]}, [&](const std::vector<std::string> &texts) {
            return print_part(word == "-2", texts[0], texts[1], texts[2]);
        });
    const auto room = number_in(argc == 4 ? argv[3] : std::to_string(JADESHUTTLE_BOOK_MAX), JADESHUTTLE_BOOK_MAX);
    if (argc < 3 || argc > 4 || !room) {
        std::fputs("usage: pool FIRST SECOND [BYTES] | pool -1|-2 FIRST SECOND SHEET\n", stderr);
        return 2;
    }
    return with_files("pool", {argv[1], argv[2]}, [&](const std::vector<std::string> &texts) {
        return print_pooled(texts[0], texts[1], *room);
    });
}
