// day.cpp - plans a day's books at once.
//
//     day [-l] BOOKS [WORDS [BYTES]]
//
// BOOKS has up to 32 books, with an empty line between each and the next. Lends so many WORDS of work area and BYTES of buffer,
// up to 4194304 and 5088; where they are not given, these, which suffice for every day. Prints the day's output. -l reads the
// output back, and prints a line for each book.
// Exit status: 0 an output, 1 a refusal of the whole day, 2 an error of this program.
#include <cstddef>
#include <cstdint>
#include <cstdio>
#include <optional>
#include <string>
#include <vector>

#include "jadeshuttle.h"
#include "refusals.h"
#include "sheets.hpp"

namespace {

// The output of each book. A line of kind 04 or FF begins one, and lines of kind 05 belong to the sheet that was begun.
std::vector<std::string> by_book(const std::string &output)
{
    std::vector<std::string> parts;
    for (std::size_t at = 0, end; at < output.size(); at = end) {
        end = output.find('\n', at) + 1;
        if (field(output, at, 2) != 0x05)
            parts.emplace_back();
        parts.back().append(output, at, end - at);
    }
    return parts;
}

// One line: the worth and trials on a sheet and its length, or number and line of a refusal.
void print_book(std::size_t number, const std::string &part)
{
    std::printf("book %zu: ", number);
    if (field(part, 0, 2) == 0xFF)
        write_refusal(stdout, field(part, 2, 2), field(part, 4, 4));
    else
        std::printf("worth %s, trials %s, %zu bytes\n", std::to_string(field(part, 2, 8)).c_str(),
                    std::to_string(field(part, 10, 8)).c_str(), part.size());
}

int day(bool listed, const std::string &books, std::size_t words, std::size_t room)
{
    std::vector<std::uint64_t> work(JADESHUTTLE_WORK_MAX);
    std::vector<std::uint8_t> out(JADESHUTTLE_DAY_MAX);
    const jadeshuttle_answer answer =
        jadeshuttle_day(bytes(books), books.size(), work.data(), words, out.data(), room);
    if (answer.number != JADESHUTTLE_SUCCESS) {
        print_refusal(answer.number, answer.line);
        return 1;
    }
    const std::string output(out.begin(), out.begin() + static_cast<std::ptrdiff_t>(answer.bytes));
    if (!listed) {
        std::fwrite(output.data(), 1, output.size(), stdout);
        return 0;
    }
    const std::vector<std::string> parts = by_book(output);
    for (std::size_t i = 0; i < parts.size(); i++)
        print_book(i + 1, parts[i]);
    return 0;
}

// The number at this place among the arguments, up to `most`, which it is where none stands there.
std::optional<std::uint64_t> number_at(int place, int argc, char **argv, std::uint64_t most)
{
    return place < argc ? number_in(argv[place], most) : most;
}

}  // namespace

int main(int argc, char **argv)
{
    const bool listed = argc > 1 && std::string(argv[1]) == "-l";
    const int first = listed ? 2 : 1;
    const auto words = number_at(first + 1, argc, argv, JADESHUTTLE_WORK_MAX);
    const auto room = number_at(first + 2, argc, argv, JADESHUTTLE_DAY_MAX);
    if (argc <= first || argc > first + 3 || !words || !room) {
        std::fputs("usage: day [-l] BOOKS [WORDS [BYTES]]\n", stderr);
        return 2;
    }
    return with_files("day", {argv[first]},
                      [&](const std::vector<std::string> &texts) { return day(listed, texts[0], *words, *room); });
}
