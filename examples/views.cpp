// views.cpp - what the mill or the supply company sees of a sheet.
//
//     views mill|supply BOOK SHEET
//
// Prints the bytes of the view and no others. Exit status: 0 a view, 1 a refusal, 2 an error of this program.
#include <cstddef>
#include <cstdint>
#include <cstdio>
#include <string>
#include <vector>

#include "jadeshuttle.h"
#include "refusals.h"
#include "sheets.hpp"

namespace {

using Call = decltype(&jadeshuttle_mill_view);

// The call that writes this party's view; none where there is no such party.
Call call_for(const std::string &party)
{
    if (party == "mill")
        return jadeshuttle_mill_view;
    if (party == "supply")
        return jadeshuttle_supply_view;
    return nullptr;
}

int print_view(Call call, const std::string &book, const std::string &sheet)
{
    std::uint8_t view[JADESHUTTLE_VIEW_MAX];
    const jadeshuttle_answer answer = call(bytes(book), book.size(), bytes(sheet), sheet.size(), view, sizeof view);
    if (answer.number != JADESHUTTLE_SUCCESS) {
        print_refusal(answer.number, answer.line);
        return 1;
    }
    // What stands past the view is no part of it.
    std::fwrite(view, 1, static_cast<std::size_t>(answer.bytes), stdout);
    return 0;
}

}  // namespace

int main(int argc, char **argv)
{
    const Call call = argc == 4 ? call_for(argv[1]) : nullptr;
    if (call == nullptr) {
        std::fputs("usage: views mill|supply BOOK SHEET\n", stderr);
        return 2;
    }
    return with_files("views", {argv[2], argv[3]},
                      [&](const std::vector<std::string> &texts) { return print_view(call, texts[0], texts[1]); });
}
