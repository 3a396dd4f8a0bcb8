// order.cpp - in which order the loads start that the new sheet has running and the running sheet has not.
//
//     order BOOK RUNNING NEW [NAME..]
//
// RUNNING and NEW are sheets of BOOK. A NAME for each load: the number of a load that has to run ahead of it, or 0. Prints the
// loads in order, and how many start and stop. Exit status: 0 an order, 1 a refusal, 2 an error of this program.
#include <cstddef>
#include <cstdint>
#include <cstdio>
#include <string>
#include <vector>

#include "jadeshuttle.h"
#include "refusals.h"
#include "sheets.hpp"

namespace {

int order(const std::string &book, const std::string &running, const std::string &planned,
          const std::vector<std::uint8_t> &names)
{
    std::uint8_t loads[JADESHUTTLE_ORDER_MAX];
    const jadeshuttle_order_answer answer =
        jadeshuttle_order(bytes(book), book.size(), bytes(running), running.size(), bytes(planned), planned.size(),
                          data_of(names), names.size(), loads, sizeof loads);
    if (answer.number != JADESHUTTLE_SUCCESS) {
        print_refusal(answer.number, answer.line);
        return 1;
    }
    for (std::size_t i = 0; i < answer.bytes; i++) {
        const std::size_t load = loads[i];
        if (names[load - 1] == 0)
            std::printf("start load %zu\n", load);
        else
            std::printf("start load %zu, after load %d\n", load, names[load - 1]);
    }
    std::printf("%d start, %d stop\n", static_cast<int>(answer.starts), static_cast<int>(answer.stops));
    return 0;
}

}  // namespace

int main(int argc, char **argv)
{
    const auto names = numbers_from<std::uint8_t>(4, argc, argv);
    if (argc < 4 || !names) {
        std::fputs("usage: order BOOK RUNNING NEW [NAME..]\n", stderr);
        return 2;
    }
    return with_files("order", {argv[1], argv[2], argv[3]}, [&](const std::vector<std::string> &texts) {
        return order(texts[0], texts[1], texts[2], *names);
    });
}
