// What the examples in C++ share: their files, arguments and errors, and the fields of a book and a sheet that were accepted.
#ifndef EXAMPLES_SHEETS_HPP
#define EXAMPLES_SHEETS_HPP

#include <cstddef>
#include <cstdint>
#include <cstdio>
#include <limits>
#include <optional>
#include <string>
#include <vector>

// One slot line of a sheet, in tenths of a kW, kvar and kVA.
struct Slot {
    std::uint64_t active;
    std::int64_t reactive;
    std::uint64_t limit;
};

inline std::optional<std::string> contents(const char *name)
{
    std::FILE *file = std::fopen(name, "rb");
    if (file == nullptr)
        return std::nullopt;
    std::string text;
    char part[4096];
    for (std::size_t got; (got = std::fread(part, 1, sizeof part, file)) > 0;)
        text.append(part, got);
    const bool failed = std::ferror(file) != 0;
    std::fclose(file);
    if (failed)
        return std::nullopt;
    return text;
}

// A string's data is never a null pointer, not even where the string is empty.
inline const std::uint8_t *bytes(const std::string &text)
{
    return reinterpret_cast<const std::uint8_t *>(text.data());
}

// The number in the hexadecimal digits of an accepted book or sheet.
inline std::uint64_t field(const std::string &text, std::size_t at, std::size_t digits)
{
    return std::stoull(text.substr(at, digits), nullptr, 16);
}

// Slot s, from 0, of a sheet for so many loads. The first line has 19 + 2N bytes, each slot line 23, both with their LF:
// 05, P (8), Q (8, two's complement of 32 bits), S (4).
inline Slot slot_on(const std::string &sheet, std::size_t loads, std::size_t s)
{
    const std::size_t at = 19 + 2 * loads + 23 * s;
    const auto q = static_cast<std::int64_t>(field(sheet, at + 10, 8));
    return {field(sheet, at + 2, 8), q < (1LL << 31) ? q : q - (1LL << 32), field(sheet, at + 18, 4)};
}

// A number of tenths, as "-12.3".
inline std::string tenths(std::int64_t x)
{
    const std::int64_t size = x < 0 ? -x : x;
    return (x < 0 ? "-" : "") + std::to_string(size / 10) + "." + std::to_string(size % 10);
}

// A whole number from 0 to `most`, in at most nine decimal digits, so that it fits.
inline std::optional<std::uint64_t> number_in(const std::string &text, std::uint64_t most)
{
    if (text.empty() || text.size() > 9 || text.find_first_not_of("0123456789") != std::string::npos)
        return std::nullopt;
    const std::uint64_t number = std::stoull(text);
    if (number > most)
        return std::nullopt;
    return number;
}

// An error of the program itself, as one line on standard error; the exit status.
inline int own_error(const char *program, const char *name, const char *what)
{
    std::fprintf(stderr, "%s: %s: %s\n", program, name, what);
    return 2;
}

// The arguments from `first` on, each a number that a T holds; none where one of them is not.
template <typename T>
std::optional<std::vector<T>> numbers_from(int first, int argc, char **argv)
{
    std::vector<T> numbers;
    for (int i = first; i < argc; i++) {
        const auto number = number_in(argv[i], std::numeric_limits<T>::max());
        if (!number)
            return std::nullopt;
        numbers.push_back(static_cast<T>(*number));
    }
    return numbers;
}

// The data of an empty vector may be a null pointer, which no call takes.
template <typename T>
const T *data_of(const std::vector<T> &numbers)
{
    static const T none = 0;
    return numbers.empty() ? &none : numbers.data();
}

// Reads the files and hands their texts to `use`, whose exit status it is.
template <typename Use>
int with_files(const char *program, const std::vector<const char *> &names, Use use)
{
    std::vector<std::string> texts;
    for (const char *name : names) {
        const auto text = contents(name);
        if (!text)
            return own_error(program, name, "cannot be read");
        texts.push_back(*text);
    }
    const int status = use(texts);
    if (std::ferror(stdout) != 0 || std::fflush(stdout) != 0)
        return own_error(program, "standard output", "cannot be written");
    return status;
}

#endif
