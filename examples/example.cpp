// The report index from C++: frames are built from terms, and the memory is owned by vectors.
//
//     c++ -std=c++17 -I include examples/example.cpp target/staticlib/libindex.a -o example && ./example
#include <cstdint>
#include <iostream>
#include <string>
#include <utility>
#include <vector>

#include "report_index.h"

namespace {

using Frame = std::vector<std::uint8_t>;

void put_word(Frame &frame, std::uint32_t n)
{
    for (int shift = 24; shift >= 0; shift -= 8)
        frame.push_back(static_cast<std::uint8_t>(n >> shift));
}

void put_term(Frame &frame, const std::string &term)
{
    frame.push_back(static_cast<std::uint8_t>(term.size()));
    frame.insert(frame.end(), term.begin(), term.end());
}

// Version, length of the body, body. A term or a body that is too long is refused by the library.
Frame framed(const Frame &body)
{
    Frame frame{1, static_cast<std::uint8_t>(body.size() >> 8), static_cast<std::uint8_t>(body.size())};
    frame.insert(frame.end(), body.begin(), body.end());
    return frame;
}

Frame report(const std::vector<std::pair<std::string, std::uint32_t>> &lines)
{
    Frame body{1};
    for (const auto &[term, count] : lines) {
        put_term(body, term);
        put_word(body, count);
    }
    return framed(body);
}

Frame query(std::uint8_t kind, std::uint32_t start, const std::vector<std::string> &terms)
{
    Frame body{kind};
    put_word(body, start);
    for (const auto &term : terms)
        put_term(body, term);
    return framed(body);
}

class Index {
public:
    Index(std::size_t blocks, std::size_t entries) : arena(blocks * 64), table(entries)
    {
        report_index_start(table.data(), table.size(), &counters);
    }

    void take(const Frame &frame)
    {
        const auto answer = report_index_report(arena.data(), arena.size(), table.data(), table.size(), &counters, frame.data(), frame.size());
        if (answer.refusal == REPORT_INDEX_DONE)
            std::cout << "report " << answer.number << '\n';
        else
            std::cout << "refused " << int{answer.refusal} << '\n';
    }

    void find_one(const std::string &term) const
    {
        const Frame frame = query(2, 0, {term});
        std::vector<std::uint32_t> numbers(16), counts(16);
        const auto answer = report_index_list_one(arena.data(), arena.size(), table.data(), table.size(), &counters, frame.data(), frame.size(),
            numbers.data(), numbers.size(), counts.data(), counts.size());
        std::cout << "found";
        for (std::uint32_t i = 0; i < answer.filled; ++i)
            std::cout << ' ' << numbers[i] << ':' << counts[i];
        std::cout << (answer.more ? " +\n" : "\n");
    }

    void find_all(const std::vector<std::string> &terms) const
    {
        const Frame frame = query(3, 0, terms);
        std::vector<std::uint32_t> numbers(16);
        const auto answer = report_index_list_all(arena.data(), arena.size(), table.data(), table.size(), &counters, frame.data(), frame.size(),
            numbers.data(), numbers.size());
        std::cout << "found";
        for (std::uint32_t i = 0; i < answer.filled; ++i)
            std::cout << ' ' << numbers[i];
        std::cout << (answer.more ? " +\n" : "\n");
    }

private:
    std::vector<std::uint8_t> arena;
    std::vector<std::uint32_t> table;
    report_index_counters counters{};
};

} // namespace

int main()
{
    Index index(1000, 512);
    index.take(report({{"zn", 3}, {"P17", 1}}));
    index.take(report({{"zn", 4}}));
    index.find_one("zn");
    index.find_all({"zn", "p17"});
    index.take(report({{"z n", 1}}));
}
