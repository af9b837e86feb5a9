// A few calls of baker.h from C++: a piece written, read back and asked about. It prints nothing but what is wrong.
#include "baker.h"

#include <array>
#include <cstdint>
#include <cstdio>
#include <stdexcept>
#include <string>
#include <vector>

static std::uint32_t value(std::uint64_t answer)
{
    if (BAKER_REFUSED(answer)) throw std::runtime_error("refused " + std::to_string(BAKER_NUMBER(answer)));
    return BAKER_VALUE(answer);
}

static void same(std::uint32_t got, std::uint32_t due)
{
    if (got != due) throw std::runtime_error(std::to_string(got) + ", not " + std::to_string(due));
}

static void ask_twice()
{
    const std::vector<std::int32_t> q = {0, 0, 64, 0, 64, 64, 0, 64};
    std::vector<std::uint8_t> book(BAKER_MOST_SLOTS * BAKER_BLOCK_SIZE, 0);
    for (bool before : {false, true}) {
        const std::uint64_t answer = baker_ask(book.data(), book.size(), -64, 32, 16, 3, 0, 0, 22, 0, 32, 0, 0, 0,
                                               q.data(), q.size());
        same(value(answer), 5461);
        same(BAKER_REMEMBERED(answer), before);
    }
}

static void there_and_back()
{
    const std::vector<std::int32_t> u = {0, 0, 96, 0, 96, 96, 64, 96, 64, 32, 32, 32, 32, 96, 0, 96};
    std::array<std::uint8_t, BAKER_BLOCK_SIZE> block;
    std::array<std::int32_t, BAKER_PIECE_NUMBERS> numbers;
    value(baker_write_piece(0, 32, 0, 0, 0, u.data(), u.size(), block.data(), block.size()));
    const std::uint32_t corners = value(baker_read_piece(block.data(), block.size(), numbers.data(), numbers.size()));
    same(corners, 8);
    same(value(baker_place(48, 64, numbers.data() + 5, 2 * corners)), BAKER_OUTSIDE);
    same(value(baker_place(48, 16, numbers.data() + 5, 2 * corners)), BAKER_INSIDE);
    same(value(baker_verdict(48, 200, 16, 0, -8, 0, 21, 0, 32, 0, 0, 0, u.data(), u.size())), 5376);
    same(value(baker_verdict(48, 200, 16, 0, -8, 0, 20, 0, 32, 0, 0, 0, u.data(), u.size())), BAKER_CLEAR);
    same(BAKER_NUMBER(baker_check_piece(33, 32, 0, 0, 0, u.data(), u.size())), BAKER_REFUSAL_REACH);
}

int main()
{
    try {
        ask_twice();
        there_and_back();
    } catch (const std::exception &wrong) {
        std::fprintf(stderr, "answers.cpp: %s\n", wrong.what());
        return 1;
    }
    return 0;
}
