/* Each request for memory of the library refused in turn, by functions of memory of the caller's own that count: each call
 * throws MSC_NO_MEMORY and has changed nothing, the same call is made again, and at the end all blocks are given back. */
#include <msc.hpp>

#include <cstdlib>
#include <iostream>

namespace {
long asked, refused, live, met;

msc_block block_of(void *at) { return {at != nullptr, at}; }

template <typename Call> auto again(Call call) {
    try {
        return call();
    } catch (const msc::error &error) {
        if (error.answer() != MSC_NO_MEMORY) throw;
        met++;
        return call();
    }
}
} // namespace

extern "C" {
msc_block rattle_alloc(std::size_t size, std::size_t align) {
    if (++asked == refused) return block_of(nullptr);
    live++;
    return block_of(std::malloc(size ? size : align));
}
msc_block rattle_realloc(void *at, std::size_t, std::size_t size, std::size_t align) {
    return ++asked == refused ? block_of(nullptr) : block_of(std::realloc(at, size ? size : align));
}
void rattle_dealloc(void *at) {
    live -= at != nullptr;
    std::free(at);
}
}

static void round_trip() {
    msc::message message;
    auto board = again([] { return msc::board(3, 4); });
    for (int i = 0; i < 3; i++) {
        again([&] { return board[1].send(3, "left", "0123456789abcdef"); });
        again([&] { return board[2].send(3, "right", "0123456789abcdef"); });
        again([&] { return board[3].any(message); });
        again([&] { return board[3].any(message); });
    }
    again([&] { return board[1].send_all(2, {{"item", "tea"}, {"waits", "0123456789abcdef"}}); });
    again([&] { board[1].reserve(64); });
    again([&] { board.meet(); });
    auto gathered = again([&] { return board.gather(); });
    again([&] { return gathered.text({"client", "server", "logger"}); });
    if (gathered.reports().size() != 6 || gathered.left().size() != 2) std::abort();
    auto next = again([&] { return gathered.carry_over(); });
    if (again([&] { return next.first[2].receive(1, message); }) != msc::taken::got || message.body != "tea") std::abort();
}

int main() {
    int failures = 0;
    round_trip();
    long all = asked;
    for (refused = 1; refused <= all; refused++) {
        asked = met = 0;
        round_trip();
        if (met == 1 && live == 0) continue;
        std::cout << "request " << refused << ": " << met << " calls reported it, " << live << " blocks are left\n";
        failures++;
    }
    std::cout << all << " requests\n";
    return failures != 0 || all == 0;
}
