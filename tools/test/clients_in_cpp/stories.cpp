/* The stories of the bindings of all languages, in C++: each answer by its value, and each mistake by its number. */
#include <msc.hpp>

#include <atomic>
#include <cstdlib>
#include <iostream>
#include <thread>

namespace {

int failures;

template <typename A, typename B> void is(const char *what, const A &answer, const B &wanted) {
    if (answer == wanted) return;
    std::cout << what << '\n';
    failures++;
}

/* What a call is refused with, 0 where it isn't. */
template <typename Call> int refused(Call call) {
    try {
        call();
        return 0;
    } catch (const msc::error &error) {
        return error.answer();
    }
}

using races = std::vector<std::uint32_t>;

void a_race_is_reported() {
    msc::board board(3, 4);
    msc::message message;
    is("a send", board[1].send(3, "order", "tea").value_or(0), 1u);
    is("a send", board[2].send(3, "question").value_or(0), 1u);
    is("the first", board[3].any(message), msc::taken::got);
    is("its body", message.body, "tea");
    is("its races", message.races, races{});
    is("the second", board[3].any(message), msc::taken::got);
    is("its sender", message.from, 2u);
    is("its name", message.name, "question");
    is("its race", message.races, races{1});
    is("the earlier message", board[3].event(message.races.at(0))->name, "order");
    is("no third", board[3].any(message), msc::taken::nothing);
    is("the message stays", message.name, "question");
}

void messages_cross() {
    msc::board board(2, 1);
    msc::message message;
    is("a send", board[1].send(2, "cancel").has_value(), true);
    is("a send", board[2].send(1, "question").has_value(), true);
    is("a receive", board[1].receive(2, message), msc::taken::got);
    is("its race", message.races, races{1});
    is("a receive", board[2].receive(1, message), msc::taken::got);
    is("its race", message.races, races{1});
    auto events = board[1].events();
    is("two events", events.size(), 2u);
    is("a send", events.at(0).receives, false);
    is("a receive", events.at(1).receives, true);
    is("no third", board[1].event(3).has_value(), false);
}

void several_at_once() {
    msc::board board(2, 4);
    std::vector<msc::message> messages;
    is("none", board[2].receive_up_to(1, 4, messages), msc::taken::nothing);
    is("three sends", board[1].send_all(2, {{"a", "1"}, {"b", "22"}, {"c", ""}}).value_or(0), 1u);
    is("two of them", board[2].receive_up_to(1, 2, messages), msc::taken::got);
    is("two of them", messages.size(), 2u);
    is("the first", messages.at(0).name + messages.at(0).body, "a1");
    is("the second", messages.at(1).name + messages.at(1).body, "b22");
    is("its event", messages.at(1).event, 2u);
    board[1].close(2);
    is("the third", board[2].receive_up_to(1, SIZE_MAX, messages), msc::taken::got);
    is("the third", messages.size(), 1u);
    is("the end", board[2].receive_up_to(1, 2, messages), msc::taken::ended);
    is("none at most", refused([&] { (void)board[2].receive_up_to(1, 0, messages); }), MSC_MISUSE);
    is("from itself", refused([&] { (void)board[2].receive_up_to(2, 1, messages); }), MSC_TO_ITSELF);
}

void a_full_lane() {
    msc::board board(2, 1);
    msc::message message;
    is("a send", board[1].send(2, "first").has_value(), true);
    is("a full lane", board[1].send(2, "second").has_value(), false);
    is("too many", refused([&] { (void)board[1].send_all(2, {{"a", "1"}, {"b", "2"}}); }), MSC_TOO_MANY);
    is("a receive", board[2].receive(1, message), msc::taken::got);
    is("a send again", board[1].send(2, "second").value_or(0), 2u);
}

void a_closed_lane() {
    msc::board board(3, 2);
    msc::message message;
    is("a send", board[1].send(2, "last").has_value(), true);
    board[1].close(2);
    is("a second close", refused([&] { board[1].close(2); }), MSC_CLOSED);
    is("a send after it", refused([&] { (void)board[1].send(2, "more"); }), MSC_CLOSED);
    is("a receive", board[2].receive(1, message), msc::taken::got);
    is("the end", board[2].receive(1, message), msc::taken::ended);
    is("any while one is open", board[2].any(message), msc::taken::nothing);
    board[3].close(2);
    is("any at the end", board[2].any(message), msc::taken::ended);
}

const char *const chart = "msc run;\n"
                          "instance client;\n"
                          "out order to server;\n"
                          "out more to server;\n"
                          "endinstance;\n"
                          "instance server;\n"
                          "out hello to client;\n"
                          "in order from client;\n"
                          "endinstance;\n"
                          "instance logger;\n"
                          "endinstance;\n"
                          "endmsc;\n";

/* Two messages to the server, of which one is received, and one that waits. */
msc::board whole_board() {
    msc::board board(3, 4);
    msc::message message;
    is("a send", board[2].send(1, "hello", "h").has_value(), true);
    is("two sends", board[1].send_all(2, {{"order", "tea"}, {"more", "milk"}}).value_or(0), 1u);
    is("a receive", board[2].receive(1, message), msc::taken::got);
    board.meet();
    return board;
}

void a_gathered_board() {
    msc::board board = whole_board();
    msc::gathered gathered = board.gather();
    is("gathered twice", refused([&] { board.gather(); }), MSC_MISUSE);
    is("its text", gathered.text({"client", "server", "logger"}), chart);
    is("two names for three", refused([&] { gathered.text({"client", "server"}); }), MSC_MISUSE);
    is("no names", refused([&] { gathered.text({}); }), MSC_MISUSE);
    is("one name for two", refused([&] { gathered.text({"client", "server", "client"}); }), MSC_NAME_TWICE);
    auto reports = gathered.reports();
    is("a report", reports.size(), 1u);
    is("of the server", reports.at(0).instance, 2u);
    is("its receive", reports.at(0).event, 2u);
    is("its races", reports.at(0).races, races{1});
    auto left = gathered.left();
    is("two wait", left.size(), 2u);
    is("more", left.at(0).name + " " + left.at(0).body, "more milk");
    is("hello", left.at(1).name + " " + left.at(1).body, "hello h");
    msc::gathered other = std::move(gathered);
    is("moved", other.reports().size(), 1u);
    is("nothing is there", gathered.reports().size(), 0u);
}

void a_board_after_a_board() {
    msc::board board = whole_board();
    msc::message message;
    board[2].close(3);
    msc::gathered gathered = board.gather();
    is("fewer slots", refused([&] { gathered.carry_over(3); }), MSC_MISUSE);
    auto [next, carried] = gathered.carry_over();
    is("the sends", carried, (std::vector<std::size_t>{1, 1, 0}));
    is("nothing is left", gathered.left().size(), 0u);
    board = std::move(next);
    is("a receive", board[1].receive(2, message), msc::taken::got);
    is("its body", message.body, "h");
    is("a receive", board[2].receive(1, message), msc::taken::got);
    is("its body", message.body, "milk");
    is("the closed lane", board[3].receive(2, message), msc::taken::ended);
    is("the closed lane", refused([&] { (void)board[2].send(3, "m"); }), MSC_CLOSED);
}

void mistakes() {
    is("a board of one", refused([] { msc::board(1, 1); }), MSC_BAD_SIZE);
    is("a board of none", refused([] { msc::board(0, 1); }), MSC_BAD_SIZE);
    is("a board of 33", refused([] { msc::board(33, 1); }), MSC_BAD_SIZE);
    is("lanes of no slot", refused([] { msc::board(2, 0); }), MSC_BAD_CAPACITY);
    msc::board board(2, 1);
    auto send = [&](std::uint32_t to, std::string_view name, std::string_view body) {
        return refused([&] { (void)board[1].send(to, name, body); });
    };
    is("to 0", send(0, "m", ""), MSC_NO_SUCH_INSTANCE);
    is("to itself", send(1, "m", ""), MSC_TO_ITSELF);
    is("no name", send(2, "", ""), MSC_NAME_EMPTY);
    is("a name of 33", send(2, "a23456789012345678901234567890123", ""), MSC_NAME_TOO_LONG);
    is("a bad byte", send(2, std::string_view("a\0b", 3), ""), MSC_NAME_BAD_BYTE);
    is("a word of the text", send(2, "in", ""), MSC_NAME_RESERVED);
    is("a long body", send(2, "m", std::string(4097, 'b')), MSC_BODY_TOO_LONG);
    is("no such post", refused([&] { board[3].close(1); }), MSC_NO_SUCH_INSTANCE);
    is("no coregion", refused([&] { board[1].close_coregion(); }), MSC_COREGION_NOT_OPEN);
    board[1].open_coregion();
    is("in a coregion", send(2, "m", ""), MSC_IN_COREGION);
    board[1].close_coregion();
    board[1].reserve(10);
    is("in words", std::string(msc::error(MSC_FULL).what()), "the lane is full");
}

void texts() {
    msc::answer answer = msc::check(chart);
    is("a chart with a race", answer.status, 1);
    is("its race", answer.out, "race server 1 2\n");
    answer = msc::check("no chart");
    is("no chart", answer.status, 2);
    is("why", answer.err.substr(0, 10), "refused: F");
    is("no schedule", msc::replay("no schedule").status, 2);
    is("no schedule", msc::random("no schedule", 7).status, 2);
}

void views() {
    msc::answer answer = msc::view({"races", "run.msc"}, {chart});
    is("a race", answer.status, 1);
    is("by names", answer.out.substr(0, 47), "server: order (2, from client) may come before ");
    is("no chart", msc::view({"races", "run.msc"}, {"no chart"}).status, 2);
    is("no words", msc::view({}, {}).err, "refused: G1 Usage\n");
    is("two texts for one", refused([] { msc::view({"races", "run.msc"}, {chart, chart}); }), MSC_MISUSE);
}

void two_threads() {
    msc::board board(2, 4);
    std::thread sender([&] {
        for (int number = 0; number < 1000; number++)
            while (!board[1].send(2, "item", std::to_string(number))) std::this_thread::yield();
        board[1].close(2);
    });
    msc::message message;
    int number = 0;
    for (msc::taken look; (look = board[2].receive(1, message)) != msc::taken::ended;) {
        if (look == msc::taken::got) is("in order", message.body, std::to_string(number++));
        else std::this_thread::yield();
    }
    sender.join();
    is("all of them", number, 1000);
}

} // namespace

int main() {
    a_race_is_reported();
    messages_cross();
    several_at_once();
    a_full_lane();
    a_closed_lane();
    a_gathered_board();
    a_board_after_a_board();
    mistakes();
    texts();
    views();
    two_threads();
    return failures != 0;
}
