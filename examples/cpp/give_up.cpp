/* A client asks a server, which gives up when nothing comes for a while, and informs a logger. Three threads, a post
 * each. Each race is printed as it comes. At the end the board is gathered, and its chart is printed. mscrun check and
 * mscview read it.
 *
 *     c++ -std=c++17 give_up.cpp $(pkg-config --cflags --libs msc) -pthread && ./a.out
 */
#include <msc.hpp>

#include <chrono>
#include <iostream>
#include <mutex>
#include <sstream>
#include <thread>

namespace {

enum : std::uint32_t { client = 1, server, logger, instances = 3 };

const std::vector<std::string> names = {"client", "server", "logger"};
std::mutex output;

/* Posts never wait: who finds nothing looks again after a pause, which gets longer up to a millisecond. */
void back_off(unsigned tries) {
    std::this_thread::sleep_for(std::chrono::microseconds(1u << (tries < 10 ? tries : 10)));
}

void send(msc::post &post, std::uint32_t to, std::string_view name, std::string_view body = {}) {
    for (unsigned tries = 0; !post.send(to, name, body); tries++) back_off(tries);
}

/* Reports a message, and its races by the names of the two messages. */
void show(const msc::post &post, const msc::message &message) {
    const std::string &me = names[post.number() - 1];
    std::ostringstream line;
    line << me << ": event " << message.event << " is " << message.name << " from " << names[message.from - 1] << '\n';
    for (auto number : message.races)
        line << me << ": " << message.name << " may come before " << post.event(number)->name << " (event " << number
             << ")\n";
    std::lock_guard<std::mutex> lock(output);
    std::cout << line.str();
}

/* The next message from any instance: nothing if none has come after that many looks. */
msc::taken next(msc::post &post, unsigned looks) {
    msc::message message;
    for (unsigned tries = 0; tries < looks; tries++) {
        switch (post.any(message)) {
        case msc::taken::got: show(post, message); return msc::taken::got;
        case msc::taken::ended: return msc::taken::ended;
        case msc::taken::nothing: back_off(tries);
        }
    }
    return msc::taken::nothing;
}

void run_client(msc::post &post) {
    send(post, logger, "begins");
    send(post, server, "ask", "what time is it?");
    while (next(post, 1000) == msc::taken::nothing) {}
    post.close(server);
    post.close(logger);
}

void run_server(msc::post &post) {
    bool asked = next(post, 20) == msc::taken::got;
    send(post, client, asked ? "answer" : "gives_up", asked ? "late" : "");
    send(post, logger, asked ? "answered" : "gave_up");
    post.close(client);
    post.close(logger);
}

void run_logger(msc::post &post) {
    while (next(post, 1000) != msc::taken::ended) {}
}

} // namespace

int main() try {
    msc::board board(instances, 8);
    std::thread threads[] = {
        std::thread(run_client, std::ref(board[client])),
        std::thread(run_server, std::ref(board[server])),
        std::thread(run_logger, std::ref(board[logger])),
    };
    for (auto &thread : threads) thread.join();
    msc::gathered gathered = board.gather();
    std::cout << gathered.text(names);
    for (const auto &left : gathered.left())
        std::cout << left.name << " waits from " << names[left.from - 1] << " to " << names[left.to - 1] << '\n';
} catch (const msc::error &error) {
    std::cerr << error.what() << '\n';
    return 1;
}
