#include <msc.hpp>

#include <iostream>
#include <string>
#include <thread>

void order(msc::post &post, const std::string &what) {
    while (!post.send(3, "order", what)) std::this_thread::yield(); // to the third instance, where it has room
    post.close(3);
}

// Receives until both have closed their lanes, and prints each race.
void serve(msc::post &post) {
    msc::message message;
    for (;;) {
        switch (post.any(message)) {
        case msc::taken::nothing: std::this_thread::yield(); break;
        case msc::taken::ended: return;
        case msc::taken::got:
            for (auto number : message.races)
                std::cout << message.name << " may come before " << post.event(number)->name << " (event " << number
                          << ")\n";
        }
    }
}

int main() {
    msc::board board(3, 4); // three instances, lanes of four slots
    std::thread first([&] { order(board[1], "tea"); });
    std::thread second([&] { order(board[2], "ale"); });
    serve(board[3]);
    first.join();
    second.join();
    std::cout << board.gather().text({"first", "second", "server"});
}
