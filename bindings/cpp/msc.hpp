/* msc.hpp: message passing between threads that reports message races as they happen, for programs in C++17 and later.
 *
 * A board has 2 to 32 instances. Each has a post, through which it sends, receives and closes lanes. Each message comes
 * with the races of its receive: the earlier events of this instance that came before it only by luck. All of this is
 * done by msc.h, which says more about it. Here boards free what they own, and texts and lists are those of C++.
 *
 *     msc::board board(3, 4);                                // three instances, lanes of four slots
 *     std::thread client([&] { while (!board[1].send(3, "order", "tea")) std::this_thread::yield(); });
 *     msc::message message;
 *     while (board[3].any(message) == msc::taken::nothing) std::this_thread::yield();
 *     client.join();
 *     std::cout << board.gather().text({"first", "second", "server"});
 *
 * VALUES AND EXCEPTIONS. Outcomes that a loop over lanes expects are values: nothing waits, a lane has ended, a lane is
 * full. A program checks these each time, and an exception would cost more than the call. Refused memory, from which
 * nobody expects to go on at the same place, is an exception, as in the standard library. So is each mistake, such as
 * an invalid name or instance. So constructors can fail, and no answer is overlooked (the values are [[nodiscard]]). A
 * program without exceptions uses msc.h.
 *
 * THREADS. One thread at a time uses a post. Different threads may use the posts of one board at the same time. A board
 * itself is for one thread. It meets, gathers and ends only while no other thread uses one of its posts. Several
 * threads may read one gathered board at the same time, by its const members.
 */
#ifndef MSC_HPP
#define MSC_HPP

#include <msc.h>

#include <cstddef>
#include <cstdint>
#include <exception>
#include <initializer_list>
#include <optional>
#include <string>
#include <string_view>
#include <utility>
#include <vector>

namespace msc {

/* Why a call was refused. A refused call changes nothing, except that a post may have seen more. */
class error : public std::exception {
public:
    explicit error(int answer) noexcept : answer_(answer) {}
    /* The answer of msc.h: -N for the refusal FN, and one of MSC_IS_MISUSE for a misuse. */
    int answer() const noexcept { return answer_; }
    const char *what() const noexcept override { return msc_refusal_text(answer_); }

private:
    int answer_;
};

namespace detail {
inline void done(int answer) {
    if (answer < 0) throw error(answer);
}
/* A valid address for what has no bytes. */
inline const std::uint8_t *bytes_of(std::string_view text) {
    return reinterpret_cast<const std::uint8_t *>(text.data() == nullptr ? "" : text.data());
}
} // namespace detail

/* What a receive finds: a message; none, and one may still come; none, and none will come. */
enum class taken { got, nothing, ended };

/* A message that was received. */
struct message {
    std::uint32_t from = 0;           /* the number of its sender, from 1 */
    std::uint32_t event = 0;          /* the number of its receive among the instance's events, from 1 */
    std::string name;                 /* a letter followed by letters, digits and _, 1 to 32 bytes */
    std::string body;                 /* at most 4096 bytes of any kind */
    std::vector<std::uint32_t> races; /* the instance's earlier events that came before it only by luck */
};

/* An event of an instance. */
struct event {
    std::uint32_t number;  /* its number among the instance's events, from 1 */
    bool receives;         /* whether it receives; otherwise it sends */
    std::uint32_t partner; /* the number of the instance at the other end of the message */
    std::uint32_t region;  /* the number of its coregion, from 1, or 0 outside of one */
    std::string name;      /* the message's name */
};

/* The races of a receive. */
struct report {
    std::uint32_t instance;           /* the number of the instance that received, from 1 */
    std::uint32_t event;              /* the number of the receive among its events, from 1 */
    std::vector<std::uint32_t> races; /* the instance's earlier events that came before it only by luck */
};

/* A message that still waits on a gathered board. */
struct left {
    std::uint32_t from;
    std::uint32_t to;
    std::string name;
    std::string body;
};

/* The post of an instance. Its board owns it. */
class post {
public:
    post(const post &) = delete;
    post &operator=(const post &) = delete;
    post(post &&) = default;
    post &operator=(post &&) = delete;

    /* The number of its instance, from 1. */
    std::uint32_t number() const noexcept { return number_; }

    /* Sends a message to the instance TO. Returns the number of the send among this instance's events, or nothing if
     * the lane is full: try again later. */
    [[nodiscard]] std::optional<std::uint32_t> send(std::uint32_t to, std::string_view name,
                                                    std::string_view body = {}) {
        std::uint32_t event = 0;
        int answer = msc_send_(handle_, to, detail::bytes_of(name), name.size(), detail::bytes_of(body), body.size(),
                               &event);
        return sent(answer, event);
    }

    /* Sends these messages, each a name and a body, to the instance TO with one store: all or none. Returns the number
     * of the first send, 0 if there are no messages, or nothing if fewer slots are free. */
    [[nodiscard]] std::optional<std::uint32_t>
    send_all(std::uint32_t to, const std::vector<std::pair<std::string_view, std::string_view>> &messages) {
        std::string bytes;
        std::vector<msc_message> lengths;
        std::uint32_t event = 0;
        for (const auto &[name, body] : messages) {
            bytes.append(name).append(body);
            lengths.push_back({name.size(), body.size()});
        }
        int answer = msc_send_all(handle_, to, bytes.data(), bytes.size(), lengths.data(), lengths.size(), &event);
        return sent(answer, event);
    }

    /* Receives the first message that waits on the lane from the instance FROM, and reuses the memory of INTO. If none
     * waits, INTO stays as it is. */
    [[nodiscard]] taken receive(std::uint32_t from, message &into) {
        msc_arrival arrival;
        return took(msc_receive(handle_, from, &arrival), arrival, into);
    }

    /* Receives the first message that it finds on the lanes from all other instances, which it looks at in turn.
     * Returns ended if all of them have ended. */
    [[nodiscard]] taken any(message &into) {
        msc_arrival arrival;
        return took(msc_any(handle_, &arrival), arrival, into);
    }

    /* Receives the first messages that wait on the lane from the instance FROM by one call: at most MOST, and at least
     * one for got. A refusal after the first one is thrown by the next call. */
    [[nodiscard]] taken receive_up_to(std::uint32_t from, std::size_t most, std::vector<message> &into) {
        // (a line has no more events)
        std::vector<msc_arrival> arrivals(most < 4096 ? most : 4096);
        std::size_t count = 0;
        int answer = msc_receive_up_to(handle_, from, arrivals.data(), arrivals.size(), &count);
        if (count == 0) {
            detail::done(answer);
            return answer == MSC_ENDED ? taken::ended : taken::nothing;
        }
        into.resize(count);
        for (std::size_t which = 0; which < count; which++) copy(which, arrivals[which], into[which]);
        return taken::got;
    }

    /* Closes the lane to the instance TO. Messages that wait on it can still be received; then the lane has ended. */
    void close(std::uint32_t to) { detail::done(msc_close(handle_, to)); }

    /* Open and close a coregion: the order of the receives in it isn't claimed, and is no race. */
    void open_coregion() { detail::done(msc_open_coregion(handle_)); }
    void close_coregion() { detail::done(msc_close_coregion(handle_)); }

    /* Allocates room for the next EVENTS events. */
    void reserve(std::uint32_t events) { detail::done(msc_reserve(handle_, events)); }

    /* The event with this number, from 1, among those that this post has sent and received, if it exists. */
    std::optional<msc::event> event(std::uint32_t number) const {
        msc_event info;
        char name[32];
        int answer = msc_line_event(handle_, number, &info, name, sizeof name);
        if (answer == MSC_NO_SUCH_EVENT) return std::nullopt;
        detail::done(answer);
        return msc::event{number, info.receives == 1, info.partner, info.region, std::string(name, info.name_length)};
    }

    /* All that this post has sent and received so far. */
    std::vector<msc::event> events() const {
        std::vector<msc::event> all;
        while (auto next = event(static_cast<std::uint32_t>(all.size() + 1))) all.push_back(std::move(*next));
        return all;
    }

private:
    friend class board;
    post(msc_post *handle, std::uint32_t number) noexcept : handle_(handle), number_(number) {}

    static std::optional<std::uint32_t> sent(int answer, std::uint32_t event) {
        if (answer == MSC_FULL) return std::nullopt;
        detail::done(answer);
        return event;
    }

    taken took(int answer, const msc_arrival &arrival, message &into) {
        detail::done(answer);
        if (answer != MSC_DONE) return answer == MSC_ENDED ? taken::ended : taken::nothing;
        copy(0, arrival, into);
        return taken::got;
    }

    /* Copies one of the messages that the post has kept since its last receive. */
    void copy(std::size_t which, const msc_arrival &arrival, message &into) {
        std::size_t length;
        into.from = arrival.from;
        into.event = arrival.event;
        into.name.resize(arrival.name_length);
        into.body.resize(arrival.body_length);
        into.races.resize(arrival.races);
        detail::done(msc_name_of(handle_, which, into.name.data(), into.name.size(), &length));
        detail::done(msc_body_of(handle_, which, into.body.data(), into.body.size(), &length));
        detail::done(msc_races_of(handle_, which, into.races.data(), into.races.size(), &length));
    }

    msc_post *handle_;
    std::uint32_t number_;
};

class board;

/* The result of gathering a board: its chart, the races of each receive, and the messages that still wait. */
class gathered {
public:
    gathered(gathered &&other) noexcept
        : handle_(std::exchange(other.handle_, msc_board MSC_BOARD_INIT)), size_(other.size_),
          capacity_(other.capacity_) {}
    gathered &operator=(gathered &&other) noexcept {
        std::swap(handle_, other.handle_);
        std::swap(size_, other.size_);
        std::swap(capacity_, other.capacity_);
        return *this;
    }
    ~gathered() { msc_board_free(&handle_); }

    /* The text of its chart, with these names of its instances. mscrun check, mscview and check below read it. */
    std::string text(const std::vector<std::string> &names) const {
        std::vector<const char *> words;
        std::string text;
        std::size_t length = 0;
        for (const auto &name : names) words.push_back(name.c_str());
        // (a vector of none may have no address)
        if (words.empty()) throw error(MSC_MISUSE);
        do {
            text.resize(length);
            detail::done(msc_board_text(&handle_, words.data(), words.size(), text.data(), text.size(), &length));
        } while (length > text.size());
        return text;
    }

    /* The report of each receive, ordered by instance and event. */
    std::vector<report> reports() const {
        std::vector<report> all;
        msc_report info;
        for (std::size_t number = 1; msc_board_report(&handle_, number, &info, nullptr, 0) == MSC_DONE; number++) {
            std::vector<std::uint32_t> races(info.races);
            detail::done(msc_board_report(&handle_, number, &info, races.data(), races.size()));
            all.push_back({info.instance, info.event, std::move(races)});
        }
        return all;
    }

    /* The messages that still wait, lane by lane, in the order in which they were sent. */
    std::vector<msc::left> left() const {
        std::vector<msc::left> all;
        for (std::uint32_t from = 1; from <= size_; from++)
            for (std::uint32_t to = 1; to <= size_; to++) add_left(from, to, all);
        return all;
    }

    /* Opens the next board of a run with full lines, and carries over to it what still waits here. It has as many
     * instances, and lanes of at least as many slots (0 for as many). Also returns how many sends each instance
     * carried: they are the first events of its line there. Leave out races whose earlier event is one of them: the
     * earlier board may have had them in order. Races between the two boards are not reported. */
    inline std::pair<board, std::vector<std::size_t>> carry_over(std::uint32_t capacity = 0);

private:
    friend class board;
    gathered(std::size_t size, std::uint32_t capacity) noexcept : size_(size), capacity_(capacity) {}

    void add_left(std::uint32_t from, std::uint32_t to, std::vector<msc::left> &all) const {
        msc_left info;
        std::size_t number = 1;
        while (msc_board_left(&handle_, from, to, number, &info, nullptr, 0, nullptr, 0) == MSC_DONE) {
            msc::left next{from, to, std::string(info.name_length, '\0'), std::string(info.body_length, '\0')};
            detail::done(msc_board_left(&handle_, from, to, number, &info, next.name.data(), next.name.size(),
                                        next.body.data(), next.body.size()));
            all.push_back(std::move(next));
            number++;
        }
    }

    msc_board handle_ = MSC_BOARD_INIT;
    std::size_t size_;
    std::uint32_t capacity_;
};

/* A board, and the posts of its instances. */
class board {
public:
    /* Opens a board of 2 to 32 instances whose lanes have 1 to 64 slots. */
    board(std::size_t instances, std::uint32_t capacity)
        : handles_(instances, msc_post MSC_POST_INIT), capacity_(capacity) {
        if (instances < 2) throw error(MSC_BAD_SIZE);
        posts_.reserve(instances);
        detail::done(msc_open(handles_.data(), instances, capacity));
        for (auto &handle : handles_) posts_.push_back(post(&handle, static_cast<std::uint32_t>(posts_.size() + 1)));
    }
    board(board &&) noexcept = default;
    board &operator=(board &&other) noexcept {
        std::swap(handles_, other.handles_);
        std::swap(posts_, other.posts_);
        std::swap(capacity_, other.capacity_);
        return *this;
    }
    ~board() {
        for (auto &handle : handles_) msc_free(&handle);
    }

    std::size_t size() const noexcept { return posts_.size(); }
    std::uint32_t capacity() const noexcept { return capacity_; }

    /* The post of the instance of this number, from 1. */
    post &operator[](std::uint32_t number) {
        if (number < 1 || number > posts_.size()) throw error(MSC_NO_SUCH_INSTANCE);
        return posts_[number - 1];
    }

    /* All posts meet: then each has seen all that any of them did. This removes no race. */
    void meet() { detail::done(msc_meet(handles_.data(), handles_.size())); }

    /* Gathers the board and returns the result. Its posts are then empty. If memory is refused, all is as it was. */
    msc::gathered gather() {
        msc::gathered all(handles_.size(), capacity_);
        detail::done(msc_gather(handles_.data(), handles_.size(), &all.handle_));
        return all;
    }

private:
    friend class msc::gathered;
    std::vector<msc_post> handles_;
    std::vector<post> posts_;
    std::uint32_t capacity_;
};

inline std::pair<board, std::vector<std::size_t>> gathered::carry_over(std::uint32_t capacity) {
    if (capacity == 0) capacity = capacity_;
    if (capacity < capacity_) throw error(MSC_MISUSE);
    std::pair<board, std::vector<std::size_t>> next(board(size_, capacity), std::vector<std::size_t>(size_));
    detail::done(msc_carry_over(&handle_, next.first.handles_.data(), size_, next.second.data()));
    return next;
}

/* What a program answers for a text: its exit status, and what it writes to standard output and standard error. The
 * status is 0, or 1 if there are races, or 2 if it refuses the text, or 3 if the answer isn't known. */
struct answer {
    int status;
    std::string out;
    std::string err;
};

namespace detail {
/* The whole answer of a call that writes as much as fits. If there was too little room, the call is made again. */
template <typename Call> answer whole(std::size_t length, Call call) {
    answer all{0, std::string(4096 + 4 * length, '\0'), std::string(4096, '\0')};
    for (;;) {
        std::size_t out = 0, err = 0;
        all.status = call(all.out.data(), all.out.size(), &out, all.err.data(), all.err.size(), &err);
        done(all.status);
        bool fits = out <= all.out.size() && err <= all.err.size();
        all.out.resize(out);
        all.err.resize(err);
        if (fits) return all;
    }
}
inline answer perform(int task, std::uint64_t seed, std::string_view text) {
    return whole(text.size(), [&](char *out, std::size_t out_room, std::size_t *out_length, char *err,
                                  std::size_t err_room, std::size_t *err_length) {
        return msc_perform(task, seed, text.data(), text.size(), out, out_room, out_length, err, err_room, err_length);
    });
}
} // namespace detail

/* Checks a chart, as mscrun check does: one line for each of its races. */
inline answer check(std::string_view chart) { return detail::perform(MSC_CHECK, 0, chart); }

/* Replays a schedule, as mscrun replay does, or in an order that the seed draws, as mscrun random does. */
inline answer replay(std::string_view schedule) { return detail::perform(MSC_REPLAY, 0, schedule); }
inline answer random(std::string_view schedule, std::uint64_t seed) {
    return detail::perform(MSC_RANDOM, seed, schedule);
}

/* Does what mscview does for these words of a command line, whose files are in memory. The texts are what the words
 * read, in the order in which they name them. Throws if they read another number of texts. */
inline answer view(const std::vector<std::string> &words, const std::vector<std::string_view> &texts) {
    std::vector<const char *> names, at;
    std::vector<std::size_t> lengths;
    std::size_t length = 0;
    for (const auto &word : words) names.push_back(word.c_str());
    for (const auto &text : texts) {
        at.push_back(text.data());
        lengths.push_back(text.size());
        length += text.size();
    }
    return detail::whole(length, [&](char *out, std::size_t out_room, std::size_t *out_length, char *err,
                                     std::size_t err_room, std::size_t *err_length) {
        return msc_view(static_cast<int>(names.size()), names.data(), at.size(), at.data(), lengths.data(), out,
                        out_room, out_length, err, err_room, err_length);
    });
}

} // namespace msc

#endif
