/* Times rounds of messages over the ring that is written by hand.
 *
 *   ring PATTERN HOW INSTANCES SLOTS BODY MESSAGES ROUNDS
 *
 * Each round has a new board, and one line: the nanoseconds that it took, how many messages were received, and of all
 * reports how many events they list and the sum of their ranges' first numbers. Boards are made and freed outside of what
 * is timed; the making of bodies is timed.
 *
 * HOW is `threads`, each instance on a thread of its own, or `turns`, all of them on one thread, one step after another.
 *
 * - burst: the first instance sends as many messages to the second as the lane has slots, and then they are received.
 *   (By turns alone.)
 * - batch: the same, for a peer that passes several messages by a call. Here they go one by one.
 * - one_way: the first instance sends to the second.
 * - ping_pong: the first two instances answer each other's messages.
 * - all_to_all: each instance sends to each other one. MESSAGES are shared out equally.
 */
#include "ring.h"

#include <pthread.h>
#include <sched.h>
#include <stdio.h>
#include <time.h>

enum pattern { BURST, BATCH, ONE_WAY, PING_PONG, ALL_TO_ALL };

struct load {
  enum pattern pattern;
  bool on_threads;
  size_t instances;
  size_t capacity;
  size_t body;
  size_t messages;
};

/* An instance: what it is to pass, what it has passed, and what the reports of its receives have. */
struct player {
  const struct board *board;
  const struct load *load;
  size_t own;
  size_t to_send[MAX_INSTANCES];
  size_t sent[MAX_INSTANCES];
  size_t to_get[MAX_INSTANCES];
  size_t got[MAX_INSTANCES];
  size_t left;
  uint64_t listed;
  uint64_t firsts;
  bool failed;
  uint64_t nanoseconds;
};

static const struct name NAME = {"m"};

static uint64_t now(void) {
  struct timespec time;
  clock_gettime(CLOCK_MONOTONIC, &time);
  return (uint64_t)time.tv_sec * 1000000000u + (uint64_t)time.tv_nsec;
}

/* How many messages go from one instance to another one. */
static size_t share(const struct load *load, size_t from, size_t to) {
  if (from == to)
    return 0;
  switch (load->pattern) {
  case BURST:
  case BATCH:
  case ONE_WAY:
    return from == 0 && to == 1 ? load->messages : 0;
  case PING_PONG:
    return from < 2 && to < 2 ? load->messages / 2 : 0;
  case ALL_TO_ALL:
    return load->messages / (load->instances * (load->instances - 1));
  }
  return 0;
}

/* Sends one message, whose body is made for it. */
static bool send_one(struct player *player, size_t to) {
  struct message message = {NAME, NULL, player->load->body};
  if (message.body_length > 0) {
    message.body = calloc(message.body_length, 1);
    if (message.body == NULL) {
      player->failed = true;
      return false;
    }
  }
  enum answer answer = send_message(player->board, player->own, to, &message);
  if (answer == DONE)
    return true;
  free(message.body);
  player->failed = answer != FULL;
  return false;
}

/* Receives one message, and looks through its report. */
static bool receive_one(struct player *player, size_t from) {
  struct message message;
  const struct report *report;
  enum answer answer = receive_message(player->board, player->own, from, &message, &report);
  if (answer != DONE) {
    player->failed = answer != NOTHING;
    return false;
  }
  for (uint32_t place = 0; place < report->count; place++) {
    player->listed += report->ranges[place].count;
    player->firsts += report->ranges[place].first;
  }
  free(message.body);
  return true;
}

/* Whether it is an instance's turn: where two answer each other, the first one begins, and has one message on its way. */
static bool may_send(const struct player *player, size_t to) {
  if (player->load->pattern != PING_PONG)
    return true;
  return player->own == 0 ? player->sent[to] == player->got[to] : player->sent[to] < player->got[to];
}

/* Tries each lane of an instance once. Answers how many messages it passed. */
static size_t step(struct player *player) {
  size_t passed = 0;
  for (size_t other = 0; other < player->load->instances && !player->failed; other++) {
    if (player->got[other] < player->to_get[other] && receive_one(player, other)) {
      player->got[other]++;
      passed++;
    }
    if (player->sent[other] < player->to_send[other] && may_send(player, other) && send_one(player, other)) {
      player->sent[other]++;
      passed++;
    }
  }
  player->left -= passed;
  return passed;
}

static atomic_size_t there;

/* Waits until all threads are there, and passes the messages of an instance. */
static void *run_player(void *argument) {
  struct player *player = argument;
  atomic_fetch_add(&there, 1);
  while (atomic_load(&there) < player->load->instances)
    sched_yield();
  uint64_t start = now();
  while (player->left > 0 && !player->failed)
    if (step(player) == 0)
      sched_yield();
  player->nanoseconds = now() - start;
  return NULL;
}

/* Runs each instance on a thread of its own. Answers how long the slowest one took. */
static uint64_t run_threads(struct player *players, size_t instances) {
  pthread_t threads[MAX_INSTANCES];
  atomic_store(&there, 0);
  for (size_t own = 0; own < instances; own++)
    if (pthread_create(&threads[own], NULL, run_player, &players[own]) != 0) {
      fputs("ring: no thread\n", stderr);
      exit(1);
    }
  uint64_t slowest = 0;
  for (size_t own = 0; own < instances; own++) {
    pthread_join(threads[own], NULL);
    if (slowest < players[own].nanoseconds)
      slowest = players[own].nanoseconds;
  }
  return slowest;
}

/* Runs all instances on this thread, a step of each in its turn. */
static uint64_t run_turns(struct player *players, size_t instances) {
  uint64_t start = now();
  for (size_t passed = 1; passed > 0;) {
    passed = 0;
    for (size_t own = 0; own < instances; own++)
      passed += step(&players[own]);
  }
  return now() - start;
}

/* As many messages as the lane has slots are sent, and then received, again and again. */
static uint64_t run_bursts(struct player *players, const struct load *load) {
  uint64_t start = now();
  for (size_t burst = 0; burst < load->messages / load->capacity; burst++) {
    for (size_t sent = 0; sent < load->capacity; sent++)
      if (send_one(&players[0], 1))
        players[0].left--;
    for (size_t got = 0; got < load->capacity; got++)
      if (receive_one(&players[1], 0))
        players[1].left--;
  }
  return now() - start;
}

/* Passes all messages over a new board. */
static bool run_round(const struct load *load) {
  struct board board;
  if (!make_board(&board, load->instances, load->capacity))
    return false;
  struct player players[MAX_INSTANCES];
  size_t messages = 0;
  for (size_t own = 0; own < load->instances; own++) {
    players[own] = (struct player){.board = &board, .load = load, .own = own};
    for (size_t other = 0; other < load->instances; other++) {
      players[own].to_send[other] = share(load, own, other);
      players[own].to_get[other] = share(load, other, own);
      players[own].left += players[own].to_send[other] + players[own].to_get[other];
      messages += players[own].to_get[other];
    }
  }
  uint64_t took = load->pattern <= BATCH ? run_bursts(players, load)
                  : load->on_threads     ? run_threads(players, load->instances)
                                         : run_turns(players, load->instances);
  bool done = true;
  uint64_t listed = 0, firsts = 0;
  for (size_t own = 0; own < load->instances; own++) {
    done = done && players[own].left == 0 && !players[own].failed;
    listed += players[own].listed;
    firsts += players[own].firsts;
  }
  free_board(&board);
  if (done)
    printf("%llu %zu %llu %llu\n", (unsigned long long)took, messages, (unsigned long long)listed,
           (unsigned long long)firsts);
  return done;
}

/* The number that a word says, from 0 to 10,000, or -1. */
static long number(const char *word) {
  char *end;
  long value = strtol(word, &end, 10);
  return end == word || *end != '\0' || value < 0 || value > 10000 ? -1 : value;
}

static int usage(void) {
  fputs("usage: ring burst|batch|one_way|ping_pong|all_to_all threads|turns INSTANCES SLOTS BODY MESSAGES ROUNDS\n", stderr);
  return 2;
}

int main(int count, char **words) {
  static const char *const patterns[] = {"burst", "batch", "one_way", "ping_pong", "all_to_all"};
  if (count != 8)
    return usage();
  int pattern = 0;
  while (pattern < 5 && strcmp(words[1], patterns[pattern]) != 0)
    pattern++;
  bool on_threads = strcmp(words[2], "threads") == 0;
  long instances = number(words[3]), capacity = number(words[4]), body = number(words[5]);
  long messages = number(words[6]), rounds = number(words[7]);
  if (pattern == 5 || (!on_threads && strcmp(words[2], "turns") != 0) || instances < 2 || instances > MAX_INSTANCES ||
      capacity < 1 || capacity > 64 || body < 0 || messages < 0 || rounds < 0)
    return usage();
  struct load load = {(enum pattern)pattern, on_threads,      (size_t)instances,
                      (size_t)capacity,      (size_t)body, (size_t)messages};
  for (long round = 0; round < rounds; round++)
    if (!run_round(&load)) {
      fputs("ring: a message was refused, or didn't come\n", stderr);
      return 1;
    }
  return 0;
}
