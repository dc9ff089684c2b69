/* Times rounds of bursts over msc.h: the words and the lines are those of rounds.c.
 *
 *   over_msc burst turns INSTANCES SLOTS BODY MESSAGES ROUNDS
 *   over_msc batch turns INSTANCES SLOTS BODY MESSAGES ROUNDS   received by msc_receive_up_to, and sent by msc_send_all
 *
 * A body is zeros of its sender's, which msc_send copies into memory of its own. Races are asked for where there are some.
 */
#include <msc.h>
#include <stdio.h>
#include <stdlib.h>
#include <time.h>

enum { MOST = 32, MOST_SLOTS = 64, MOST_BODY = 4096, MOST_EVENTS = 4096 };

struct load {
  bool by_batches;
  size_t instances;
  size_t capacity;
  size_t body;
  size_t messages;
};

struct seen {
  size_t messages;
  uint64_t listed;
  uint64_t firsts;
};

static unsigned char zeros[MOST_BODY];

static uint64_t now(void) {
  struct timespec time;
  clock_gettime(CLOCK_MONOTONIC, &time);
  return (uint64_t)time.tv_sec * 1000000000u + (uint64_t)time.tv_nsec;
}

/* Goes over the races of a message, if it has some: how many, and the first of each range of neighbours. */
static bool look_through(msc_post *post, size_t which, const msc_arrival *came, struct seen *seen) {
  static uint32_t races[MOST_EVENTS];
  size_t count;
  seen->messages++;
  if (came->races == 0)
    return true;
  if (msc_races_of(post, which, races, MOST_EVENTS, &count) != MSC_DONE)
    return false;
  for (size_t place = 0; place < count; place++) {
    seen->listed++;
    if (place == 0 || races[place] != races[place - 1] + 1)
      seen->firsts += races[place];
  }
  return true;
}

static bool pass_singles(msc_post *posts, const struct load *load, struct seen *seen) {
  msc_arrival came;
  for (size_t sent = 0; sent < load->capacity; sent++)
    if (msc_send(&posts[0], 2, "m", zeros, load->body, NULL) != MSC_DONE)
      return false;
  for (size_t got = 0; got < load->capacity; got++)
    if (msc_receive(&posts[1], 1, &came) != MSC_DONE || !look_through(&posts[1], 0, &came, seen))
      return false;
  return true;
}

static bool pass_batch(msc_post *posts, const struct load *load, const unsigned char *bytes, const msc_message *lengths,
                       struct seen *seen) {
  msc_arrival came[MOST_SLOTS];
  size_t count;
  if (msc_send_all(&posts[0], 2, bytes, load->capacity * (load->body + 1), lengths, load->capacity, NULL) != MSC_DONE ||
      msc_receive_up_to(&posts[1], 1, came, load->capacity, &count) != MSC_DONE)
    return false;
  for (size_t which = 0; which < count; which++)
    if (!look_through(&posts[1], which, &came[which], seen))
      return false;
  return true;
}

/* Passes all messages over a new board. */
static bool run_round(const struct load *load, const unsigned char *bytes, const msc_message *lengths) {
  msc_post posts[MOST] = {MSC_POST_INIT};
  struct seen seen = {0, 0, 0};
  bool done = true;
  if (msc_open(posts, load->instances, (uint32_t)load->capacity) != MSC_DONE)
    return false;
  uint64_t start = now();
  for (size_t burst = 0; burst < load->messages / load->capacity && done; burst++)
    done = load->by_batches ? pass_batch(posts, load, bytes, lengths, &seen) : pass_singles(posts, load, &seen);
  uint64_t took = now() - start;
  for (size_t own = 0; own < load->instances; own++)
    msc_free(&posts[own]);
  if (done && seen.messages == load->messages)
    printf("%llu %zu %llu %llu\n", (unsigned long long)took, seen.messages, (unsigned long long)seen.listed,
           (unsigned long long)seen.firsts);
  return done && seen.messages == load->messages;
}

/* The number that a word says, from 0 to 10,000, or -1. */
static long number(const char *word) {
  char *end;
  long value = strtol(word, &end, 10);
  return end == word || *end != '\0' || value < 0 || value > 10000 ? -1 : value;
}

int main(int count, char **words) {
  static unsigned char bytes[MOST_SLOTS * (MOST_BODY + 1)];
  static msc_message lengths[MOST_SLOTS];
  bool by_batches = count == 8 && strcmp(words[1], "batch") == 0;
  if (count != 8 || (!by_batches && strcmp(words[1], "burst") != 0) || strcmp(words[2], "turns") != 0) {
    fputs("usage: over_msc burst|batch turns INSTANCES SLOTS BODY MESSAGES ROUNDS\n", stderr);
    return 2;
  }
  long instances = number(words[3]), capacity = number(words[4]), body = number(words[5]);
  long messages = number(words[6]), rounds = number(words[7]);
  if (instances < 2 || instances > MOST || capacity < 1 || capacity > MOST_SLOTS || body < 0 || body > MOST_BODY ||
      messages < 0 || rounds < 0)
    return 2;
  struct load load = {by_batches, (size_t)instances, (size_t)capacity, (size_t)body, (size_t)messages};
  for (long place = 0; place < capacity; place++) {
    bytes[place * (body + 1)] = 'm';
    lengths[place] = (msc_message){1, (size_t)body};
  }
  for (long round = 0; round < rounds; round++)
    if (!run_round(&load, bytes, lengths)) {
      fputs("over_msc: a message was refused, or didn't come\n", stderr);
      return 1;
    }
  return 0;
}
