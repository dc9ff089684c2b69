/* Boards after boards on threads over msc.h, for so many seconds.
 *
 *   soak SECONDS SEED
 *
 * A chain is of 1 to 8 boards of 2 to 8 instances, over lanes of 1 to 16 slots, each instance on a thread of its own. On each
 * board a thread makes some 200 calls that its seed draws: it sends to one of the others, alone or several at once, and
 * receives one from one, from any or several. What is left on a board is carried over to the next one of its chain. On the
 * last board each thread closes its lanes when it has made its calls, and receives until all have ended.
 *
 * What is received has to be what was sent, in the order of its lane, over all boards of the chain; at its end all has come.
 * Each gathered board has to have the races that came with the messages, its text has to be one in which msc_perform finds
 * as many, and what is left on its lanes has to be what comes next. The first difference ends it, with the chain's seed.
 */
#include <msc.h>
#include <pthread.h>
#include <sched.h>
#include <stdio.h>
#include <stdlib.h>
#include <time.h>

enum { MOST = 8, CALLS = 200, TEXT = 1 << 20, MOST_RACES = 4096 };

struct player {
  msc_post *post;
  int number;
  unsigned seed;
  unsigned sent[MOST + 1]; /* to each, over the chain */
  unsigned got[MOST + 1];  /* from each */
  uint64_t races;          /* on this board */
};

static int instances, is_last;
static unsigned chain;
static uint64_t boards, sent, received, carried_over, races;

static void fails(const char *what, long answer) {
  printf("FAILED: chain %u: %s: %ld\n", chain, what, answer);
  exit(1);
}

static unsigned draw(struct player *me, unsigned below) { return (unsigned)rand_r(&me->seed) % below; }

static int another(struct player *me) {
  int other = 1 + (int)draw(me, (unsigned)instances - 1);
  return other < me->number ? other : other + 1;
}

static void send_some(struct player *me) {
  unsigned char bytes[3 * (1 + sizeof(unsigned))];
  msc_message lengths[3];
  int to = another(me), answer;
  unsigned many = 1 + draw(me, 3), i, body;
  for (i = 0; i < many; i++) {
    body = me->sent[to] + i;
    bytes[i * (1 + sizeof body)] = 'm';
    memcpy(bytes + i * (1 + sizeof body) + 1, &body, sizeof body);
    lengths[i] = (msc_message){1, sizeof body};
  }
  if (many == 1) answer = msc_send(me->post, (uint32_t)to, "m", &me->sent[to], sizeof(unsigned), NULL);
  else answer = msc_send_all(me->post, (uint32_t)to, bytes, many * (1 + sizeof(unsigned)), lengths, many, NULL);
  if (answer == MSC_DONE) me->sent[to] += many;
  else if (answer != MSC_FULL && answer != MSC_TOO_MANY) fails("send", answer);
}

static void take(struct player *me, const msc_arrival *came, size_t which) {
  unsigned body = 0;
  size_t length;
  if (came->body_length != sizeof body || msc_body_of(me->post, which, &body, sizeof body, &length) != MSC_DONE)
    fails("a body", (long)came->body_length);
  if (body != me->got[came->from]) fails("a message out of order", (long)body);
  me->got[came->from] = body + 1;
  me->races += came->races;
}

/* Answers whether all lanes have ended, where it looked at all. */
static bool receive_some(struct player *me, unsigned way) {
  msc_arrival came[4];
  size_t count = 1, i;
  int answer;
  if (way == 0) answer = msc_receive(me->post, (uint32_t)another(me), came);
  else if (way == 1) answer = msc_receive_up_to(me->post, (uint32_t)another(me), came, 1 + draw(me, 4), &count);
  else answer = msc_any(me->post, came);
  if (way != 1 && answer != MSC_DONE) count = 0;
  if (answer < 0) fails("a receive", answer);
  for (i = 0; i < count; i++) take(me, &came[i], i);
  return way == 2 && answer == MSC_ENDED;
}

static void *play(void *arg) {
  struct player *me = arg;
  int calls, to, answer;
  for (calls = 0; calls < CALLS; calls++) {
    if (draw(me, 2) == 0) send_some(me);
    else receive_some(me, draw(me, 3));
  }
  if (!is_last) return NULL;
  for (to = 1; to <= instances; to++)
    if (to != me->number && (answer = msc_close(me->post, (uint32_t)to)) != MSC_DONE) fails("close", answer);
  while (!receive_some(me, 2)) sched_yield();
  return NULL;
}

/* How long the race lines of the gathered board are, which has to have so many races. */
static size_t lines_length(msc_board *board, uint64_t wanted) {
  static uint32_t list[MOST_RACES];
  msc_report report;
  size_t length = 0, number, i;
  uint64_t many = 0;
  for (number = 1; msc_board_report(board, number, &report, list, MOST_RACES) == MSC_DONE; number++) {
    many += report.races;
    for (i = 0; i < report.races; i++)
      length += (size_t)snprintf(NULL, 0, "race p%u %u %u\n", report.instance, list[i], report.event);
  }
  if (many != wanted) fails("races of the board", (long)many);
  return length;
}

/* What is left on each lane has to be what comes next, and all that was sent. */
static void see_left(msc_board *board, const struct player *players) {
  msc_left left;
  for (int from = 1; from <= instances; from++)
    for (int to = 1; to <= instances; to++) {
      unsigned next = from == to ? 0 : players[to - 1].got[from], body = 0;
      for (size_t number = 1;
           msc_board_left(board, (uint32_t)from, (uint32_t)to, number, &left, NULL, 0, &body, sizeof body) == MSC_DONE;
           number++, next++)
        if (left.body_length != sizeof body || body != next) fails("what is left", (long)body);
      if (from != to && next != players[from - 1].sent[to]) fails("how many are left", (long)next);
    }
}

static void audit(msc_board *board, const struct player *players) {
  static const char *const names[MOST] = {"p1", "p2", "p3", "p4", "p5", "p6", "p7", "p8"};
  static char text[TEXT];
  uint64_t all = 0;
  size_t length, wanted, out, err;
  int answer;
  for (int i = 0; i < instances; i++) all += players[i].races;
  wanted = lines_length(board, all);
  if ((answer = msc_board_text(board, names, (size_t)instances, text, TEXT, &length)) != MSC_DONE || length > TEXT)
    fails("text", answer);
  answer = msc_perform(MSC_CHECK, 0, text, length, NULL, 0, &out, NULL, 0, &err);
  if (answer != (all > 0) || out != wanted || err != 0) fails("check", answer);
  see_left(board, players);
  races += all;
}

static void run_board(struct player *players) {
  pthread_t ids[MOST];
  int i;
  for (i = 0; i < instances; i++) {
    players[i].races = 0;
    if (pthread_create(&ids[i], NULL, play, &players[i]) != 0) fails("a thread", i);
  }
  for (i = 0; i < instances; i++) pthread_join(ids[i], NULL);
  boards++;
}

static void run_chain(void) {
  msc_post posts[MOST] = {MSC_POST_INIT};
  msc_board gathered[2] = {MSC_BOARD_INIT, MSC_BOARD_INIT}; /* this board, and the one before */
  struct player players[MOST] = {0};
  size_t carried[MOST];
  unsigned seed = chain, many = 1 + (unsigned)rand_r(&seed) % 8, slots = 1 + (unsigned)rand_r(&seed) % 16, number;
  int i, j, answer;
  instances = 2 + rand_r(&seed) % (MOST - 1);
  for (i = 0; i < instances; i++) {
    players[i].post = &posts[i];
    players[i].number = i + 1;
    players[i].seed = chain * MOST + (unsigned)i;
  }
  for (number = 1; number <= many; number++) {
    is_last = number == many;
    if ((answer = msc_open(posts, (size_t)instances, slots)) != MSC_DONE) fails("open", answer);
    if (number > 1) {
      if ((answer = msc_carry_over(&gathered[(number - 1) % 2], posts, (size_t)instances, carried)) != MSC_DONE) fails("carry over", answer);
      for (i = 0; i < instances; i++) carried_over += carried[i];
      msc_board_free(&gathered[(number - 1) % 2]);
    }
    run_board(players);
    if ((answer = msc_gather(posts, (size_t)instances, &gathered[number % 2])) != MSC_DONE) fails("gather", answer);
    audit(&gathered[number % 2], players);
  }
  msc_board_free(&gathered[many % 2]);
  for (i = 0; i < instances; i++)
    for (j = 1; j <= instances; j++) {
      if (j != i + 1 && players[i].sent[j] != players[j - 1].got[i + 1]) fails("all came", (long)players[i].sent[j]);
      sent += players[i].sent[j];
      received += players[i].got[j];
    }
}

int main(int count, char **words) {
  time_t end;
  if (count != 3) return 2;
  end = time(NULL) + atol(words[1]);
  for (chain = (unsigned)atol(words[2]); time(NULL) < end; chain++) run_chain();
  printf("%llu boards: %llu messages sent, %llu received, %llu carried over, %llu races\n", (unsigned long long)boards,
         (unsigned long long)sent, (unsigned long long)received, (unsigned long long)carried_over, (unsigned long long)races);
  return 0;
}
