/* A ring written by hand, which does for a message what a board does: the peer that a board's times are compared with.
 *
 * Instances pass messages over lanes, one for each ordered pair. A lane has a fixed number of slots, one sender and one
 * receiver, and two counts: how many messages were put, and how many were taken. Each instance records its own line: the
 * events, what it knows of the others (its vector clock), and a report for each receive. A report has the events of the
 * line that came before the receive by luck alone: those which the message's clock doesn't know, but for receives from the
 * same sender. It is kept as ranges of neighbouring events.
 *
 * What a board has besides, and this hasn't: coregions, lanes that close, calls that pass several messages, posts that
 * meet, and a proof. */
#ifndef RING_H
#define RING_H

#include <stdalign.h>
#include <stdatomic.h>
#include <stdbool.h>
#include <stddef.h>
#include <stdint.h>
#include <stdlib.h>
#include <string.h>

enum { MAX_INSTANCES = 32, MAX_EVENTS = 4096, CACHE_LINE = 64 };

struct name {
  char bytes[32];
};

/* The body is allocated, and goes with the message: who has received it frees it. NULL where it is empty. */
struct message {
  struct name name;
  unsigned char *body;
  size_t body_length;
};

struct clock {
  uint32_t entries[MAX_INSTANCES];
};

/* A slot begins on a cache line, so that the ends don't write to one line while they are in neighbouring slots. */
struct slot {
  alignas(CACHE_LINE) struct message message;
  struct clock clock;
};

/* The counts are on cache lines of their own: each is written by one end, and the other one's writes don't take it away. */
struct lane {
  alignas(CACHE_LINE) atomic_uint_least64_t put;
  alignas(CACHE_LINE) atomic_uint_least64_t taken;
  alignas(CACHE_LINE) struct slot *slots;
};

/* What the sender keeps of a lane. It looks at the other end's count only where the one that it knows leaves no slot. */
struct outgoing {
  struct lane *lane;
  uint64_t put;
  uint64_t known_taken;
  size_t next_slot;
};

/* What the receiver keeps of a lane. */
struct incoming {
  struct lane *lane;
  uint64_t taken;
  uint64_t known_put;
  size_t next_slot;
};

enum kind { SEND, RECEIVE };

/* An event of a line. Of a receive it also has how many events are ahead of the neighbouring receives from its sender, so
 * that a report passes all of them in one step. */
struct event {
  uint8_t kind;
  uint8_t partner;
  uint32_t run_start;
  struct name name;
};

/* So many neighbouring events of a line, the first of which has this number, from 1. */
struct range {
  uint32_t first;
  uint32_t count;
};

/* The races of a receive, the first of the line first. NULL where there are none. */
struct report {
  uint32_t receive;
  uint32_t count;
  struct range *ranges;
};

/* An instance begins on a cache line: each is written by its own thread. */
struct instance {
  alignas(CACHE_LINE) struct clock clock;
  struct event *events;
  size_t event_count;
  size_t event_room;
  struct report *reports;
  size_t report_count;
  size_t report_room;
  struct outgoing outgoing[MAX_INSTANCES];
  struct incoming incoming[MAX_INSTANCES];
};

struct board {
  size_t instances;
  size_t capacity;
  struct instance *instance;
  struct lane *lanes;
  struct slot *slots;
};

enum answer { DONE, FULL, NOTHING, LINE_FULL, NO_MEMORY };

/* Makes room for one item more, by doubling. */
static inline bool make_room(void **items, size_t count, size_t *room, size_t size) {
  if (count < *room)
    return true;
  size_t more = *room == 0 ? 4 : 2 * *room;
  void *grown = realloc(*items, more * size);
  if (grown == NULL)
    return false;
  *items = grown;
  *room = more;
  return true;
}

static inline bool make_event_room(struct instance *self) {
  void *events = self->events;
  bool done = make_room(&events, self->event_count, &self->event_room, sizeof(struct event));
  self->events = events;
  return done;
}

static inline bool make_report_room(struct instance *self) {
  void *reports = self->reports;
  bool done = make_room(&reports, self->report_count, &self->report_room, sizeof(struct report));
  self->reports = reports;
  return done;
}

/* Adds an event, for which there is room. */
static inline void add_event(struct instance *self, enum kind kind, size_t partner, uint32_t run_start,
                             const struct name *name) {
  struct event *event = &self->events[self->event_count++];
  event->kind = (uint8_t)kind;
  event->partner = (uint8_t)partner;
  event->run_start = run_start;
  event->name = *name;
}

static inline bool is_receive_from(const struct event *event, size_t from) {
  return event->kind == RECEIVE && event->partner == from;
}

/* How many events are ahead of the neighbouring receives from this sender that a next receive would end. */
static inline uint32_t next_run_start(const struct instance *self, size_t from) {
  if (self->event_count > 0) {
    const struct event *last = &self->events[self->event_count - 1];
    if (is_receive_from(last, from))
      return last->run_start;
  }
  return (uint32_t)self->event_count;
}

/* Adds a range ahead of all others of a report that is made backwards: its ranges stand the other way round. */
static inline bool add_range(struct report *report, size_t *room, uint32_t first, uint32_t last) {
  if (report->count > 0 && report->ranges[report->count - 1].first == last + 1) {
    struct range *next = &report->ranges[report->count - 1];
    next->count += next->first - first;
    next->first = first;
    return true;
  }
  void *ranges = report->ranges;
  if (!make_room(&ranges, report->count, room, sizeof(struct range)))
    return false;
  report->ranges = ranges;
  report->ranges[report->count++] = (struct range){first, last - first + 1};
  return true;
}

/* Finds the races of a receive that comes next, of a message whose send knows so many events of this line. It goes back
 * over the later ones, a run of receives from one sender at a step. */
static inline bool find_races(const struct instance *self, size_t from, uint32_t known, struct report *report) {
  size_t room = 0;
  uint32_t last = (uint32_t)self->event_count;
  report->receive = last + 1;
  report->count = 0;
  report->ranges = NULL;
  while (last > known) {
    const struct event *event = &self->events[last - 1];
    uint32_t start = event->kind == RECEIVE ? event->run_start : last - 1;
    if (!is_receive_from(event, from)) {
      uint32_t ahead = start > known ? start : known;
      if (!add_range(report, &room, ahead + 1, last)) {
        free(report->ranges);
        return false;
      }
    }
    last = start;
  }
  for (uint32_t low = 0, high = report->count; low + 1 < high; low++, high--) {
    struct range range = report->ranges[low];
    report->ranges[low] = report->ranges[high - 1];
    report->ranges[high - 1] = range;
  }
  return true;
}

/* Sends a message to another instance. Where it isn't done, nothing has changed and the body is still the caller's. */
static inline enum answer send_message(const struct board *board, size_t own, size_t to,
                                       const struct message *message) {
  struct instance *self = &board->instance[own];
  struct outgoing *end = &self->outgoing[to];
  if (end->put - end->known_taken == board->capacity) {
    end->known_taken = atomic_load(&end->lane->taken);
    if (end->put - end->known_taken == board->capacity)
      return FULL;
  }
  if (self->event_count == MAX_EVENTS)
    return LINE_FULL;
  if (!make_event_room(self))
    return NO_MEMORY;
  add_event(self, SEND, to, 0, &message->name);
  self->clock.entries[own] = (uint32_t)self->event_count;

  struct slot *slot = &end->lane->slots[end->next_slot];
  slot->message = *message;
  for (size_t place = 0; place < board->instances; place++)
    slot->clock.entries[place] = self->clock.entries[place];
  if (++end->next_slot == board->capacity)
    end->next_slot = 0;
  atomic_store(&end->lane->put, ++end->put);
  return DONE;
}

/* Receives the first message that waits from another instance. The report is the instance's own, and stays where it is
 * until its next receive. Where it isn't done, nothing has changed. */
static inline enum answer receive_message(const struct board *board, size_t own, size_t from, struct message *message,
                                          const struct report **report) {
  struct instance *self = &board->instance[own];
  struct incoming *end = &self->incoming[from];
  if (end->taken == end->known_put) {
    end->known_put = atomic_load(&end->lane->put);
    if (end->taken == end->known_put)
      return NOTHING;
  }
  if (self->event_count == MAX_EVENTS)
    return LINE_FULL;
  if (!make_event_room(self) || !make_report_room(self))
    return NO_MEMORY;
  const struct slot *slot = &end->lane->slots[end->next_slot];
  struct report *found = &self->reports[self->report_count];
  if (!find_races(self, from, slot->clock.entries[own], found))
    return NO_MEMORY;
  self->report_count++;
  add_event(self, RECEIVE, from, next_run_start(self, from), &slot->message.name);
  for (size_t place = 0; place < board->instances; place++)
    if (self->clock.entries[place] < slot->clock.entries[place])
      self->clock.entries[place] = slot->clock.entries[place];

  *message = slot->message;
  *report = found;
  if (++end->next_slot == board->capacity)
    end->next_slot = 0;
  atomic_store(&end->lane->taken, ++end->taken);
  return DONE;
}

/* Frees the bodies of the messages that wait on a lane. */
static inline void free_waiting(struct incoming *end, size_t capacity) {
  uint64_t put = atomic_load(&end->lane->put);
  for (; end->taken < put; end->taken++) {
    free(end->lane->slots[end->next_slot].message.body);
    if (++end->next_slot == capacity)
      end->next_slot = 0;
  }
}

/* Frees a board, and what waits on its lanes. */
static inline void free_board(struct board *board) {
  for (size_t own = 0; own < board->instances; own++) {
    struct instance *self = &board->instance[own];
    for (size_t from = 0; from < board->instances; from++)
      free_waiting(&self->incoming[from], board->capacity);
    for (size_t place = 0; place < self->report_count; place++)
      free(self->reports[place].ranges);
    free(self->reports);
    free(self->events);
  }
  free(board->instance);
  free(board->lanes);
  free(board->slots);
}

/* Makes a board with a lane for each two instances, each way. False: there was no memory. */
static inline bool make_board(struct board *board, size_t instances, size_t capacity) {
  size_t lanes = instances * instances;
  *board = (struct board){.instances = instances, .capacity = capacity};
  board->slots = aligned_alloc(CACHE_LINE, lanes * capacity * sizeof(struct slot));
  board->lanes = aligned_alloc(CACHE_LINE, lanes * sizeof(struct lane));
  board->instance = aligned_alloc(CACHE_LINE, instances * sizeof(struct instance));
  if (board->slots == NULL || board->lanes == NULL || board->instance == NULL) {
    free(board->slots);
    free(board->lanes);
    free(board->instance);
    return false;
  }
  memset(board->slots, 0, lanes * capacity * sizeof(struct slot));
  memset(board->instance, 0, instances * sizeof(struct instance));
  for (size_t from = 0; from < instances; from++)
    for (size_t to = 0; to < instances; to++) {
      struct lane *lane = &board->lanes[from * instances + to];
      atomic_init(&lane->put, 0);
      atomic_init(&lane->taken, 0);
      lane->slots = &board->slots[(from * instances + to) * capacity];
      board->instance[from].outgoing[to].lane = lane;
      board->instance[to].incoming[from].lane = lane;
    }
  return true;
}

#endif
