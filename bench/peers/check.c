/* A check of charts as one writes it by hand: it reads a chart's text, runs its lines with vector clocks, and writes the
 * races of each receive, a line a race, as `mscrun check` does. It is the peer that this program's times are compared with.
 *
 *   check FILE
 *
 * The exit status is 1 where there are races, 0 where there are none, and 2 where the text is none or its chart isn't
 * possible. What it doesn't do: it reports no fault's kind nor its line, and it has no proof. */
#include <stdbool.h>
#include <stdint.h>
#include <stdio.h>
#include <stdlib.h>
#include <string.h>

enum { MOST_LINES = 32, MOST_EVENTS = 4096, LONGEST_NAME = 32 };

struct name {
  const char *bytes;
  uint32_t length;
};

struct event {
  struct name message;
  bool receives;
  uint8_t partner;
  uint16_t region; /* the coregion that it is in, from 1, or 0 */
};

struct line {
  struct name name;
  struct event *events;
  size_t count;
  size_t done;
  uint32_t knows[MOST_LINES]; /* how many events of each line are before its next send */
};

/* A message on its way: whose it is, and what its send knows. */
struct packet {
  struct name message;
  uint32_t *knows;
};

/* The messages from one line to another, first in, first out. */
struct lane {
  struct packet *packets;
  size_t sent, taken;
};

struct chart {
  struct line lines[MOST_LINES];
  size_t count;
  struct lane lanes[MOST_LINES][MOST_LINES];
};

static void *room_for(size_t count, size_t size) {
  void *room = calloc(count != 0 ? count : 1, size);
  if (room == NULL) exit(2);
  return room;
}

static bool same(struct name a, struct name b) {
  return a.length == b.length && memcmp(a.bytes, b.bytes, a.length) == 0;
}

/* ---- the text ---- */

struct text {
  const char *at, *end;
};

static bool takes(struct text *text, const char *word) {
  size_t length = strlen(word);
  if ((size_t)(text->end - text->at) < length || memcmp(text->at, word, length) != 0) return false;
  text->at += length;
  return true;
}

static bool is_letter(char byte) { return (byte >= 'a' && byte <= 'z') || (byte >= 'A' && byte <= 'Z'); }

static bool takes_name(struct text *text, struct name *name) {
  const char *at = text->at;
  if (at == text->end || !is_letter(*at)) return false;
  while (at != text->end && (is_letter(*at) || (*at >= '0' && *at <= '9') || *at == '_')) at++;
  if (at - text->at > LONGEST_NAME) return false;
  *name = (struct name){text->at, (uint32_t)(at - text->at)};
  text->at = at;
  return true;
}

/* An event, and its partner's name: partners are looked up once all lines are known. */
static bool takes_event(struct text *text, struct event *event, struct name *partner) {
  if (takes(text, "out ")) {
    event->receives = false;
    return takes_name(text, &event->message) && takes(text, " to ") && takes_name(text, partner) && takes(text, ";\n");
  }
  event->receives = true;
  return takes(text, "in ") && takes_name(text, &event->message) && takes(text, " from ") && takes_name(text, partner) &&
         takes(text, ";\n");
}

static bool takes_line(struct text *text, struct line *line, struct name *partners) {
  uint16_t regions = 0, region = 0;
  if (!takes(text, "instance ") || !takes_name(text, &line->name) || !takes(text, ";\n")) return false;
  line->events = room_for(MOST_EVENTS, sizeof *line->events);
  while (!takes(text, "endinstance;\n")) {
    if (region == 0 && takes(text, "concurrent;\n")) {
      region = ++regions;
    } else if (region != 0 && line->count != 0 && line->events[line->count - 1].region == region &&
               takes(text, "endconcurrent;\n")) {
      region = 0;
    } else {
      struct event *event = &line->events[line->count];
      if (line->count == MOST_EVENTS || !takes_event(text, event, &partners[line->count])) return false;
      if (region != 0 && !event->receives) return false;
      event->region = region;
      line->count++;
    }
  }
  return region == 0;
}

static bool looks_up(const struct chart *chart, struct name name, uint8_t *found) {
  for (size_t line = 0; line < chart->count; line++) {
    if (same(chart->lines[line].name, name)) {
      *found = (uint8_t)line;
      return true;
    }
  }
  return false;
}

static bool reads(struct text *text, struct chart *chart) {
  static struct name partners[MOST_LINES][MOST_EVENTS];
  if (!takes(text, "msc run;\n")) return false;
  while (!takes(text, "endmsc;\n")) {
    if (chart->count == MOST_LINES || !takes_line(text, &chart->lines[chart->count], partners[chart->count])) return false;
    chart->count++;
  }
  for (size_t line = 0; line < chart->count; line++) {
    uint8_t found;
    if (!looks_up(chart, chart->lines[line].name, &found) || found != line) return false;
    for (size_t event = 0; event < chart->lines[line].count; event++) {
      uint8_t *partner = &chart->lines[line].events[event].partner;
      if (!looks_up(chart, partners[line][event], partner) || *partner == line) return false;
    }
  }
  return text->at == text->end && chart->count >= 2;
}

/* ---- the run ---- */

static void sends(struct chart *chart, size_t line, const struct event *event) {
  struct lane *lane = &chart->lanes[line][event->partner];
  uint32_t *knows = room_for(chart->count, sizeof *knows);
  memcpy(knows, chart->lines[line].knows, chart->count * sizeof *knows);
  knows[line] = (uint32_t)chart->lines[line].done + 1;
  lane->packets[lane->sent++] = (struct packet){event->message, knows};
}

static bool receives(struct chart *chart, size_t own, bool *waits) {
  struct line *line = &chart->lines[own];
  const struct event *receive = &line->events[line->done];
  struct lane *lane = &chart->lanes[receive->partner][own];
  *waits = lane->taken == lane->sent;
  if (*waits) return true;
  struct packet *packet = &lane->packets[lane->taken++];
  if (!same(packet->message, receive->message)) return false;
  for (size_t other = 0; other < chart->count; other++)
    if (packet->knows[other] > line->knows[other]) line->knows[other] = packet->knows[other];
  return true;
}

/* Each receive keeps what its message knows of its own line, for the races that are written line by line in the end. */
static uint32_t *known_of[MOST_LINES];

static bool runs(struct chart *chart) {
  bool moved = true;
  size_t left = 0;
  for (size_t line = 0; line < chart->count; line++) {
    left += chart->lines[line].count;
    known_of[line] = room_for(chart->lines[line].count, sizeof **known_of);
    for (size_t other = 0; other < chart->count; other++)
      chart->lanes[line][other].packets = room_for(chart->lines[line].count, sizeof(struct packet));
  }
  while (moved) {
    moved = false;
    for (size_t own = 0; own < chart->count; own++) {
      struct line *line = &chart->lines[own];
      for (; line->done < line->count; line->done++, left--, moved = true) {
        const struct event *event = &line->events[line->done];
        bool waits;
        if (!event->receives) {
          sends(chart, own, event);
          continue;
        }
        if (!receives(chart, own, &waits)) return false;
        if (waits) break;
        const struct lane *lane = &chart->lanes[event->partner][own];
        known_of[own][line->done] = lane->packets[lane->taken - 1].knows[own];
      }
    }
  }
  return left == 0;
}

/* ---- the races ---- */

struct writer {
  char bytes[1 << 16];
  size_t used;
};

static void flushes(struct writer *writer) {
  if (fwrite(writer->bytes, 1, writer->used, stdout) != writer->used) exit(2);
  writer->used = 0;
}

static void writes(struct writer *writer, const char *bytes, size_t length) {
  if (sizeof writer->bytes - writer->used < length) flushes(writer);
  memcpy(writer->bytes + writer->used, bytes, length);
  writer->used += length;
}

/* A number in decimal digits, with a byte behind it. Answers how many bytes there are, at the end of the twelve. */
static size_t digits(char digits[12], size_t number, char behind) {
  size_t at = 12;
  digits[--at] = behind;
  do digits[--at] = (char)('0' + number % 10);
  while ((number /= 10) != 0);
  return at;
}

/* Whether an event that a receive's message doesn't know is before it all the same, or in no order with it: another
 * receive from the same sender, or of the same coregion. */
static bool is_before(const struct event *event, const struct event *receive) {
  if (!event->receives) return false;
  return event->partner == receive->partner || (receive->region != 0 && event->region == receive->region);
}

static bool writes_races(struct writer *writer, const struct chart *chart) {
  bool any = false;
  for (size_t own = 0; own < chart->count; own++) {
    const struct line *line = &chart->lines[own];
    char head[LONGEST_NAME + 6], number[12], last[12];
    size_t head_length = 5 + line->name.length + 1;
    memcpy(head, "race ", 5);
    memcpy(head + 5, line->name.bytes, line->name.length);
    head[head_length - 1] = ' ';
    for (size_t at = 0; at < line->count; at++) {
      const struct event *receive = &line->events[at];
      if (!receive->receives) continue;
      size_t last_from = digits(last, at + 1, '\n');
      for (size_t earlier = known_of[own][at]; earlier < at; earlier++) {
        if (is_before(&line->events[earlier], receive)) continue;
        size_t from = digits(number, earlier + 1, ' ');
        writes(writer, head, head_length);
        writes(writer, number + from, 12 - from);
        writes(writer, last + last_from, 12 - last_from);
        any = true;
      }
    }
  }
  return any;
}

static struct text whole(const char *path) {
  FILE *file = fopen(path, "rb");
  if (file == NULL || fseek(file, 0, SEEK_END) != 0) exit(2);
  long length = ftell(file);
  if (length < 0 || fseek(file, 0, SEEK_SET) != 0) exit(2);
  char *bytes = room_for((size_t)length, 1);
  if (fread(bytes, 1, (size_t)length, file) != (size_t)length) exit(2);
  fclose(file);
  return (struct text){bytes, bytes + length};
}

int main(int count, char **words) {
  static struct chart chart;
  static struct writer writer;
  if (count != 2) return 2;
  struct text text = whole(words[1]);
  if (!reads(&text, &chart) || !runs(&chart)) return 2;
  bool any = writes_races(&writer, &chart);
  flushes(&writer);
  return any;
}
