/* Loaded before a program by LD_PRELOAD: refuses a growth of memory, in one run of the program after another. Each run, a
   turn, is a process of its own, forked before the program has done anything. In the first turn the growth whose number
   FIRST_GROWTH gives, from 1, is refused, in each other one the growth GROWTH_STEP further on; all growths after it too,
   where REFUSED_FROM_THERE_ON is set.

   The turns end with the first one that isn't usual, at the latest with LAST_GROWTH. A usual one came to the growth that is
   refused, and
   - where ANSWER names a case's folder: it says nothing but that memory was refused, or its answer, with ANSWER_STATUS, is
     the case's own;
   - else: it ended with status 0, or with USUAL_STATUS, and has given back all but KEPT_BLOCKS (0).
   The folder TURN_FILES then has what the last turn wrote, in stdout and stderr, and in turn a line: the number of its
   growth, 1 or else 0 where it didn't come to that, its status as a shell has it, and the blocks that it left and took, as
   LIVE_FILE has them too (count_live.h).

   Without FIRST_GROWTH the program runs as it is, and is counted alone. What has not ended after REFUSAL_SECONDS, or else a
   minute, is stopped: a turn, or such a run. */
#define _GNU_SOURCE
#include <errno.h>
#include <signal.h>
#include <stddef.h>
#include <stdio.h>
#include <string.h>
#include <sys/stat.h>
#include <sys/wait.h>

#include "count_live.h"

extern void *__libc_malloc(size_t);
extern void *__libc_calloc(size_t, size_t);
extern void *__libc_realloc(void *, size_t);
extern void *__libc_memalign(size_t, size_t);
extern void __libc_free(void *);

static long growths, asked = -1;
static int from_there_on, unreached, *reached = &unreached;

static int is_refused(void) {
  long growth = __atomic_add_fetch(&growths, 1, __ATOMIC_SEQ_CST);
  if (asked < 0 || growth < asked || (growth > asked && !from_there_on)) return 0;
  *reached = 1;
  errno = ENOMEM;
  return 1;
}

void *malloc(size_t size) { return is_refused() ? NULL : taken(__libc_malloc(size), IS_OWN()); }
void *calloc(size_t count, size_t size) { return is_refused() ? NULL : taken(__libc_calloc(count, size), IS_OWN()); }
void *memalign(size_t by, size_t size) { return is_refused() ? NULL : taken(__libc_memalign(by, size), IS_OWN()); }
void *aligned_alloc(size_t by, size_t size) { return is_refused() ? NULL : taken(__libc_memalign(by, size), IS_OWN()); }

void *realloc(void *old, size_t size) {
  int own = IS_OWN();
  if (is_refused()) return NULL;
  void *block = __libc_realloc(old, size);
  if (!old) return taken(block, own);
  if (size == 0) given_back(old, own);
  return block;
}

int posix_memalign(void **made, size_t by, size_t size) {
  void *given = is_refused() ? NULL : taken(__libc_memalign(by, size), IS_OWN());
  if (!given) return ENOMEM;
  *made = given;
  return 0;
}

void free(void *block) {
  given_back(block, IS_OWN());
  __libc_free(block);
}

/* The turns' own part: it takes no memory by what is above. */
struct bytes {
  const char *at;
  size_t size;
};

static void give_up(const char *what) {
  dprintf(2, "refuse_growth: %s: %s\n", what, strerror(errno));
  _exit(125);
}

static long number_of(const char *name, long otherwise) {
  const char *text = getenv(name);
  return text ? atol(text) : otherwise;
}

static int opened(const char *folder, const char *name, int how) {
  char path[4096];
  snprintf(path, sizeof path, "%s/%s", folder, name);
  int file = open(path, how | O_CLOEXEC, 0600);
  if (file < 0) give_up(path);
  return file;
}

/* What stands in a file. */
static struct bytes mapped(int file) {
  struct stat info;
  if (fstat(file, &info) != 0) give_up("a file's size");
  struct bytes bytes = {"", info.st_size};
  if (bytes.size == 0) return bytes;
  bytes.at = mmap(NULL, bytes.size, PROT_READ, MAP_PRIVATE, file, 0);
  if (bytes.at == MAP_FAILED) give_up("a file's bytes");
  return bytes;
}

static int stands(struct bytes wanted, int file) {
  struct stat info;
  if (fstat(file, &info) != 0) give_up("a file's size");
  if (info.st_size != (off_t)wanted.size) return 0;
  struct bytes found = mapped(file);
  int same = memcmp(found.at, wanted.at, wanted.size) == 0;
  if (found.size > 0) munmap((void *)found.at, found.size);
  return same;
}

static const struct bytes nothing = {"", 0}, no_memory = {"refused: F6 Memory\n", 19};

static struct {
  int out, err, is_case, answer_status, usual_status;
  int64_t kept;
  struct bytes answer, stated;
} turns;

static void open_turns(const char *folder) {
  const char *answer = getenv("ANSWER");
  turns.out = opened(folder, "stdout", O_CREAT | O_TRUNC | O_RDWR);
  turns.err = opened(folder, "stderr", O_CREAT | O_TRUNC | O_RDWR);
  turns.is_case = answer != NULL;
  turns.answer_status = number_of("ANSWER_STATUS", 0);
  turns.usual_status = number_of("USUAL_STATUS", 0);
  turns.kept = number_of("KEPT_BLOCKS", 0);
  if (!answer) return;
  turns.answer = mapped(opened(answer, "stdout", O_RDONLY));
  turns.stated = mapped(opened(answer, "stderr", O_RDONLY));
}

static int is_usual(int status) {
  if (!*reached) return 0;
  if (!turns.is_case) return (status == 0 || status == turns.usual_status) && counts->live == turns.kept;
  if (status == 2 && stands(nothing, turns.out) && stands(no_memory, turns.err)) return 1;
  return status == turns.answer_status && stands(turns.answer, turns.out) && stands(turns.stated, turns.err);
}

/* Makes the two files that a turn writes to empty. */
static void empty_files(void) {
  int files[2] = {turns.out, turns.err};
  for (int at = 0; at < 2; at++)
    if (ftruncate(files[at], 0) != 0 || lseek(files[at], 0, SEEK_SET) != 0) give_up("an empty file");
}

static void be_stopped_in_time(void) { alarm(number_of("REFUSAL_SECONDS", 60)); }

/* Begins a turn, and waits for its end. The turn itself returns -1. */
static int run_turn(long growth) {
  *reached = 0;
  counts->live = counts->taken = 0;
  empty_files();
  pid_t turn = fork();
  if (turn < 0) give_up("a turn");
  if (turn == 0) {
    dup2(turns.out, 1);
    dup2(turns.err, 2);
    growths = 0;
    asked = growth;
    be_stopped_in_time();
    return -1;
  }
  int status;
  while (waitpid(turn, &status, 0) < 0)
    if (errno != EINTR) give_up("a turn's end");
  return WIFEXITED(status) ? WEXITSTATUS(status) : 128 + WTERMSIG(status);
}

__attribute__((constructor)) static void begin(void) {
  from_there_on = getenv("REFUSED_FROM_THERE_ON") != NULL;
  begin_counting();
  growths = 0;
  if (!getenv("FIRST_GROWTH")) {
    be_stopped_in_time();
    return;
  }
  const char *folder = getenv("TURN_FILES");
  long growth = number_of("FIRST_GROWTH", 1), step = number_of("GROWTH_STEP", 1), last = number_of("LAST_GROWTH", 1);
  if (!folder) give_up("no TURN_FILES");
  reached = mmap(NULL, sizeof *reached, PROT_READ | PROT_WRITE, MAP_SHARED | MAP_ANONYMOUS, -1, 0);
  if (reached == MAP_FAILED) give_up("a page");
  open_turns(folder);
  int status;
  for (;; growth += step) {
    status = run_turn(growth);
    if (status < 0) return;
    if (growth + step > last || !is_usual(status)) break;
  }
  dprintf(opened(folder, "turn", O_CREAT | O_TRUNC | O_WRONLY), "%ld %d %d %ld %ld\n", growth, *reached, status,
          (long)counts->live, (long)counts->taken);
  _exit(0);
}
