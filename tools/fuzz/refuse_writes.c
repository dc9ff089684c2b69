/* Loaded before a program by LD_PRELOAD. Each write to standard output takes one byte, as many as WRITTEN_MOST says, and then
   fails as on a full device; so does each write to standard error, by STATED_MOST. Without these names nothing is changed. */
#define _GNU_SOURCE
#include <errno.h>
#include <stdlib.h>
#include <sys/syscall.h>
#include <unistd.h>

static long left[3] = {-1, -1, -1};

__attribute__((constructor)) static void begin(void) {
  const char *written = getenv("WRITTEN_MOST"), *stated = getenv("STATED_MOST");
  left[1] = written ? atol(written) : -1;
  left[2] = stated ? atol(stated) : -1;
}

ssize_t write(int file, const void *bytes, size_t size) {
  if ((file == 1 || file == 2) && left[file] >= 0 && size > 0) {
    if (left[file] == 0) {
      errno = ENOSPC;
      return -1;
    }
    left[file]--;
    size = 1;
  }
  return syscall(SYS_write, file, bytes, size);
}
