/* Counts the blocks of memory that a program took and didn't give back, and how many it took, in the file that LIVE_FILE
   names: two numbers of 64 bits, which are right whenever the program ends and however. What the C library takes for itself,
   as for threads, isn't counted: a call counts where it comes from the program's own code. */
#include <fcntl.h>
#include <link.h>
#include <stdint.h>
#include <stdlib.h>
#include <sys/mman.h>
#include <unistd.h>

struct counts {
  int64_t live, taken;
};

static struct counts none, *counts = &none;
static uintptr_t code_begins, code_ends;

/* The first object is the program itself: notes where its code lies. */
static int note_code(struct dl_phdr_info *info, size_t size, void *unused) {
  (void)size, (void)unused;
  for (int i = 0; i < info->dlpi_phnum; i++) {
    const ElfW(Phdr) *part = &info->dlpi_phdr[i];
    if (part->p_type != PT_LOAD || !(part->p_flags & PF_X)) continue;
    code_begins = info->dlpi_addr + part->p_vaddr;
    code_ends = code_begins + part->p_memsz;
  }
  return 1;
}

static void begin_counting(void) {
  const char *name = getenv("LIVE_FILE");
  int file = name ? open(name, O_CREAT | O_RDWR | O_TRUNC | O_CLOEXEC, 0600) : -1;
  if (file < 0) return;
  void *shared = MAP_FAILED;
  if (ftruncate(file, sizeof *counts) == 0)
    shared = mmap(NULL, sizeof *counts, PROT_READ | PROT_WRITE, MAP_SHARED, file, 0);
  close(file);
  if (shared == MAP_FAILED) return;
  counts = shared;
  dl_iterate_phdr(note_code, NULL);
}

/* Whether the call of the function that asks comes from the program's own code. */
#define IS_OWN() is_own((uintptr_t)__builtin_return_address(0))
static int is_own(uintptr_t caller) { return code_begins <= caller && caller < code_ends; }

static void *taken(void *block, int own) {
  if (block && own) {
    __atomic_add_fetch(&counts->live, 1, __ATOMIC_SEQ_CST);
    __atomic_add_fetch(&counts->taken, 1, __ATOMIC_SEQ_CST);
  }
  return block;
}

static void given_back(void *block, int own) {
  if (block && own) __atomic_sub_fetch(&counts->live, 1, __ATOMIC_SEQ_CST);
}
