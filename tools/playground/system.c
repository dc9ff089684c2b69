/* What the programs ask of a system, in memory: the words of the command line, files by their names, standard input (none),
 * and what they write to standard output and standard error. There is no environment, and there are no threads. */
#ifdef __wasm__
typedef __SIZE_TYPE__ size_t;
typedef __PTRDIFF_TYPE__ ssize_t;
typedef __INT32_TYPE__ int32_t;
typedef __INT64_TYPE__ int64_t;
#define NULL ((void *)0)
typedef __UINT8_TYPE__ uint8_t;
typedef __UINT64_TYPE__ uint64_t;
#else
#include <stddef.h>
#include <stdint.h>
#include <sys/types.h>
#endif

/* A number of texts: where each is, and how long. */
struct texts {
    size_t count;
    const uint8_t *const *at;
    const size_t *lengths;
};

/* What was written: as much as there is room for, and how long all of it is. */
struct written {
    uint8_t *at;
    size_t room, length;
};

enum { FIRST_FILE = 3, OPEN_AT_ONCE = 16 };
enum { NO_SUCH_FILE = 2, BAD_NUMBER = 9, TRY_AGAIN = 11, TOO_MANY_OPEN = 24, NO_SEEK = 29 };

static struct texts words, names, contents;
static struct written out, err;
static const uint8_t *program;
static size_t program_length;
static int error_number;

/* An open file: which of them it is, from 1, and how much of it was read. */
static struct {
    size_t file, read;
} opened[OPEN_AT_ONCE];

int mscview_main(void);
int mscrun_main(void);

/* Does what a program does with these words and files, and answers its exit status. */
int32_t page_answer(uint64_t which, size_t word_count, const uint8_t *const *word_at, const size_t *word_lengths,
                    size_t file_count, const uint8_t *const *name_at, const size_t *name_lengths,
                    const uint8_t *const *content_at, const size_t *content_lengths, uint8_t *out_at, size_t out_room,
                    uint8_t *err_at, size_t err_room, size_t *lengths) {
    static const uint8_t mscview[] = "mscview", mscrun[] = "mscrun";
    int status;
    size_t i;
    words = (struct texts){word_count, word_at, word_lengths};
    names = (struct texts){file_count, name_at, name_lengths};
    contents = (struct texts){file_count, content_at, content_lengths};
    out = (struct written){out_at, out_room, 0};
    err = (struct written){err_at, err_room, 0};
    program = which == 0 ? mscrun : mscview;
    program_length = which == 0 ? sizeof mscrun - 1 : sizeof mscview - 1;
    error_number = 0;
    for (i = 0; i < OPEN_AT_ONCE; i++) opened[i].file = 0;
    status = which == 0 ? mscrun_main() : mscview_main();
    lengths[0] = out.length;
    lengths[1] = err.length;
    return status;
}

static void copy(uint8_t *to, const uint8_t *from, size_t count) { __builtin_memcpy(to, from, count); }

static ssize_t fails(int error) {
    error_number = error;
    return -1;
}

int rattle_errno(void) { return error_number; }

void rattle_set_errno(int error) { error_number = error; }

size_t rattle_arg_count(void) { return words.count + 1; }

/* The word of this number: its length, -1 where there is none, or -2 where it doesn't fit. */
ssize_t rattle_arg(size_t number, uint8_t *buffer, size_t room) {
    const uint8_t *word = number == 0 ? program : number <= words.count ? words.at[number - 1] : NULL;
    size_t length = number == 0 ? program_length : number <= words.count ? words.lengths[number - 1] : 0;
    if (number > words.count) return -1;
    copy(buffer, word, length < room ? length : room);
    return length <= room ? (ssize_t)length : -2;
}

ssize_t rattle_env(const uint8_t *name, uint8_t *buffer, size_t room) {
    (void)name, (void)buffer, (void)room;
    return -1;
}

ssize_t rattle_env_at(size_t number, uint8_t *buffer, size_t room) {
    (void)number, (void)buffer, (void)room;
    return -1;
}

static int is_name(size_t file, const uint8_t *path) {
    size_t place;
    for (place = 0; place < names.lengths[file]; place++)
        if (path[place] == 0 || path[place] != names.at[file][place]) return 0;
    return path[place] == 0;
}

/* Opens a file for reading, whatever the flags say: it gets the number of a place that is free. */
int open(const uint8_t *path, int flags, ...) {
    size_t file, place;
    (void)flags;
    for (file = 0; file < names.count && !is_name(file, path); file++) {}
    if (file == names.count) return (int)fails(NO_SUCH_FILE);
    for (place = 0; place < OPEN_AT_ONCE && opened[place].file != 0; place++) {}
    if (place == OPEN_AT_ONCE) return (int)fails(TOO_MANY_OPEN);
    opened[place].file = file + 1;
    opened[place].read = 0;
    return (int)place + FIRST_FILE;
}

static int is_open(int number) {
    return number >= FIRST_FILE && number < FIRST_FILE + OPEN_AT_ONCE && opened[number - FIRST_FILE].file != 0;
}

int close(int number) {
    if (!is_open(number)) return (int)fails(BAD_NUMBER);
    opened[number - FIRST_FILE].file = 0;
    return 0;
}

ssize_t read(int number, uint8_t *buffer, size_t count) {
    size_t file, left, place = (size_t)number - FIRST_FILE;
    if (number == 0) return 0;
    if (!is_open(number)) return fails(BAD_NUMBER);
    file = opened[place].file - 1;
    left = contents.lengths[file] - opened[place].read;
    if (count > left) count = left;
    copy(buffer, contents.at[file] + opened[place].read, count);
    opened[place].read += count;
    return (ssize_t)count;
}

ssize_t write(int number, const uint8_t *bytes, size_t count) {
    struct written *to = number == 1 ? &out : &err;
    size_t fits = to->length < to->room ? to->room - to->length : 0;
    if (number != 1 && number != 2) return fails(BAD_NUMBER);
    copy(to->at + to->length, bytes, count < fits ? count : fits);
    to->length += count;
    return (ssize_t)count;
}

int64_t lseek(int number, int64_t by, int from) {
    (void)number, (void)by, (void)from;
    return fails(NO_SEEK);
}

/* What a program asks of threads: none can be made, and then instances run one after another. */
void *page_take(size_t size);
void page_give(void *at);

void *malloc(size_t size) { return page_take(size); }

void free(void *at) { page_give(at); }

int64_t __sysv_signal(int number, int64_t what) {
    (void)number, (void)what;
    return 0;
}

int pthread_create(void *thread, const void *attributes, const void *call, const void *argument) {
    (void)thread, (void)attributes, (void)call, (void)argument;
    return TRY_AGAIN;
}

int pthread_attr_init(void *attributes) { return (void)attributes, 0; }

int pthread_attr_setguardsize(void *attributes, size_t size) { return (void)attributes, (void)size, 0; }

int pthread_attr_setstacksize(void *attributes, size_t size) { return (void)attributes, (void)size, 0; }

int pthread_attr_destroy(void *attributes) { return (void)attributes, 0; }

int64_t pthread_self(void) { return 1; }

int pthread_detach(int64_t thread) { return (void)thread, 0; }

int pthread_join(int64_t thread, void *answer) { return (void)thread, (void)answer, 0; }

int sched_yield(void) { return 0; }

void abort(void) { __builtin_trap(); }

/* A program that ends in mid-call traps, and another instance is made. */
void _exit(int status) {
    (void)status;
    __builtin_trap();
}
