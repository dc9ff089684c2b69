/* Tries unpack.c on the machine itself: a text that tools/playground/pack wrote comes to the bytes that it was made of; and
 * texts that are cut or changed at random are refused, or come to the same bytes, with nothing read or written beyond their
 * places (a compiler's sanitizers see that).
 *   try_unpack PACKED BYTES ROUNDS */
#include <stdio.h>
#include <stdlib.h>
#include <string.h>
#include "unpack.c"

static void fail(const char *what) {
    printf("%s\n", what);
    exit(1);
}

struct read {
    uint8_t *at;
    size_t length;
};

static struct read all_of(const char *name) {
    struct read found = {NULL, 0};
    FILE *file = fopen(name, "rb");
    if (file == NULL || fseek(file, 0, SEEK_END) != 0) fail("a file can't be read");
    found.length = (size_t)ftell(file);
    rewind(file);
    found.at = malloc(found.length + 1);
    if (found.at == NULL || fread(found.at, 1, found.length, file) != found.length) fail("a file can't be read");
    found.at[found.length] = 0;
    fclose(file);
    return found;
}

static uint64_t state = 1;

static size_t draw(size_t below) {
    state = state * 6364136223846793005u + 1442695040888963407u;
    return (size_t)(state >> 33) % below;
}

/* A block that is as long as what is in it, so that a step beyond its end is seen. */
static uint8_t *copy_of(const uint8_t *bytes, size_t length) {
    uint8_t *copy = malloc(length > 0 ? length : 1);
    if (copy == NULL) fail("no memory");
    memcpy(copy, bytes, length);
    return copy;
}

static bool is_unpacked(const uint8_t *text, size_t length, struct read bytes, uint32_t sum) {
    uint8_t *packed = copy_of(text, length), *made = copy_of(bytes.at, bytes.length);
    bool is_same;
    memset(made, 0, bytes.length);
    is_same = unpack(packed, length, made, bytes.length, sum);
    if (is_same && memcmp(made, bytes.at, bytes.length) != 0) fail("other bytes have the same sum");
    free(packed);
    free(made);
    return is_same;
}

/* Changes, takes out or cuts something; whether anything is another one. */
static bool breaks(struct read *text) {
    size_t at = draw(text->length);
    uint8_t before = text->at[at];
    switch (draw(4)) {
    case 0: text->length = at; return true;
    case 1: memmove(text->at + at, text->at + at + 1, text->length - at - 1), text->length--; return true;
    case 2: text->at[at] ^= (uint8_t)(1u << draw(8)); return true;
    default: text->at[at] = (uint8_t)draw(256); return text->at[at] != before;
    }
}

int main(int count, char **words) {
    struct read file, text, bytes;
    char *end;
    uint32_t sum;
    long rounds, refused = 0;
    if (count != 4) fail("three words are wanted");
    file = all_of(words[1]);
    bytes = all_of(words[2]);
    if (strtoul((char *)file.at, &end, 10) != bytes.length) fail("another number of bytes");
    sum = (uint32_t)strtoul(end, &end, 10);
    text.at = (uint8_t *)end + 1;
    text.length = file.length - (size_t)(text.at - file.at);
    if (!is_unpacked(text.at, text.length, bytes, sum)) fail("the text is refused");
    for (rounds = strtol(words[3], NULL, 10); rounds > 0; rounds--) {
        struct read broken = {copy_of(text.at, text.length), text.length};
        uint8_t *begin = broken.at;
        if (breaks(&broken) && !is_unpacked(broken.at, broken.length, bytes, sum)) refused++;
        free(begin);
    }
    printf("%ld are refused\n", refused);
    free(file.at);
    free(bytes.at);
    return 0;
}
