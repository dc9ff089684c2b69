/* Does what mscview does, by msc_view, and ends with its answer.
 *
 *     viewed COUNT FILE.. WORD..      with the bytes of COUNT files, in the order in which the words name them
 *     viewed refuse COUNT FILE.. WORD..   the same with each request for memory refused in turn: each ends with status 2 and
 *                                     a refusal for want of memory, or a beginning of one, and all blocks are given back
 *     viewed misuse                   calls that are answered MSC_MISUSE, and texts that are cut
 */
#include <msc.h>
#include <stdio.h>
#include <stdlib.h>

enum { ROOM = 64 << 20, FILES = 8 };

static long asked, refused = -1, live;

struct msc_block rattle_alloc(size_t size, size_t align) {
    struct msc_block block = {0, NULL};
    if (++asked == refused) return block;
    block.at = malloc(size ? size : align);
    block.ok = block.at != NULL;
    live += block.ok;
    return block;
}

struct msc_block rattle_realloc(void *at, size_t used, size_t size, size_t align) {
    struct msc_block block = {0, NULL};
    (void)used;
    if (++asked == refused) return block;
    block.at = realloc(at, size ? size : align);
    block.ok = block.at != NULL;
    return block;
}

void rattle_dealloc(void *at) {
    live -= at != NULL;
    free(at);
}

static int failures;

static void is(const char *what, long answer, long wanted) {
    if (answer == wanted) return;
    printf("%s: %ld and not %ld\n", what, answer, wanted);
    failures++;
}

static char *out, *err;
static size_t out_length, err_length;

/* Whether what was reported is a beginning of one of the refusals for want of memory. */
static int is_for_want_of_memory(void) {
    static const char *const all[] = {"refused: F6 Memory\n", "refused: F24 Write\n"};
    size_t i;
    for (i = 0; i < 2; i++)
        if (err_length <= strlen(all[i]) && memcmp(err, all[i], err_length) == 0) return 1;
    return 0;
}

static int view(int count, char **words, size_t texts, const char *const *text, const size_t *length) {
    return msc_view(count, (const char *const *)words, texts, text, length, out, ROOM, &out_length, err, ROOM, &err_length);
}

static int refuse_each(int count, char **words, size_t texts, const char *const *text, const size_t *length) {
    int status = view(count, words, texts, text, length), answer;
    long all = asked, n;
    for (n = 1; n <= all; n++) {
        asked = 0;
        refused = n;
        answer = view(count, words, texts, text, length);
        /* (what reports on standard error may lack a part, where the memory for it was refused) */
        if (answer != status && (answer != 2 || !is_for_want_of_memory())) {
            printf("the %ld. request was refused: %d %.*s\n", n, answer, (int)err_length, err);
            failures++;
        }
        is("blocks that are left", live, 0);
    }
    printf("%ld requests\n", all);
    return failures != 0;
}

static int misuse(void) {
    static const char chart[] = "msc run;\ninstance a;\nout m to b;\nendinstance;\ninstance b;\nin m from a;\nendinstance;\nendmsc;\n";
    static const char *const races[] = {"races", "a chart"}, *const none[] = {NULL}, *const compare[] = {"compare", "a", "b"},
                     *const wrong[] = {"explane"}, *const bad[] = {"races", "\377"}, *const explain[] = {"explain"};
    const char *const text[] = {chart, chart};
    const size_t length[] = {sizeof chart - 1, sizeof chart - 1}, one[] = {1};
    out_length = err_length = 9;
    is("no words", msc_view(1, NULL, 1, text, length, out, ROOM, &out_length, err, ROOM, &err_length), MSC_MISUSE);
    is("fewer words than none", msc_view(-1, races, 1, text, length, out, ROOM, &out_length, err, ROOM, &err_length), MSC_MISUSE);
    is("a word that is none", msc_view(1, none, 1, text, length, out, ROOM, &out_length, err, ROOM, &err_length), MSC_MISUSE);
    is("no texts", msc_view(2, races, 1, NULL, length, out, ROOM, &out_length, err, ROOM, &err_length), MSC_MISUSE);
    is("no lengths", msc_view(2, races, 1, text, NULL, out, ROOM, &out_length, err, ROOM, &err_length), MSC_MISUSE);
    is("a text that is none", msc_view(2, races, 1, none, one, out, ROOM, &out_length, err, ROOM, &err_length), MSC_MISUSE);
    is("no room", msc_view(2, races, 1, text, length, NULL, 1, &out_length, err, ROOM, &err_length), MSC_MISUSE);
    is("no room for errors", msc_view(2, races, 1, text, length, out, ROOM, &out_length, NULL, 1, &err_length), MSC_MISUSE);
    is("no length", msc_view(2, races, 1, text, length, out, ROOM, NULL, err, ROOM, &err_length), MSC_MISUSE);
    is("no length of errors", msc_view(2, races, 1, text, length, out, ROOM, &out_length, err, ROOM, NULL), MSC_MISUSE);
    is("a text too few", msc_view(2, races, 0, NULL, NULL, out, ROOM, &out_length, err, ROOM, &err_length), MSC_MISUSE);
    is("a text too many", msc_view(2, races, 2, text, length, out, ROOM, &out_length, err, ROOM, &err_length), MSC_MISUSE);
    is("one text to compare", msc_view(3, compare, 1, text, length, out, ROOM, &out_length, err, ROOM, &err_length), MSC_MISUSE);
    is("nothing is reported of these", (long)(out_length + err_length), 18);
    is("two texts to compare", msc_view(3, compare, 2, text, length, out, ROOM, &out_length, err, ROOM, &err_length), 0);
    is("no races", msc_view(2, races, 1, text, length, out, ROOM, &out_length, err, ROOM, &err_length), 0);
    is("another command", msc_view(1, wrong, 0, NULL, NULL, out, ROOM, &out_length, err, ROOM, &err_length), 2);
    is("why", (long)(err_length == 18 && memcmp(err, "refused: G1 Usage\n", 18) == 0), 1);
    is("a word that isn't text", msc_view(2, bad, 1, text, length, out, ROOM, &out_length, err, ROOM, &err_length), 2);
    is("why", (long)(err_length == 18 && memcmp(err, "refused: G1 Usage\n", 18) == 0), 1);
    is("an empty text", msc_view(1, explain, 1, none, (const size_t[]){0}, out, ROOM, &out_length, err, ROOM, &err_length), 1);
    is("standard input", msc_view(1, explain, 1, text, length, out, ROOM, &out_length, err, ROOM, &err_length), 0);
    out[4] = '!';
    out[5] = '!';
    is("the same, cut", msc_view(1, explain, 1, text, length, out, 5, &out_length, NULL, 0, &err_length), 0);
    is("the place behind what was cut", out[5], '!');
    is("its whole length", (long)(out_length > 5), 1);
    return failures != 0;
}

int main(int count, char **words) {
    static char *bytes[FILES];
    const char *text[FILES];
    size_t length[FILES], texts, i;
    int refuses, answer;
    FILE *file;
    if (count < 2 || (out = malloc(ROOM)) == NULL || (err = malloc(ROOM)) == NULL) return 9;
    if (strcmp(words[1], "misuse") == 0) return misuse();
    refuses = strcmp(words[1], "refuse") == 0;
    words += 1 + refuses;
    count -= 1 + refuses;
    if (count < 1 || (texts = strtoul(words[0], NULL, 10)) > FILES || (size_t)count < 1 + texts) return 9;
    for (i = 0; i < texts; i++) {
        if ((bytes[i] = malloc(ROOM)) == NULL || (file = fopen(words[1 + i], "rb")) == NULL) return 9;
        length[i] = fread(bytes[i], 1, ROOM, file);
        text[i] = bytes[i];
        fclose(file);
    }
    words += 1 + texts;
    count -= 1 + (int)texts;
    if (refuses) return refuse_each(count, words, texts, text, length);
    answer = view(count, words, texts, text, length);
    if (answer < 0 || out_length > ROOM || err_length > ROOM) return 9;
    fwrite(out, 1, out_length, stdout);
    fwrite(err, 1, err_length, stderr);
    return answer;
}
