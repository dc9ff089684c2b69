/* Does with a file what mscrun does, by msc_perform, and ends with its answer.
 *
 *     performed replay|random|check SEED FILE
 */
#include <msc.h>
#include <stdio.h>
#include <stdlib.h>

enum { ROOM = 64 << 20 };

int main(int count, char **words) {
    char *text = malloc(ROOM), *out = malloc(ROOM), err[4096];
    size_t length, out_length, err_length;
    int task, answer;
    FILE *file;
    if (count != 4 || text == NULL || out == NULL || (file = fopen(words[3], "rb")) == NULL) return 9;
    length = fread(text, 1, ROOM, file);
    fclose(file);
    task = words[1][0] == 'c' ? MSC_CHECK : words[1][1] == 'a' ? MSC_RANDOM : MSC_REPLAY;
    answer = msc_perform(task, strtoull(words[2], NULL, 10), text, length, out, ROOM, &out_length, err, sizeof err, &err_length);
    if (answer < 0 || out_length > ROOM || err_length > sizeof err) return 9;
    fwrite(out, 1, out_length, stdout);
    fwrite(err, 1, err_length, stderr);
    free(text);
    free(out);
    return answer;
}
