/* msc_send_all: all messages or none, none of them cut, and each misuse of its lengths. */
#include <msc.h>
#include <stdio.h>

static int failures;

static void is(const char *what, int answer, int wanted) {
    if (answer == wanted) return;
    printf("%s: %d and not %d\n", what, answer, wanted);
    failures++;
}

static void is_text(const char *what, const char *text, size_t length, const char *wanted) {
    if (length == strlen(wanted) && memcmp(text, wanted, length) == 0) return;
    printf("%s: %.*s and not %s\n", what, (int)length, text, wanted);
    failures++;
}

/* Several messages at once: all of them or none. */
static void several(void) {
    static const msc_message three[] = {{1, 2}, {2, 0}, {3, 1}}, bad[] = {{1, 2}, {0, 2}, {3, 1}};
    static const msc_message beyond[] = {{1, 2}, {2, 0}, {3, 9}, {1, 1}}, wraps[] = {{1, SIZE_MAX}, {1, 8}};
    msc_post posts[2] = {MSC_POST_INIT};
    msc_arrival came;
    uint32_t event = 9;
    char text[64];
    size_t length;
    is("a board", msc_open(posts, 2, 4), MSC_DONE);
    is("a bad name", msc_send_all(&posts[0], 2, "a12bbccc3", 9, bad, 3, &event), MSC_NAME_EMPTY);
    is("bodies beyond the bytes", msc_send_all(&posts[0], 2, "a12bbccc3", 9, beyond, 4, &event), MSC_MISUSE);
    is("bytes behind the last body", msc_send_all(&posts[0], 2, "a12bbccc3d", 10, three, 3, &event), MSC_MISUSE);
    is("a byte too few", msc_send_all(&posts[0], 2, "a12bbccc", 8, three, 3, &event), MSC_MISUSE);
    is("lengths whose sum wraps", msc_send_all(&posts[0], 2, "a12bbccc3", 9, wraps, 2, &event), MSC_MISUSE);
    is("bytes of no message", msc_send_all(&posts[0], 2, "a", 1, NULL, 0, &event), MSC_MISUSE);
    is("wrong lengths to none", msc_send_all(&posts[0], 3, "a12bbccc3", 9, beyond, 4, &event), MSC_MISUSE);
    is("to none", msc_send_all(&posts[0], 3, "a12bbccc3", 9, three, 3, &event), MSC_NO_SUCH_INSTANCE);
    is("to itself", msc_send_all(&posts[0], 1, "a12bbccc3", 9, three, 3, &event), MSC_TO_ITSELF);
    is("nothing was sent", msc_receive(&posts[1], 1, &came), MSC_NOTHING);
    is("no event is reported", (int)event, 9);
    is("no message", msc_send_all(&posts[0], 2, NULL, 0, NULL, 0, &event), MSC_DONE);
    is("no event", (int)event, 0);
    is("a send", msc_send(&posts[0], 2, "before", NULL, 0, NULL), MSC_DONE);
    is("three messages", msc_send_all(&posts[0], 2, "a12bbccc3", 9, three, 3, &event), MSC_DONE);
    is("the first one's event", (int)event, 2);
    is("a full lane", msc_send_all(&posts[0], 2, "a12bbccc3", 9, three, 3, &event), MSC_FULL);
    is("the one before", msc_receive(&posts[1], 1, &came), MSC_DONE);
    is("the first", msc_receive(&posts[1], 1, &came), MSC_DONE);
    is("its body", msc_body(&posts[1], text, 64, &length), MSC_DONE);
    is_text("its body", text, length, "12");
    is("the second", msc_receive(&posts[1], 1, &came), MSC_DONE);
    is("its name", msc_name(&posts[1], text, 64, &length), MSC_DONE);
    is_text("its name", text, length, "bb");
    is("its body's length", (int)came.body_length, 0);
    is("the third", msc_receive(&posts[1], 1, &came), MSC_DONE);
    is("its name", msc_name(&posts[1], text, 64, &length), MSC_DONE);
    is_text("its name", text, length, "ccc");
    is("no fourth", msc_receive(&posts[1], 1, &came), MSC_NOTHING);
    event = 7;
    is("an event in its body", msc_send(&posts[0], 2, "m", &event, sizeof event, &event), MSC_DONE);
    is("its number", (int)event, 5);
    is("its receive", msc_receive(&posts[1], 1, &came), MSC_DONE);
    is("its body", msc_body(&posts[1], &event, sizeof event, &length), MSC_DONE);
    is("what was sent", (int)event, 7);
    msc_free(&posts[0]);
    msc_free(&posts[1]);
    is("a board of one slot", msc_open(posts, 2, 1), MSC_DONE);
    is("more than it has", msc_send_all(&posts[0], 2, "a12bbccc3", 9, three, 3, &event), MSC_TOO_MANY);
    msc_free(&posts[0]);
    msc_free(&posts[1]);
}

int main(void) {
    several();
    return failures != 0;
}
