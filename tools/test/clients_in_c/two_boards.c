/* Posts of two boards, and boards that can't take over what another one left: each is refused, and nothing is lost. */
#include <msc.h>
#include <stdio.h>

static int failures;

static void is(const char *what, int answer, int wanted) {
    if (answer == wanted) return;
    printf("%s: %d and not %d\n", what, answer, wanted);
    failures++;
}

static void end(msc_post *posts, int many) {
    for (int i = 0; i < many; i++) msc_free(&posts[i]);
}

/* Posts of two boards are refused in each order, and boards of version 1.0, which all have one number, are gathered. */
static void numbered_boards(void) {
    msc_post posts[4] = {MSC_POST_INIT}, swapped;
    msc_board board = MSC_BOARD_INIT;
    is("an export of 1.0", msc_open_(posts, 2, 1), MSC_DONE);
    is("a second board", msc_open(posts + 2, 2, 1), MSC_DONE);
    is("four posts of two boards", msc_gather(posts, 4, &board), MSC_MISUSE);
    swapped = posts[1], posts[1] = posts[3], posts[3] = swapped;
    is("one post of each", msc_meet(posts, 2), MSC_MISUSE);
    is("the others", msc_meet(posts + 2, 2), MSC_MISUSE);
    swapped = posts[1], posts[1] = posts[3], posts[3] = swapped;
    is("the first board", msc_gather(posts, 2, &board), MSC_DONE);
    msc_board_free(&board);
    is("the second board", msc_gather(posts + 2, 2, &board), MSC_DONE);
    msc_board_free(&board);
    is("a misuse", MSC_IS_MISUSE(MSC_MISUSE), 1);
    is("a misuse by its cause", MSC_IS_MISUSE(MSC_IN_USE) && MSC_IS_MISUSE(MSC_OTHER_BOARD), 1);
    is("no other answer is", MSC_IS_MISUSE(MSC_DONE) || MSC_IS_MISUSE(MSC_NO_SUCH_EVENT), 0);
}

/* Boards of three instances with lanes of two slots left this. It isn't carried over to a board of another size, nor to
 * one that was used. */
static void unfit_boards(msc_board *board, size_t *carried) {
    msc_post posts[4] = {MSC_POST_INIT};
    is("a board of two", msc_open(posts, 2, 2), MSC_DONE);
    is("carrying to fewer instances", msc_carry_over(board, posts, 2, carried), MSC_MISUSE);
    end(posts, 2);
    is("a board of four", msc_open(posts, 4, 2), MSC_DONE);
    is("carrying to more instances", msc_carry_over(board, posts, 4, carried), MSC_MISUSE);
    end(posts, 4);
    is("a board with fewer slots", msc_open(posts, 3, 1), MSC_DONE);
    is("carrying to fewer slots", msc_carry_over(board, posts, 3, carried), MSC_MISUSE);
    end(posts, 3);
    is("a board with a closed lane", msc_open(posts, 3, 2), MSC_DONE);
    is("a close", msc_close(&posts[2], 1), MSC_DONE);
    is("carrying to a closed lane", msc_carry_over(board, posts, 3, carried), MSC_MISUSE);
    end(posts, 3);
    is("a board with a coregion", msc_open(posts, 3, 2), MSC_DONE);
    is("a coregion", msc_open_coregion(&posts[1]), MSC_DONE);
    is("carrying to a coregion", msc_carry_over(board, posts, 3, carried), MSC_MISUSE);
    is("the coregion's end", msc_close_coregion(&posts[1]), MSC_DONE);
    is("an empty place among them", msc_carry_over(board, posts, 4, carried), MSC_MISUSE);
    end(posts, 3);
}

/* What waits after all refusals is carried over in the end, and the old board has nothing left. */
static void carried_in_the_end(void) {
    msc_post posts[3] = {MSC_POST_INIT};
    msc_board board = MSC_BOARD_INIT;
    msc_arrival came;
    msc_left left;
    size_t carried[4] = {9, 9, 9, 9};
    is("a board", msc_open(posts, 3, 2), MSC_DONE);
    is("a send", msc_send(&posts[0], 2, "first", NULL, 0, NULL), MSC_DONE);
    is("a close", msc_close(&posts[1], 3), MSC_DONE);
    is("gather", msc_gather(posts, 3, &board), MSC_DONE);
    unfit_boards(&board, carried);
    is("no count is reported", (int)carried[0], 9);
    is("the message still waits", msc_board_left(&board, 1, 2, 1, &left, NULL, 0, NULL, 0), MSC_DONE);
    is("the next board", msc_open(posts, 3, 2), MSC_DONE);
    is("carrying over", msc_carry_over(&board, posts, 3, carried), MSC_DONE);
    is("the first's sends", (int)carried[0], 1);
    is("the message", msc_receive(&posts[1], 1, &came), MSC_DONE);
    is("the closed lane", msc_receive(&posts[2], 2, &came), MSC_ENDED);
    is("nothing is left", msc_board_left(&board, 1, 2, 1, &left, NULL, 0, NULL, 0), MSC_NOTHING);
    end(posts, 3);
    is("another board", msc_open(posts, 3, 2), MSC_DONE);
    is("carrying over once more", msc_carry_over(&board, posts, 3, carried), MSC_DONE);
    is("no sends", (int)carried[0], 0);
    is("no lane is closed", msc_receive(&posts[2], 2, &came), MSC_NOTHING);
    end(posts, 3);
    msc_board_free(&board);
}

int main(void) {
    numbered_boards();
    carried_in_the_end();
    return failures != 0;
}
