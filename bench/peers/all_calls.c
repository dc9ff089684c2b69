/* A program that calls the functions of msc.h that its symbols ask for, so that what they add to a program can be
 * measured: MESSAGES, BOARDS, PERFORM, each with those before it, or none. It is never run. */
#include <msc.h>

int main(int count, char **words) {
    static char out[4096];
    size_t length = (size_t)count;
    int answer = words[0][0];
#ifdef MESSAGES
    msc_post posts[2] = {MSC_POST_INIT};
    msc_arrival came[8];
    uint32_t races[8];
    static const msc_message two[] = {{1, 0}, {1, 0}};
    answer += msc_open(posts, 2, 8) + msc_send(&posts[0], 2, words[0], out, length, NULL);
    answer += msc_send_all(&posts[0], 2, out, length, two, 2, NULL) + msc_receive(&posts[1], 1, came);
    answer += msc_any(&posts[1], came) + msc_receive_up_to(&posts[1], 1, came, 8, &length);
    answer += msc_name(&posts[1], out, 64, &length) + msc_body(&posts[1], out, 64, &length);
    answer += msc_races(&posts[1], races, 8, &length) + msc_name_of(&posts[1], 1, out, 64, &length);
    answer += msc_body_of(&posts[1], 1, out, 64, &length) + msc_races_of(&posts[1], 1, races, 8, &length);
    answer += msc_close(&posts[0], 2) + msc_open_coregion(&posts[1]) + msc_close_coregion(&posts[1]);
    answer += msc_reserve(&posts[1], 64);
#endif
#ifdef BOARDS
    msc_board board = MSC_BOARD_INIT;
    msc_event event;
    msc_report report;
    msc_left left;
    answer += msc_meet(posts, 2) + msc_line_event(&posts[0], 1, &event, out, 64) + msc_gather(posts, 2, &board);
    answer += msc_board_text(&board, (const char *const *)words, 2, out, sizeof out, &length);
    answer += msc_board_report(&board, 1, &report, races, 8);
    answer += msc_board_left(&board, 1, 2, 1, &left, out, 64, NULL, 0);
    answer += msc_carry_over(&board, posts, 2, NULL);
    msc_board_free(&board);
#endif
#ifdef MESSAGES
    msc_free(&posts[0]);
    msc_free(&posts[1]);
#endif
#ifdef PERFORM
    answer += msc_perform(MSC_CHECK, 0, out, length, out, sizeof out, &length, NULL, 0, &length);
#endif
    return answer + out[length % 4096];
}
