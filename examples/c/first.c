#include <msc.h>
#include <stdio.h>

int main(void) {
    msc_post posts[3] = {MSC_POST_INIT};
    msc_arrival came;
    uint32_t races[4];
    size_t count;
    msc_open(posts, 3, 4);                            /* three instances, lanes of four slots */
    msc_send(&posts[0], 3, "order", "tea", 3, NULL);  /* 1 to 3 */
    msc_send(&posts[1], 3, "order", "ale", 3, NULL);  /* 2 to 3 */
    msc_any(&posts[2], &came);
    msc_any(&posts[2], &came);                        /* the second order */
    msc_races(&posts[2], races, 4, &count);
    if (count > 0) printf("race server %u %u\n", races[0], came.event);
    for (int i = 0; i < 3; i++) msc_free(&posts[i]);
}
