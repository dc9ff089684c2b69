/*
 * A rank that waits asks again and again, and yields in between. Where ranks are more than processors, or much else runs,
 * that comes on slowly: so a yield sleeps for a moment.
 */
#include <time.h>

int sched_yield(void) {
    const struct timespec moment = {0, 20000};
    nanosleep(&moment, 0);
    return 0;
}
