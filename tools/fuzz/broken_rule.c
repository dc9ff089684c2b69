/* Two threads send with one post at the same time, which msc.h forbids: ThreadSanitizer has to warn of it. */
#include <msc.h>
#include <pthread.h>
#include <stdio.h>

static msc_post posts[2] = {MSC_POST_INIT, MSC_POST_INIT};

static void *send_some(void *arg) {
  (void)arg;
  for (int i = 0; i < 50; i++) msc_send(&posts[0], 2, "m", NULL, 0, NULL);
  return NULL;
}

int main(void) {
  pthread_t one, other;
  if (msc_open(posts, 2, 8) != MSC_DONE) return 2;
  pthread_create(&one, NULL, send_some, NULL);
  pthread_create(&other, NULL, send_some, NULL);
  pthread_join(one, NULL);
  pthread_join(other, NULL);
  return 0;
}
