/* Four threads at once, each making all calls over all problems: each answer is the one that a thread alone gets. */
#include "calls.h"
#include <pthread.h>

enum { THREADS = 4, TURNS = 25, ROOM = 1 << 14 };

struct result {
  struct answer answer;
  uint8_t *room;
};

static struct result alone[COUNT(problems)][COUNT(calls)];

static void make(const struct problem *p, const struct call *call, struct result *result) {
  result->answer = spoiled();
  result->room = room_of(call, ROOM);
  call->make(p, result->room, ROOM, &result->answer);
}

static int is_same(const struct result *a, const struct result *b, size_t item) {
  return a->answer.status == b->answer.status && a->answer.length == b->answer.length &&
         memcmp(&a->answer.size, &b->answer.size, sizeof a->answer.size) == 0 &&
         memcmp(&a->answer.refusal, &b->answer.refusal, sizeof a->answer.refusal) == 0 && memcmp(a->room, b->room, item * ROOM) == 0;
}

/* Begins at its own problem and call, so that different calls meet. What it gives back is how many answers were others. */
static void *work(void *number) {
  size_t first = *(size_t *)number, *others = number;
  *others = 0;
  for (size_t turn = 0; turn < TURNS; turn++)
    for (size_t i = 0; i < COUNT(problems); i++)
      for (size_t j = 0; j < COUNT(calls); j++) {
        size_t problem = (i + first + turn) % COUNT(problems), call = (j + 3 * first) % COUNT(calls);
        struct result result;
        make(&problems[problem], &calls[call], &result);
        *others += !is_same(&result, &alone[problem][call], calls[call].item);
        free(result.room);
      }
  return number;
}

int main(void) {
  pthread_t threads[THREADS];
  size_t numbers[THREADS];
  for (size_t i = 0; i < COUNT(problems); i++)
    for (size_t j = 0; j < COUNT(calls); j++) make(&problems[i], &calls[j], &alone[i][j]);
  for (size_t i = 0; i < THREADS; i++) {
    numbers[i] = i;
    if (pthread_create(&threads[i], NULL, work, &numbers[i])) return 99;
  }
  for (size_t i = 0; i < THREADS; i++) {
    pthread_join(threads[i], NULL);
    judge(numbers[i] == 0, "a thread among others gets what one alone gets", "threads", (long)i);
  }
  for (size_t i = 0; i < COUNT(problems); i++)
    for (size_t j = 0; j < COUNT(calls); j++) free(alone[i][j].room);
  return conclude();
}
