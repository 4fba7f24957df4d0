/* Children that are forked while other threads call make the same clauses, with a malloc that works there, as glibc's does. */
#define _POSIX_C_SOURCE 200809L
#include "calls.h"
#include <pthread.h>
#include <sys/wait.h>
#include <unistd.h>

enum { THREADS = 3, FORKS = 60, ROOM = 4096 };

static volatile int is_over;

/* True if the clauses of the first problem are these. */
static int makes(const int32_t *due, uint64_t length) {
  static _Thread_local int32_t clauses[ROOM];
  struct answer a = spoiled();
  make_clauses(&problems[0], clauses, ROOM, &a);
  return a.status == PBCNF_DONE && a.length == length && memcmp(clauses, due, length * sizeof *due) == 0;
}

static int32_t due_clauses[ROOM];
static uint64_t due_length;

static void *call(void *unused) {
  while (!is_over)
    if (!makes(due_clauses, due_length)) return (void *)1;
  return unused;
}

int main(void) {
  pthread_t threads[THREADS];
  struct answer a = spoiled();
  void *failed;
  int status;
  make_clauses(&problems[0], due_clauses, ROOM, &a);
  due_length = a.length;
  judge(a.status == PBCNF_DONE && due_length > 0, "it is done", "clauses", 0);
  for (int i = 0; i < THREADS; i++)
    if (pthread_create(&threads[i], NULL, call, NULL)) return 1;
  for (int i = 0; i < FORKS; i++) {
    pid_t child = fork();
    if (child == 0) {
      alarm(300);
      _exit(makes(due_clauses, due_length) ? 0 : 1);
    }
    judge(child > 0 && waitpid(child, &status, 0) == child && WIFEXITED(status) && WEXITSTATUS(status) == 0, "a child makes the same", "clauses", i);
  }
  is_over = 1;
  for (int i = 0; i < THREADS; i++) judge(pthread_join(threads[i], &failed) == 0 && !failed, "a thread makes the same", "clauses", i);
  return conclude();
}
