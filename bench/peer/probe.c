/* A plain C unit propagation over a CNF, with two watched literals a clause: a peer for `pbcnf probe`, whose line it prints.
 *
 * usage: probe CNF [LITERAL ..]     literals as x3 and ~x3, of variables of the CNF */
#include "cnf.h"
#include <stdio.h>
#include <stdlib.h>
#include <string.h>

static const uint32_t NONE = UINT32_MAX;

/* Watches are numbered: 2 * clause, and one more for the second literal. Those of one literal are a linked list. */
static struct {
  Cnf cnf;
  unsigned char *is_true;
  int32_t *trail;
  uint32_t reached, looked_at;
  uint32_t *heads, *next;
} run;

static int is_true(int32_t literal) {
  return run.is_true[index_of(literal)];
}

/* Answers 0 where the literal is false already. */
static int reach(int32_t literal) {
  if (is_true(-literal)) return 0;
  if (!is_true(literal)) {
    run.is_true[index_of(literal)] = 1;
    run.trail[run.reached++] = literal;
  }
  return 1;
}

static void watch(uint32_t number, int32_t literal) {
  run.next[number] = run.heads[index_of(literal)];
  run.heads[index_of(literal)] = number;
}

/* Takes the clauses: units are reached, of all others the first two literals are watched. Answers 0 at a conflict. */
static int begin(void) {
  const size_t places = 2 * (size_t)run.cnf.variables + 2;
  if (run.cnf.count >= NONE / 2) stop(WIDE, "the clauses");
  run.is_true = grown(NULL, places);
  memset(run.is_true, 0, places);
  run.trail = grown(NULL, places / 2 * sizeof *run.trail);
  run.heads = grown(NULL, places * sizeof *run.heads);
  memset(run.heads, 0xff, places * sizeof *run.heads);
  run.next = grown(NULL, 2 * run.cnf.count * sizeof *run.next);
  for (uint32_t i = 0; i < run.cnf.count; i++) {
    const int32_t *literals = run.cnf.literals + run.cnf.starts[i];
    const uint64_t length = run.cnf.starts[i + 1] - run.cnf.starts[i];
    if (length == 0 || (length == 1 && !reach(literals[0]))) return 0;
    if (length < 2) continue;
    watch(2 * i, literals[0]);
    watch(2 * i + 1, literals[1]);
  }
  return 1;
}

/* Looks at a clause one of whose two watched literals became false. Answers 0 at a conflict. */
static int look_at(uint32_t number, int32_t is_false) {
  const uint32_t clause = number / 2, side = number % 2;
  int32_t *literals = run.cnf.literals + run.cnf.starts[clause];
  const uint64_t length = run.cnf.starts[clause + 1] - run.cnf.starts[clause];
  uint64_t other = 2;
  if (!is_true(literals[1 - side])) {
    while (other < length && is_true(-literals[other])) other++;
    if (other < length) {
      literals[side] = literals[other];
      literals[other] = is_false;
      watch(number, literals[side]);
      return 1;
    }
    watch(number, is_false);
    return reach(literals[1 - side]);
  }
  watch(number, is_false);
  return 1;
}

static int propagate(void) {
  while (run.looked_at < run.reached) {
    const int32_t is_false = -run.trail[run.looked_at++];
    uint32_t number = run.heads[index_of(is_false)];
    run.heads[index_of(is_false)] = NONE;
    while (number != NONE) {
      const uint32_t next = run.next[number];
      if (!look_at(number, is_false)) return 0;
      number = next;
    }
  }
  return 1;
}

static int32_t literal_of(const char *word) {
  const int is_negated = *word == '~';
  const long variable = strtol(word + is_negated + 1, NULL, 10);
  if (word[is_negated] != 'x' || variable < 1 || variable > (long)run.cnf.variables) stop(USAGE, "usage: probe CNF [LITERAL ..]");
  return (int32_t)(is_negated ? -variable : variable);
}

static int conflict(void) {
  puts("conflict");
  return 0;
}

int main(int count, char **words) {
  if (count < 2) stop(USAGE, "usage: probe CNF [LITERAL ..]");
  run.cnf = read_cnf(words[1]);
  if (!begin()) return conflict();
  for (int i = 2; i < count; i++)
    if (!reach(literal_of(words[i]))) return conflict();
  if (!propagate()) return conflict();
  fputs("fixed ", stdout);
  for (int32_t i = 1; i <= (int32_t)run.cnf.variables; i++)
    if (is_true(i) || is_true(-i)) printf("%d ", is_true(i) ? i : -i);
  puts("0");
  return 0;
}
