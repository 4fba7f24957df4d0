/* How long a call of the C library takes, best of some rounds, in microseconds.
 *
 * usage: calls constraint RELATION RIGHT COEFFICIENT LITERAL ..     pbcnf_constraint: RELATION as pbcnf.h numbers it
 *        calls many NUMBERS                                         pbcnf_constraint one after another, and then pbcnf_constraints
 *        calls text OPB                                             pbcnf_encode, and then pbcnf_clauses
 *
 * NUMBERS is a file: how many constraints there are, how many terms they have, the first fresh variable; and of each constraint its
 * relation, its right side, how many terms, and their coefficients and literals. */
#include "pbcnf.h"
#include <stdio.h>
#include <stdlib.h>
#include <string.h>
#include <time.h>

enum { ROUNDS = 5, TERMS = 4096 };

static const pbcnf_options options = PBCNF_OPTIONS_DEFAULT;
static const pbcnf_bound bound = PBCNF_NO_BOUND;

static double now(void) {
  struct timespec t;
  clock_gettime(CLOCK_MONOTONIC, &t);
  return (double)t.tv_sec * 1e6 + (double)t.tv_nsec * 1e-3;
}

/* Ends where a call was not done. */
static void need(uint8_t status) {
  if (status == PBCNF_DONE) return;
  fprintf(stderr, "calls: status %d\n", status);
  exit(status);
}

static void time_constraint(int count, char **words) {
  static int64_t coefficients[TERMS];
  static int32_t literals[TERMS], integers[1 << 20];
  const int64_t right = atoll(words[1]);
  pbcnf_side side = pbcnf_side_of((uint32_t)atoi(words[0]), right, 1);
  pbcnf_size size;
  pbcnf_refusal refusal;
  size_t terms = (size_t)(count - 2) / 2;
  double best = 1e18;
  for (size_t i = 0; i < terms && i < TERMS; i++) {
    coefficients[i] = atoll(words[2 + 2 * i]);
    literals[i] = atoi(words[3 + 2 * i]);
    if ((uint32_t)abs(literals[i]) >= side.first) side.first = (uint32_t)abs(literals[i]) + 1;
  }
  for (int round = 0, calls = 1; round < ROUNDS;) {
    double begin = now();
    for (int i = 0; i < calls; i++)
      need(pbcnf_constraint((const uint64_t *)coefficients, terms, literals, terms, &side, &options, integers, 1 << 20, &size, &refusal));
    double took = now() - begin;
    /* Rounds of at least 50 ms count. */
    if (took < 5e4) {
      calls *= 2;
    } else {
      if (took / calls < best) best = took / calls;
      round++;
    }
  }
  printf("%.2f %llu %u\n", best, (unsigned long long)size.clauses, size.vars - size.original);
}

/* How long a thing is that a call is to put, which it reports if there is no room. */
static size_t needed(uint8_t status, const pbcnf_size *size) {
  if (status != PBCNF_NO_ROOM) need(status);
  return (size_t)size->length + 1;
}

struct many {
  size_t constraints, terms;
  uint32_t first;
  int64_t *coefficients;
  int32_t *literals, *integers;
  pbcnf_sum *sums;
};

static long long next_number(FILE *file) {
  long long number;
  if (fscanf(file, "%lld", &number) != 1) exit(PBCNF_REFUSED);
  return number;
}

static struct many read_many(const char *name) {
  struct many m = {0};
  FILE *file = fopen(name, "r");
  if (!file) exit(PBCNF_UNREAD);
  m.constraints = (size_t)next_number(file);
  m.terms = (size_t)next_number(file);
  m.first = (uint32_t)next_number(file);
  m.coefficients = malloc(m.terms * sizeof *m.coefficients);
  m.literals = malloc(m.terms * sizeof *m.literals);
  m.sums = malloc(m.constraints * sizeof *m.sums);
  if (!m.coefficients || !m.literals || !m.sums) exit(PBCNF_NO_MEMORY);
  for (size_t i = 0, at = 0; i < m.constraints; i++) {
    const uint32_t relation = (uint32_t)next_number(file);
    const int64_t right = next_number(file);
    m.sums[i] = pbcnf_sum_of(relation, right, (uint64_t)next_number(file));
    for (uint64_t term = 0; term < m.sums[i].terms && at < m.terms; term++, at++) {
      m.coefficients[at] = next_number(file);
      m.literals[at] = (int32_t)next_number(file);
    }
  }
  fclose(file);
  return m;
}

/* One after another, each after those before it; what they put is as long as what one call puts. */
static double one_by_one(const struct many *m, size_t room) {
  pbcnf_size size = {m->first - 1, 0, 0, 0};
  pbcnf_refusal refusal;
  size_t at = 0, put = 0;
  const double begin = now();
  for (size_t i = 0; i < m->constraints; i++) {
    const pbcnf_sum *s = &m->sums[i];
    const pbcnf_side side = {s->relation, size.vars + 1, s->right_low, s->right_high};
    need(pbcnf_constraint((const uint64_t *)m->coefficients + at, s->terms, m->literals + at, s->terms, &side, &options, m->integers + put,
                          room - put, &size, &refusal));
    at += s->terms;
    put += size.length;
  }
  return now() - begin;
}

static uint8_t make_all(const struct many *m, size_t room, pbcnf_size *size) {
  pbcnf_refusal refusal;
  return pbcnf_constraints((const uint64_t *)m->coefficients, m->terms, m->literals, m->terms, m->sums, m->constraints, m->first, &options,
                           m->integers, room, size, &refusal);
}

static void time_many(const char *name) {
  struct many m = read_many(name);
  pbcnf_size size;
  double single = 1e18, all = 1e18;
  const uint8_t status = make_all(&m, 0, &size);
  if (status != PBCNF_NO_ROOM) need(status);
  m.integers = malloc(size.length * sizeof *m.integers + 1);
  if (!m.integers) exit(PBCNF_NO_MEMORY);
  for (int round = 0; round < ROUNDS; round++) {
    double took = one_by_one(&m, size.length), begin = now();
    if (took < single) single = took;
    need(make_all(&m, size.length, &size));
    took = now() - begin;
    if (took < all) all = took;
  }
  printf("%.0f %.0f %llu\n", single, all, (unsigned long long)size.length);
}

static void time_text(const char *name) {
  FILE *file = fopen(name, "rb");
  if (!file || fseek(file, 0, SEEK_END)) exit(PBCNF_UNREAD);
  size_t length = (size_t)ftell(file);
  uint8_t *opb = malloc(length + 1), none[1];
  int32_t no_integer[1];
  pbcnf_size size;
  pbcnf_refusal refusal;
  rewind(file);
  if (!opb || fread(opb, 1, length, file) != length) exit(PBCNF_UNREAD);
  fclose(file);
  size_t room = needed(pbcnf_encode(opb, length, &options, &bound, none, 0, &size, &refusal), &size);
  uint8_t *cnf = malloc(room);
  if (!cnf) exit(PBCNF_NO_MEMORY);
  double begin = now();
  need(pbcnf_encode(opb, length, &options, &bound, cnf, room, &size, &refusal));
  double text = now() - begin;
  free(cnf);
  room = needed(pbcnf_clauses(opb, length, &options, &bound, no_integer, 0, &size, &refusal), &size);
  int32_t *integers = malloc(room * sizeof *integers);
  if (!integers) exit(PBCNF_NO_MEMORY);
  begin = now();
  need(pbcnf_clauses(opb, length, &options, &bound, integers, room, &size, &refusal));
  printf("%.0f %.0f\n", text, now() - begin);
}

int main(int count, char **words) {
  if (count >= 4 && !strcmp(words[1], "constraint")) {
    time_constraint(count - 2, words + 2);
  } else if (count == 3 && !strcmp(words[1], "many")) {
    time_many(words[2]);
  } else if (count == 3 && !strcmp(words[1], "text")) {
    time_text(words[2]);
  } else {
    return PBCNF_USAGE;
  }
  return PBCNF_DONE;
}
