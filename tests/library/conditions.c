/* Constraints under conditions, some in one call: of drawn ones all models and, from some values, what unit propagation reaches; that
 * without a condition they are what they were; their derivations; and refusals of conditions. */
#include "reached.h"

enum { SUMS = 4, TERMS = 6, PROOF = 1 << 20 };

static uint8_t proof[PROOF], text[PROOF], cnf[PROOF];

/* Sums of small drawn numbers, their terms in columns of one word or of two. */
struct columns {
  size_t count, terms;
  int is_wide;
  int64_t coefficients[SUMS * TERMS], rights[SUMS];
  int32_t literals[SUMS * TERMS];
  uint64_t words[2 * SUMS * TERMS];
  pbcnf_sum sums[SUMS];
  uint32_t first;
  pbcnf_options options;
};

static uint32_t draw(uint32_t below) {
  static uint64_t state = 31;
  state = state * 6364136223846793005u + 1442695040888963407u;
  return (uint32_t)(state >> 33) % below;
}

static int32_t drawn_literal(void) { return (int32_t)(1 + draw(FIRST - 1)) * (draw(2) ? 1 : -1); }

static struct columns drawn(void) {
  struct columns c = {1 + draw(SUMS), 0, (int)draw(2), {0}, {0}, {0}, {0}, {{0, 0, 0, 0, 0}}, FIRST + draw(40), PBCNF_OPTIONS_DEFAULT};
  c.options = (pbcnf_options){draw(4), draw(3), draw(3), draw(2), draw(2), draw(4) ? 50000 : 1 + draw(20)};
  for (size_t i = 0; i < c.count; i++) {
    const uint32_t terms = draw(TERMS + 1);
    const int is_unit = draw(3) == 0;
    c.rights[i] = (int64_t)draw(is_unit ? 9 : 19) - (is_unit ? 3 : 9);
    c.sums[i] = pbcnf_sum_of(draw(3), c.rights[i], terms);
    if (draw(4)) c.sums[i].condition = drawn_literal();
    for (uint32_t k = 0; k < terms; k++, c.terms++) {
      c.coefficients[c.terms] = is_unit ? 1 : (int64_t)draw(11) - 5;
      c.literals[c.terms] = drawn_literal();
    }
  }
  for (size_t k = 0; k < c.terms; k++) {
    c.words[k << c.is_wide] = (uint64_t)c.coefficients[k];
    if (c.is_wide) c.words[2 * k + 1] = c.coefficients[k] < 0 ? UINT64_MAX : 0;
  }
  return c;
}

static uint8_t make(const struct columns *c, struct answer *a) {
  return a->status = pbcnf_constraints(c->words, c->terms << c->is_wide, c->literals, c->terms, c->sums, c->count, c->first, &c->options,
                                       integers, ROOM, &a->size, &a->refusal);
}

static size_t start_of(const struct columns *c, size_t i) {
  size_t start = 0;
  while (i > 0) start += c->sums[--i].terms;
  return start;
}

/* Whether a sum meets a relation, or its condition is false. */
static int holds(const struct columns *c, size_t i, uint32_t relation) {
  const size_t start = start_of(c, i);
  int64_t sum = 0;
  if (c->sums[i].condition && !is_true(c->sums[i].condition)) return 1;
  for (size_t k = start; k < start + c->sums[i].terms; k++)
    if (is_true(c->literals[k])) sum += c->coefficients[k];
  return relation == PBCNF_AT_LEAST ? sum >= c->rights[i] : relation == PBCNF_AT_MOST ? sum <= c->rights[i] : sum == c->rights[i];
}

static int all_hold(const struct columns *c) {
  for (size_t i = 0; i < c->count; i++)
    if (!holds(c, i, c->sums[i].relation)) return 0;
  return 1;
}

/* From some drawn values unit propagation reaches a conflict, or all that a half leaves of the variables, its condition's too. */
static void try_reached(const struct columns *c, size_t i, uint32_t relation, uint64_t length, long where) {
  int8_t given[FIRST] = {0}, alike[FIRST] = {0};
  int some = 0, reaches = 1;
  for (uint32_t v = 1; v < FIRST; v++) given[v] = (int8_t)(draw(3) - 1);
  for (uint32_t bits = 0; bits < 1u << (FIRST - 1); bits++) {
    int fits = 1;
    set_all(bits, FIRST);
    for (uint32_t v = 1; v < FIRST; v++) fits = fits && (!given[v] || given[v] == values[v]);
    if (!fits || !holds(c, i, relation)) continue;
    for (uint32_t v = 1; v < FIRST; v++) alike[v] = !some || alike[v] == values[v] ? values[v] : 0;
    some = 1;
  }
  memset(values, 0, sizeof values);
  memcpy(values, given, sizeof given);
  if (propagate(length)) return;
  for (uint32_t v = 1; v < FIRST; v++) reaches = reaches && (!alike[v] || alike[v] == values[v]);
  judge(some && reaches, "what is forced is reached", "conditions", where);
}

static void try_propagation(const struct columns *c, uint64_t length, long where) {
  for (size_t i = 0; i < c->count; i++)
    for (int turn = 0; turn < 4; turn++) {
      if (c->sums[i].relation != PBCNF_AT_MOST) try_reached(c, i, PBCNF_AT_LEAST, length, where);
      if (c->sums[i].relation != PBCNF_AT_LEAST) try_reached(c, i, PBCNF_AT_MOST, length, where);
    }
}

/* A half as a statement of an OPB text: with a condition its negation is one more term, which makes up for what the sum may lack. */
static size_t half_text(const struct columns *c, size_t i, int is_lower, size_t at) {
  const size_t start = start_of(c, i);
  int64_t lacking = c->rights[i];
  for (size_t k = start; k < start + c->sums[i].terms; k++) {
    const int64_t coefficient = c->coefficients[k];
    if ((coefficient < 0) == is_lower) lacking -= coefficient;
    at += (size_t)sprintf((char *)text + at, "%+lld %sx%d ", (long long)coefficient, c->literals[k] < 0 ? "~" : "", abs(c->literals[k]));
  }
  if ((lacking < 0) == is_lower) lacking = 0;
  at += (size_t)sprintf((char *)text + at, "%+lld %sx%d ", (long long)lacking, c->sums[i].condition > 0 ? "~" : "", abs(c->sums[i].condition));
  return at + (size_t)sprintf((char *)text + at, "%s %lld ;\n", is_lower ? ">=" : "<=", (long long)c->rights[i]);
}

static size_t problem_text(const struct columns *c) {
  static const char *const relations[] = {">=", "<=", "="};
  size_t at = (size_t)sprintf((char *)text, "* #variable= %u #constraint= %zu\n", c->first - 1, c->count);
  for (size_t i = 0; i < c->count; i++) {
    const size_t start = start_of(c, i);
    if (c->sums[i].condition) {
      if (c->sums[i].relation != PBCNF_AT_MOST) at = half_text(c, i, 1, at);
      if (c->sums[i].relation != PBCNF_AT_LEAST) at = half_text(c, i, 0, at);
      continue;
    }
    for (size_t k = start; k < start + c->sums[i].terms; k++)
      at += (size_t)sprintf((char *)text + at, "%+lld %sx%d ", (long long)c->coefficients[k], c->literals[k] < 0 ? "~" : "", abs(c->literals[k]));
    at += (size_t)sprintf((char *)text + at, "%s %lld ;\n", relations[c->sums[i].relation], (long long)c->rights[i]);
  }
  return at;
}

static void try_derivation(const struct columns *c, const struct answer *a, long where) {
  const pbcnf_bound none = PBCNF_NO_BOUND;
  struct answer d = spoiled();
  size_t at = (size_t)sprintf((char *)cnf, "p cnf %u %llu\n", a->size.vars, (unsigned long long)a->size.clauses);
  for (uint64_t i = 0; i < a->size.length; i++) at += (size_t)sprintf((char *)cnf + at, integers[i] ? "%d " : "%d\n", integers[i]);
  d.status = pbcnf_constraints_derive(c->words, c->terms << c->is_wide, c->literals, c->terms, c->sums, c->count, c->first, &c->options, proof,
                                      PROOF, &d.size, &d.refusal);
  judge(d.status == PBCNF_DONE && d.size.vars == a->size.vars && d.size.clauses == a->size.clauses, "it is derived", "conditions", where);
  d.status = pbcnf_check(text, problem_text(c), &none, cnf, at, proof, (size_t)d.size.length, &d.refusal);
  judge(d.status == PBCNF_DONE, "its derivation is accepted", "conditions", where);
}

static void try_drawn(void) {
  for (long where = 0; where < 5000; where++) {
    const struct columns c = drawn();
    struct answer a = spoiled();
    judge(make(&c, &a) == PBCNF_DONE && a.size.original == c.first - 1 && a.size.vars < MOST, "it is done", "conditions", where);
    if (a.status != PBCNF_DONE || a.size.vars >= MOST) return;
    for (uint32_t bits = 0; bits < 1u << (FIRST - 1); bits++) {
      set_all(bits, c.first);
      judge(all_hold(&c) == extends(a.size.length, a.size.vars), "its models are its solutions", "conditions", where);
    }
    if (c.options.general != 2 && c.options.budget == 50000) try_propagation(&c, a.size.length, where);
    if (where % 8 == 0) try_derivation(&c, &a, where);
  }
}

/* x1 + x2 >= 1 where x3 is true, and x2 <= 0 where it is false. */
static void try_example(void) {
  static const uint64_t words[] = {1, 1, 1};
  static const int32_t literals[] = {1, 2, 2}, due[] = {1, 2, -3, 0, -2, 3, 0};
  pbcnf_sum sums[2] = {pbcnf_sum_of(PBCNF_AT_LEAST, 1, 2), pbcnf_sum_of(PBCNF_AT_MOST, 0, 1)};
  const pbcnf_options options = PBCNF_OPTIONS_DEFAULT;
  struct answer a = spoiled();
  sums[0].condition = 3;
  sums[1].condition = -3;
  a.status = pbcnf_constraints(words, 3, literals, 3, sums, 2, 4, &options, integers, ROOM, &a.size, &a.refusal);
  judge(a.status == PBCNF_DONE && a.size.length == COUNT(due) && memcmp(integers, due, sizeof due) == 0, "its integers", "conditions", 3);
  judge(a.size.original == 3 && a.size.vars == 3 && a.size.clauses == 2, "its size", "conditions", 3);
}

/* Two constraints over x1 and x2, with the fresh variables from 4 on, of which the second has a condition. */
static void try_blamed(int32_t condition, uint64_t weight, uint8_t status, uint64_t number, long where) {
  const uint64_t words[] = {1, 0, 0, weight};
  static const int32_t literals[] = {1, 2};
  const pbcnf_options options = PBCNF_OPTIONS_DEFAULT;
  pbcnf_sum sums[2] = {pbcnf_sum_of(PBCNF_AT_LEAST, 1, 1), pbcnf_sum_of(PBCNF_AT_MOST, 0, 1)};
  struct answer a = spoiled();
  sums[1].condition = condition;
  a.status = pbcnf_constraints(words, 4, literals, 2, sums, 2, 4, &options, integers, ROOM, &a.size, &a.refusal);
  judge(a.status == status && a.refusal.number == number, "the one to blame", "conditions", where);
}

static void try_refusals(void) {
  try_blamed(3, 1, PBCNF_DONE, 0, 1);
  try_blamed(-3, 1, PBCNF_DONE, 0, 2);
  try_blamed(4, 1, PBCNF_USAGE, 2, 3);
  try_blamed(-4, 1, PBCNF_USAGE, 2, 4);
  try_blamed(INT32_MIN, 1, PBCNF_USAGE, 2, 5);
  try_blamed(INT32_MAX, 1, PBCNF_USAGE, 2, 6);
  /* 2^99 is too much under a condition, and not without one. */
  try_blamed(0, (uint64_t)1 << 35, PBCNF_DONE, 0, 7);
  try_blamed(3, (uint64_t)1 << 35, PBCNF_LIMIT, 2, 8);
  try_blamed(3, ((uint64_t)1 << 35) - 1, PBCNF_DONE, 0, 9);
}

/* So are 2^20 terms. */
static void try_long(void) {
  const size_t most = (size_t)1 << 20;
  uint64_t *words = calloc(most, sizeof *words);
  int32_t *literals = malloc(most * sizeof *literals);
  const pbcnf_options options = PBCNF_OPTIONS_DEFAULT;
  if (!words || !literals) exit(99);
  for (size_t i = 0; i < most; i++) literals[i] = 1;
  for (int32_t condition = 0; condition <= 1; condition++)
    for (size_t less = 0; less < 2; less++) {
      pbcnf_sum sum = pbcnf_sum_of(PBCNF_AT_LEAST, 0, most - less);
      struct answer a = spoiled();
      sum.condition = condition;
      a.status = pbcnf_constraints(words, most - less, literals, most - less, &sum, 1, 2, &options, integers, ROOM, &a.size, &a.refusal);
      if (condition && !less)
        judge(a.status == PBCNF_LIMIT && a.refusal.limit == PBCNF_LIMIT_TERMS && a.refusal.number == 1, "the one to blame", "conditions", 20);
      else
        judge(a.status == PBCNF_DONE, "it is done", "conditions", 20 + (long)less);
    }
  free(words);
  free(literals);
}

int main(void) {
  try_example();
  try_drawn();
  try_refusals();
  try_long();
  return conclude();
}
