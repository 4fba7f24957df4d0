/* Many constraints in one call: what is made is what the calls of one constraint make, one after another; it is accepted by the
 * derivation; rooms that are exact, and one too small; a refusal reports the constraint to blame, and its words too. */
#include "calls.h"

enum { ROOM = 1 << 16, PROOF = 1 << 20, FIRST = 8, MOST = 24, TERMS = 8 };

static int32_t integers[ROOM], singly[ROOM];
static uint8_t proof[PROOF], text[PROOF], cnf[PROOF];

/* Constraints in columns, of one word a coefficient or of two. */
struct columns {
  size_t count, terms, words;
  int is_wide;
  uint64_t coefficients[2 * MOST * TERMS];
  int32_t literals[MOST * TERMS];
  pbcnf_sum sums[MOST];
  uint32_t first;
  pbcnf_options options;
};

static uint32_t draw(uint32_t below) {
  static uint64_t state = 29;
  state = state * 6364136223846793005u + 1442695040888963407u;
  return (uint32_t)(state >> 33) % below;
}

static uint64_t high(int64_t number) { return number < 0 ? UINT64_MAX : 0; }

static void push_term(struct columns *c, int64_t coefficient, int32_t literal) {
  c->coefficients[c->words++] = (uint64_t)coefficient;
  if (c->is_wide) c->coefficients[c->words++] = high(coefficient);
  c->literals[c->terms++] = literal;
}

static void push_drawn(struct columns *c) {
  const uint32_t terms = draw(TERMS), kind = draw(3);
  const int64_t right = (int64_t)draw(kind ? 9 : 19) - 3;
  for (uint32_t i = 0; i < terms; i++)
    push_term(c, kind ? 1 : (int64_t)draw(11) - 5, (int32_t)(1 + draw(FIRST - 1)) * (draw(2) ? 1 : -1));
  c->sums[c->count++] = (pbcnf_sum){draw(3), 0, terms, (uint64_t)right, high(right)};
}

static struct columns drawn(uint32_t count) {
  struct columns c = {0, 0, 0, 0, {0}, {0}, {{0, 0, 0, 0, 0}}, 0, {0, 0, 0, 0, 0, 50000}};
  c.is_wide = (int)draw(2);
  c.first = FIRST + draw(40);
  c.options = (pbcnf_options){draw(4), draw(3), draw(3), draw(2), draw(2), draw(4) ? 50000 : 1 + draw(20)};
  while (c.count < count) push_drawn(&c);
  return c;
}

static uint8_t make(const struct columns *c, size_t room, struct answer *a) {
  return a->status = pbcnf_constraints(c->coefficients, c->words, c->literals, c->terms, c->sums, c->count, c->first, &c->options, integers,
                                       room, &a->size, &a->refusal);
}

static uint8_t derive(const struct columns *c, struct answer *a) {
  return a->status = pbcnf_constraints_derive(c->coefficients, c->words, c->literals, c->terms, c->sums, c->count, c->first, &c->options,
                                              proof, PROOF, &a->size, &a->refusal);
}

/* The same by one call a constraint. */
static uint64_t make_singly(const struct columns *c, pbcnf_size *all) {
  uint64_t put = 0, at = 0;
  *all = (pbcnf_size){c->first - 1, c->first - 1, 0, 0};
  for (size_t i = 0; i < c->count; i++) {
    const pbcnf_sum *s = &c->sums[i];
    const pbcnf_side side = {s->relation, all->vars + 1, s->right_low, s->right_high};
    pbcnf_size size;
    pbcnf_refusal refusal;
    const uint8_t status = pbcnf_constraint(c->coefficients + (at << c->is_wide), (size_t)s->terms << c->is_wide, c->literals + at,
                                            (size_t)s->terms, &side, &c->options, singly + put, ROOM - put, &size, &refusal);
    judge(status == PBCNF_DONE, "one is done", "constraint", (long)i);
    all->vars = size.vars;
    all->clauses += size.clauses;
    put += size.length;
    at += s->terms;
  }
  all->length = put;
  return put;
}

/* The problem as an OPB text, in which each variable below the first fresh one is named. */
static size_t problem_text(const struct columns *c) {
  static const char *const relations[] = {">=", "<=", "="};
  size_t at = (size_t)sprintf((char *)text, "* #variable= %u #constraint= %zu\n", c->first - 1, c->count), term = 0;
  for (size_t i = 0; i < c->count; i++) {
    for (uint64_t k = 0; k < c->sums[i].terms; k++, term++)
      at += (size_t)sprintf((char *)text + at, "%+lld %sx%d ", (long long)c->coefficients[term << c->is_wide], c->literals[term] < 0 ? "~" : "",
                            abs(c->literals[term]));
    at += (size_t)sprintf((char *)text + at, "%s %lld ;\n", relations[c->sums[i].relation], (long long)c->sums[i].right_low);
  }
  return at;
}

static size_t cnf_text(const struct answer *a) {
  size_t at = (size_t)sprintf((char *)cnf, "p cnf %u %llu\n", a->size.vars, (unsigned long long)a->size.clauses);
  for (uint64_t i = 0; i < a->size.length; i++) at += (size_t)sprintf((char *)cnf + at, integers[i] ? "%d " : "%d\n", integers[i]);
  return at;
}

static void try_accepted(const struct columns *c, const struct answer *a, long where) {
  const pbcnf_bound none = PBCNF_NO_BOUND;
  struct answer d = spoiled();
  judge(derive(c, &d) == PBCNF_DONE && d.size.vars == a->size.vars && d.size.clauses == a->size.clauses, "it is derived", "constraints", where);
  d.status = pbcnf_check(text, problem_text(c), &none, cnf, cnf_text(a), proof, (size_t)d.size.length, &d.refusal);
  judge(d.status == PBCNF_DONE, "its derivation is accepted", "constraints", where);
}

static void try_drawn(void) {
  for (long where = 0; where < 2000; where++) {
    const struct columns c = drawn(draw(MOST + 1));
    struct answer a = spoiled(), exact = spoiled(), scant = spoiled();
    pbcnf_size all;
    const uint64_t length = make_singly(&c, &all);
    memset(integers, 0xa5, sizeof integers);
    judge(make(&c, ROOM, &a) == PBCNF_DONE, "it is done", "constraints", where);
    judge(a.size.length == length && memcmp(integers, singly, length * sizeof *integers) == 0, "they are those of each", "constraints", where);
    judge(a.size.vars == all.vars && a.size.original == all.original && a.size.clauses == all.clauses, "all are counted", "constraints", where);
    judge(is_untouched(integers + length, 0, (ROOM - length) * sizeof *integers), "no more is put", "constraints", where);
    try_accepted(&c, &a, where);
    judge(make(&c, (size_t)length, &exact) == PBCNF_DONE && exact.size.length == length, "an exact room", "constraints", where);
    if (length == 0) continue;
    judge(make(&c, (size_t)length - 1, &scant) == PBCNF_NO_ROOM && scant.size.length == length, "one too few", "constraints", where);
  }
}

/* One number is changed in three constraints of two terms each. */
static struct columns three(void) {
  struct columns c = drawn(0);
  c.options = (pbcnf_options)PBCNF_OPTIONS_DEFAULT;
  c.is_wide = 1;
  for (int32_t i = 0; i < 3; i++) {
    push_term(&c, 2, i + 1);
    push_term(&c, 3, -(i + 2));
    c.sums[c.count++] = (pbcnf_sum){PBCNF_AT_LEAST, 0, 2, 3, 0};
  }
  return c;
}

static void try_blamed(struct columns c, uint8_t status, uint64_t number, const char *due, long where) {
  struct answer a = spoiled(), d = spoiled();
  uint8_t said[160];
  uint64_t length = 0;
  memset(&a.size, 0x3c, sizeof a.size);
  memset(integers, 0xa5, sizeof integers);
  judge(make(&c, ROOM, &a) == status && a.refusal.status == status && a.refusal.number == number, "the one to blame", "constraints", where);
  judge(is_bare(&a) && is_untouched(integers, 0, sizeof integers), "nothing is put or reported", "constraints", where);
  judge(derive(&c, &d) == status && d.refusal.number == number, "the one to blame", "constraints_derive", where);
  judge(pbcnf_words(&a.refusal, said, sizeof said, &length) == PBCNF_DONE, "there are words", "words", where);
  judge(length == strlen(due) && memcmp(said, due, length) == 0, "its words", "words", where);
}

static void try_refusals(void) {
  struct columns c = three();
  c.literals[3] = 0;
  try_blamed(c, PBCNF_USAGE, 2, "pbcnf: constraint 2: a number is out of its range", 1);
  c = three();
  c.literals[4] = (int32_t)c.first;
  try_blamed(c, PBCNF_USAGE, 3, "pbcnf: constraint 3: a number is out of its range", 2);
  c = three();
  c.literals[0] = INT32_MIN;
  try_blamed(c, PBCNF_USAGE, 1, "pbcnf: constraint 1: a number is out of its range", 3);
  c = three();
  c.sums[1].relation = 3;
  try_blamed(c, PBCNF_USAGE, 2, "pbcnf: constraint 2: a number is out of its range", 4);
  c = three();
  c.sums[2].condition = (int32_t)c.first;
  try_blamed(c, PBCNF_USAGE, 3, "pbcnf: constraint 3: a number is out of its range", 5);
  c = three();
  c.coefficients[7] = (uint64_t)1 << 36;
  try_blamed(c, PBCNF_LIMIT, 2, "pbcnf: constraint 2: limit weight", 6);
  c = three();
  c.sums[0].right_high = (uint64_t)1 << 63;
  try_blamed(c, PBCNF_LIMIT, 1, "pbcnf: constraint 1: limit weight", 7);
  c = three();
  c.sums[0].terms = 3;
  try_blamed(c, PBCNF_USAGE, 0, "pbcnf: usage: a number is out of its range", 8);
  c = three();
  /* In 64 bits these would be six terms. */
  c.sums[0].terms = UINT64_MAX;
  c.sums[1].terms = 5;
  try_blamed(c, PBCNF_USAGE, 0, "pbcnf: usage: a number is out of its range", 9);
  c = three();
  c.words--;
  try_blamed(c, PBCNF_USAGE, 0, "pbcnf: usage: a number is out of its range", 10);
  c = three();
  c.first = 0;
  try_blamed(c, PBCNF_USAGE, 0, "pbcnf: usage: a number is out of its range", 11);
  c = three();
  c.options.budget = 0;
  try_blamed(c, PBCNF_USAGE, 0, "pbcnf: usage: a number is out of its range", 12);
  c = three();
  c.first = (1u << 31) + 1;
  try_blamed(c, PBCNF_USAGE, 0, "pbcnf: usage: a number is out of its range", 13);
}

/* Where there are more causes than one, the later constraint is blamed by the earlier of them: counts, relations, literals, weights. */
static void try_order(void) {
  struct columns c = three();
  c.coefficients[1] = (uint64_t)1 << 36;
  c.literals[2] = 0;
  try_blamed(c, PBCNF_USAGE, 2, "pbcnf: constraint 2: a number is out of its range", 14);
  c.sums[2].relation = 3;
  try_blamed(c, PBCNF_USAGE, 3, "pbcnf: constraint 3: a number is out of its range", 15);
  c.words++;
  try_blamed(c, PBCNF_USAGE, 0, "pbcnf: usage: a number is out of its range", 16);
}

/* Of what all take together no single one is to blame: here the last variable. */
static void try_totals(void) {
  struct columns c = three();
  c.first = 1u << 31;
  c.options.amo = 2;
  for (size_t i = 0; i < c.terms; i++) c.coefficients[2 * i] = 1;
  for (size_t i = 0; i < 2; i++) push_term(&c, 1, (int32_t)i + 5);
  c.sums[2].relation = PBCNF_AT_MOST;
  c.sums[2].terms = 4;
  c.sums[2].right_low = 1;
  try_blamed(c, PBCNF_LIMIT, 0, "pbcnf: totals: limit variables", 17);
}

/* One of two is too long. */
static void try_long(void) {
  const size_t most = (size_t)1 << 20;
  uint64_t *coefficients = calloc(most + 2, sizeof *coefficients);
  int32_t *literals = malloc((most + 2) * sizeof *literals);
  const pbcnf_sum sums[2] = {{PBCNF_AT_LEAST, 0, 1, 0, 0}, {PBCNF_AT_LEAST, 0, most + 1, 0, 0}};
  const pbcnf_options options = PBCNF_OPTIONS_DEFAULT;
  struct answer a = spoiled();
  if (!coefficients || !literals) exit(99);
  for (size_t i = 0; i < most + 2; i++) literals[i] = 1;
  a.status = pbcnf_constraints(coefficients, most + 2, literals, most + 2, sums, 2, 2, &options, integers, ROOM, &a.size, &a.refusal);
  judge(a.status == PBCNF_LIMIT && a.refusal.limit == PBCNF_LIMIT_TERMS && a.refusal.number == 2, "the one to blame", "constraints", 20);
  free(coefficients);
  free(literals);
}

/* There is one constraint too many. They have no terms, and are never written to, so that the system keeps one page of zeros for them. */
static void try_many(void) {
  const size_t most = (size_t)1 << 24;
  pbcnf_sum *none = calloc(most + 1, sizeof *none);
  const pbcnf_options options = PBCNF_OPTIONS_DEFAULT;
  struct answer a = spoiled();
  if (!none) return;
  a.status = pbcnf_constraints(NULL, 0, NULL, 0, none, most + 1, 1, &options, integers, ROOM, &a.size, &a.refusal);
  judge(a.status == PBCNF_LIMIT && a.refusal.limit == PBCNF_LIMIT_STATEMENTS && a.refusal.number == 0, "too many", "constraints", 21);
  free(none);
}

int main(void) {
  try_drawn();
  try_refusals();
  try_order();
  try_totals();
  try_long();
  try_many();
  return conclude();
}
