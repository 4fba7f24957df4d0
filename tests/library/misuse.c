/* Numbers that choose nothing are reported as such, before any fault of a text, and nothing is put. */
#include "calls.h"

enum { ROOM = 4096 };

static const char good[] = "+2 x1 +3 x2 +4 x3 >= 5 ;\n", bad[] = "+2 x1 >= ;\n";

static struct problem problem_of(const char *opb, pbcnf_options options) {
  struct problem p = {opb, "s SATISFIABLE\n", PBCNF_OPTIONS_DEFAULT, PBCNF_NO_BOUND};
  p.options = options;
  return p;
}

/* A call under these options is refused, or done. */
static void try_options(pbcnf_options options, int is_usage, long where) {
  const struct problem texts[] = {problem_of(good, options), problem_of(bad, options)};
  for (size_t t = 0; t < COUNT(texts); t++)
    for (size_t i = 0; i < COUNT(calls); i++) {
      uint8_t *room;
      struct answer a = spoiled();
      if (!encodes(&calls[i]) || (!is_usage && t)) continue;
      room = room_of(&calls[i], ROOM);
      calls[i].make(&texts[t], room, ROOM, &a);
      judge(is_usage == (a.status == PBCNF_USAGE), "the options are judged first", calls[i].name, where);
      if (is_usage) judge(is_bare(&a) && is_untouched(room, 0, calls[i].item * ROOM), "nothing is put or reported", calls[i].name, where);
      if (is_usage) judge(is_plain(&a.refusal, PBCNF_USAGE), "no place is told", calls[i].name, where);
      free(room);
    }
}

/* One of the fields of 32 bits of the options, by its place. */
static void try_field(size_t field, uint32_t number, int is_usage) {
  pbcnf_options options = PBCNF_OPTIONS_DEFAULT;
  memcpy((char *)&options + 4 * field, &number, 4);
  try_options(options, is_usage, (long)(10 * field + number % 10));
}

static void try_all_options(void) {
  static const uint32_t most[] = {3, 2, 2, 1, 1}, budgets[] = {0, 10000001, UINT32_MAX, 1, 10000000};
  for (size_t field = 0; field < COUNT(most); field++) {
    for (uint32_t number = 0; number <= most[field] + 1; number++) try_field(field, number, number > most[field]);
    try_field(field, UINT32_MAX, 1);
  }
  for (size_t i = 0; i < COUNT(budgets); i++) try_field(COUNT(most), budgets[i], i < 3);
}

/* A constraint, but for one number. */
static void try_constraint(const uint64_t *coefficients, size_t words, const int32_t *lits, size_t count, pbcnf_side side, uint8_t status,
                           uint32_t limit, long where) {
  const pbcnf_options options = PBCNF_OPTIONS_DEFAULT;
  static int32_t integers[ROOM];
  static uint8_t proof[ROOM];
  struct answer a = spoiled(), b = spoiled();
  memset(integers, 0xa5, sizeof integers);
  memset(proof, 0xa5, sizeof proof);
  memset(&a.size, 0x3c, sizeof a.size);
  memset(&b.size, 0x3c, sizeof b.size);
  a.status = pbcnf_constraint(coefficients, words, lits, count, &side, &options, integers, ROOM, &a.size, &a.refusal);
  b.status = pbcnf_constraint_derive(coefficients, words, lits, count, &side, &options, proof, ROOM, &b.size, &b.refusal);
  judge(a.status == status && a.refusal.status == status && a.refusal.limit == limit, "the status is due", "constraint", where);
  judge(b.status == status && b.refusal.status == status && b.refusal.limit == limit, "the status is due", "constraint_derive", where);
  if (status == PBCNF_DONE) return;
  judge(is_bare(&a) && is_untouched(integers, 0, sizeof integers), "nothing is put or reported", "constraint", where);
  judge(is_bare(&b) && is_untouched(proof, 0, sizeof proof), "nothing is put or reported", "constraint_derive", where);
}

static void try_constraints(void) {
  static const uint64_t ones[6] = {1, 1, 1, 1, 1, 1}, heavy[6] = {1, 1ull << 35, 1, 0, 1, 0}, more[6] = {0, 1ull << 35, 0, 1ull << 35, 1, 0};
  static const int32_t lits[3] = {1, -2, 3}, zero[3] = {1, 0, 3}, high[3] = {1, 2, 9}, least[3] = {1, INT32_MIN, 3}, last[3] = {1, -8, 3};
  const pbcnf_side side = {PBCNF_AT_LEAST, 9, 2, 0};
  pbcnf_side other = side;
  try_constraint(ones, 3, lits, 3, side, PBCNF_DONE, 0, 200);
  try_constraint(ones, 3, last, 3, side, PBCNF_DONE, 0, 201);
  try_constraint(ones, 0, lits, 0, side, PBCNF_DONE, 0, 202);
  try_constraint(ones, 2, lits, 3, side, PBCNF_USAGE, 0, 203);
  try_constraint(ones, 4, lits, 3, side, PBCNF_USAGE, 0, 204);
  try_constraint(ones, 0, lits, 3, side, PBCNF_USAGE, 0, 205);
  try_constraint(ones, 1, lits, 0, side, PBCNF_USAGE, 0, 206);
  try_constraint(ones, 3, zero, 3, side, PBCNF_USAGE, 0, 207);
  try_constraint(ones, 3, high, 3, side, PBCNF_USAGE, 0, 208);
  try_constraint(ones, 3, least, 3, side, PBCNF_USAGE, 0, 209);
  other.relation = 3;
  try_constraint(ones, 3, lits, 3, other, PBCNF_USAGE, 0, 210);
  other = side;
  other.first = 0;
  try_constraint(ones, 3, lits, 3, other, PBCNF_USAGE, 0, 211);
  try_constraint(ones, 0, lits, 0, other, PBCNF_USAGE, 0, 212);
  other.first = (UINT32_MAX >> 1) + 2;
  try_constraint(ones, 3, lits, 3, other, PBCNF_USAGE, 0, 213);
  /* The last number of all variables is taken by the constraint itself. */
  other.first = (UINT32_MAX >> 1) + 1;
  try_constraint(ones, 3, lits, 3, other, PBCNF_DONE, 0, 214);
  /* Coefficients, and a right side, that weigh too much. */
  try_constraint(heavy, 6, lits, 3, side, PBCNF_DONE, 0, 215);
  try_constraint(more, 6, lits, 3, side, PBCNF_LIMIT, PBCNF_LIMIT_WEIGHT, 218);
  other = side;
  other.right_high = 1ull << 36;
  try_constraint(ones, 3, lits, 3, other, PBCNF_LIMIT, PBCNF_LIMIT_WEIGHT, 216);
  other.right_high = 1ull << 63;
  try_constraint(ones, 3, lits, 3, other, PBCNF_LIMIT, PBCNF_LIMIT_WEIGHT, 217);
}

/* As many terms as there may be, and one more. */
static void try_many(void) {
  const size_t most = (size_t)1 << 20;
  uint64_t *coefficients = malloc((most + 1) * sizeof *coefficients);
  int32_t *lits = malloc((most + 1) * sizeof *lits);
  const pbcnf_side side = {PBCNF_AT_LEAST, 9, 0, 0};
  if (!coefficients || !lits) exit(99);
  for (size_t i = 0; i <= most; i++) coefficients[i] = 1, lits[i] = 1 + (int32_t)(i % 8);
  try_constraint(coefficients, most, lits, most, side, PBCNF_DONE, 0, 300);
  try_constraint(coefficients, most + 1, lits, most + 1, side, PBCNF_LIMIT, PBCNF_LIMIT_TERMS, 301);
  free(coefficients);
  free(lits);
}

int main(void) {
  try_all_options();
  try_constraints();
  try_many();
  return conclude();
}
