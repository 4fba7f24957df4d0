/* Constraints one at a time: the integers of a worked example; of drawn ones, with coefficients of one word and of two, all models and,
 * from some values, what unit propagation reaches; no fresh variable is taken twice. */
#include "reached.h"

/* A sum of small drawn numbers and what stands beside it. In the call all numbers are so many bits longer, and the right side asks a little
 * less than that, so that the same values meet it. */
struct sum {
  size_t count;
  int64_t coefficients[8];
  int32_t literals[8];
  uint32_t relation;
  int64_t right;
  uint32_t bits, less;
  int is_wide;
};

static int holds(const struct sum *s, uint32_t relation) {
  int64_t sum = 0;
  for (size_t i = 0; i < s->count; i++)
    if (is_true(s->literals[i])) sum += s->coefficients[i];
  return relation == PBCNF_AT_LEAST ? sum >= s->right : relation == PBCNF_AT_MOST ? sum <= s->right : sum == s->right;
}

static uint32_t draw(uint32_t below) {
  static uint64_t state = 17;
  state = state * 6364136223846793005u + 1442695040888963407u;
  return (uint32_t)(state >> 33) % below;
}

/* What the values that meet a relation leave of the variables that are not given: whether there are any, and what they have alike. */
struct left {
  int some;
  int8_t alike[FIRST];
};

static struct left left_of(const struct sum *s, uint32_t relation, const int8_t *given) {
  struct left left = {0, {0}};
  for (uint32_t bits = 0; bits < 1u << (FIRST - 1); bits++) {
    int fits = 1;
    set_all(bits, FIRST);
    for (uint32_t v = 1; v < FIRST; v++) fits = fits && (!given[v] || given[v] == values[v]);
    if (!fits || !holds(s, relation)) continue;
    for (uint32_t v = 1; v < FIRST; v++) left.alike[v] = !left.some || left.alike[v] == values[v] ? values[v] : 0;
    left.some = 1;
  }
  return left;
}

/* True if an equality asks for a number of its literals, of three or more: then it may be encoded as one. */
static int asks_for_some(const struct sum *s) {
  int64_t nets[FIRST] = {0}, one = 0;
  int count = 0, trues = 0;
  for (size_t i = 0; i < s->count; i++) nets[abs(s->literals[i])] += s->literals[i] > 0 ? s->coefficients[i] : -s->coefficients[i];
  for (int v = 1; v < FIRST; v++) {
    if (nets[v] == 0) continue;
    if (one != 0 && llabs(nets[v]) != one) return 0;
    one = llabs(nets[v]);
    count++;
  }
  for (uint32_t bits = 0; bits < 1u << (FIRST - 1); bits++) {
    set_all(bits, FIRST);
    if (!holds(s, PBCNF_EQUAL)) continue;
    for (int v = 1; v < FIRST; v++) trues += nets[v] != 0 && (nets[v] > 0) == (values[v] > 0);
    return count >= 3 && trues >= 1 && trues < count;
  }
  return 0;
}

/* From some drawn values unit propagation reaches a conflict, or all that a relation leaves. */
static void try_reached(const struct sum *s, uint32_t relation, uint64_t length, long where) {
  int8_t given[FIRST] = {0};
  struct left left;
  int reaches = 1;
  for (uint32_t v = 1; v < FIRST; v++) given[v] = (int8_t)(draw(3) - 1);
  left = left_of(s, relation, given);
  memset(values, 0, sizeof values);
  memcpy(values, given, sizeof given);
  if (propagate(length)) return;
  for (uint32_t v = 1; v < FIRST; v++) reaches = reaches && (!left.alike[v] || left.alike[v] == values[v]);
  judge(left.some && reaches, "what is forced is reached", "constraint", where);
}

/* What is promised of propagation where nothing goes to the adder: of each half, and of an equality that is encoded as one. */
static void try_propagation(const struct sum *s, const pbcnf_options *options, uint64_t length, long where) {
  const int is_joint = s->relation == PBCNF_EQUAL && options->equal == 1 && asks_for_some(s);
  for (int turn = 0; turn < 6; turn++) {
    if (s->relation != PBCNF_AT_MOST) try_reached(s, PBCNF_AT_LEAST, length, where);
    if (s->relation != PBCNF_AT_LEAST) try_reached(s, PBCNF_AT_MOST, length, where);
    if (is_joint) try_reached(s, PBCNF_EQUAL, length, where);
  }
}

/* Puts a number that is so many bits longer, and a little more or less, in one word or in two. */
static void put_number(uint64_t *words, const struct sum *s, int64_t number, int64_t more) {
  const uint64_t sign = number < 0 ? UINT64_MAX : 0, low = (uint64_t)number, added = (uint64_t)more;
  uint64_t front = s->bits < 64 ? low << s->bits : 0;
  uint64_t top = s->bits >= 64 ? low << (s->bits - 64) : s->bits ? sign << s->bits | low >> (64 - s->bits) : sign;
  top += (more < 0 ? UINT64_MAX : 0) + (front + added < added);
  words[0] = front + added;
  if (s->is_wide) words[1] = top;
}

/* Under all values of the variables below the first fresh one, and from some of some of them. */
static void try_sum(const struct sum *s, uint32_t first, const pbcnf_options *options, long where) {
  const int64_t more = s->relation == PBCNF_AT_LEAST ? -(int64_t)s->less : s->relation == PBCNF_AT_MOST ? (int64_t)s->less : 0;
  struct sum right = *s;
  uint64_t words[16], sides[2];
  struct answer a = spoiled();
  for (size_t i = 0; i < s->count; i++) put_number(words + (i << s->is_wide), s, s->coefficients[i], 0);
  right.is_wide = 1;
  put_number(sides, &right, s->right, more);
  const pbcnf_side side = {s->relation, first, sides[0], sides[1]};
  a.status = pbcnf_constraint(words, s->count << s->is_wide, s->literals, s->count, &side, options, integers, ROOM, &a.size, &a.refusal);
  judge(a.status == PBCNF_DONE && a.size.original == first - 1 && a.size.vars < MOST, "it is done", "constraint", where);
  if (a.status != PBCNF_DONE || a.size.vars >= MOST) return;
  for (uint64_t i = 0; i < a.size.length; i++)
    judge((uint32_t)abs(integers[i]) < FIRST || ((uint32_t)abs(integers[i]) >= first && (uint32_t)abs(integers[i]) <= a.size.vars),
          "no variable is another's", "constraint", where);
  for (uint32_t bits = 0; bits < 1u << (FIRST - 1); bits++) {
    set_all(bits, first);
    judge(holds(s, s->relation) == extends(a.size.length, a.size.vars), "its models are its solutions", "constraint", where);
  }
  if (options->general != 2 && options->budget == 50000) try_propagation(s, options, a.size.length, where);
}

static void try_drawn(void) {
  for (long where = 0; where < 20000; where++) {
    const pbcnf_options options = {draw(4), draw(3), draw(3), draw(2), draw(2), draw(4) ? 50000 : 1 + draw(20)};
    const int is_unit = draw(3) == 0;
    struct sum s = {1 + draw(7), {0}, {0}, draw(3), (int64_t)draw(is_unit ? 9 : 19) - (is_unit ? 3 : 9), 0, 0, (int)draw(2)};
    if (draw(2)) s.bits = draw(s.is_wide ? 90 : 50);
    s.less = draw(1u << (s.bits < 30 ? s.bits : 30));
    for (size_t i = 0; i < s.count; i++) {
      s.coefficients[i] = is_unit ? 1 : (int64_t)draw(11) - 5;
      s.literals[i] = (int32_t)(1 + draw(FIRST - 1)) * (draw(2) ? 1 : -1);
    }
    try_sum(&s, FIRST + draw(40), &options, where);
  }
}

/* 3 x1 + 2 ~x2 + 2 x3 >= 5, and >= 4 after it. */
static void try_example(void) {
  static const uint64_t coefficients[] = {3, 2, 2};
  static const int32_t lits[] = {1, -2, 3}, due[] = {1, 0, -2, 3, 0};
  const pbcnf_options options = PBCNF_OPTIONS_DEFAULT;
  pbcnf_side side = {PBCNF_AT_LEAST, 10, 5, 0};
  struct answer a = spoiled();
  a.status = pbcnf_constraint(coefficients, 3, lits, 3, &side, &options, integers, ROOM, &a.size, &a.refusal);
  judge(a.status == PBCNF_DONE && a.size.length == COUNT(due) && memcmp(integers, due, sizeof due) == 0, "its integers", "constraint", 5);
  judge(a.size.original == 9 && a.size.vars == 9 && a.size.clauses == 2, "its size", "constraint", 5);
  side.right_low = 4;
  a.status = pbcnf_constraint(coefficients, 3, lits, 3, &side, &options, integers, ROOM, &a.size, &a.refusal);
  judge(a.status == PBCNF_DONE && a.size.original == 9 && a.size.vars == 13 && a.size.clauses == 7, "its size", "constraint", 4);
}

/* 2^64 x1 - 2^64 x2 + x3 = 2^64, and at least -2^64. */
static void try_high_words(void) {
  static const uint64_t coefficients[] = {0, 1, 0, UINT64_MAX, 1, 0};
  static const int32_t lits[] = {1, 2, 3};
  const pbcnf_options options = PBCNF_OPTIONS_DEFAULT;
  pbcnf_side side = {PBCNF_EQUAL, 4, 0, 1};
  struct answer a = spoiled();
  a.status = pbcnf_constraint(coefficients, 6, lits, 3, &side, &options, integers, ROOM, &a.size, &a.refusal);
  for (uint32_t bits = 0; bits < 8; bits++) {
    memset(values, 0, sizeof values);
    for (uint32_t v = 1; v < 4; v++) values[v] = bits >> (v - 1) & 1 ? 1 : -1;
    judge(extends(a.size.length, a.size.vars) == (bits == 1), "its models are its solutions", "constraint", (long)bits);
  }
  judge(a.status == PBCNF_DONE, "it is done", "constraint", 64);
  side.relation = PBCNF_AT_LEAST;
  side.right_high = UINT64_MAX;
  a.status = pbcnf_constraint(coefficients, 6, lits, 3, &side, &options, integers, ROOM, &a.size, &a.refusal);
  judge(a.status == PBCNF_DONE && a.size.length == 0 && a.size.vars == 3, "nothing is asked", "constraint", 65);
}

int main(void) {
  try_example();
  try_high_words();
  try_drawn();
  return conclude();
}
