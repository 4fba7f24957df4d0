/* A plain C encoder of the clause lists of docs/FORMATS.md: what one would write in an afternoon, in integers of 64 bits. So it is a
 * witness that shares no line with the proved program, and a peer for its speed.
 *
 * usage: encode OPB CNF [--amo A] [--card C] [--general G] [--equal E] [--budget B]     as the options of pbcnf
 *
 * It takes statements over variables by their numbers: no free names, no products, no sum of 2^60 or more. It derives nothing, makes no
 * table of bounds and takes no bound on the objective. It does not test the grammar of its text, the values of its options, or that files
 * are different ones. */
#include "families.h"
#include "opb.h"

static struct {
  const char *amo, *card, *general, *equal;
  uint64_t budget;
} options = {"auto", "auto", "diagram", "split", 50000};

/* The constraint that is encoded, and its literals without the weights. */
static Constraint now;
static int32_t *literals;
static uint32_t literal_room;

static int is_word(const char *one, const char *other) {
  return strcmp(one, other) == 0;
}

static int64_t weight_of(const Constraint *constraint) {
  int64_t sum = 0;
  for (uint32_t i = 0; i < constraint->count; i++) sum += constraint->terms[i].weight;
  return sum;
}

/* For qsort: the greater weight first, then the lesser variable. */
static int by_weight(const void *one, const void *other) {
  int64_t left = ((const Term *)one)->weight, right = ((const Term *)other)->weight;
  return left == right ? by_variable(one, other) : (left < right) - (left > right);
}

static void put_clause(const Constraint *constraint) {
  for (uint32_t i = 0; i < constraint->count; i++) put_one(constraint->terms[i].literal);
  end_clause();
}

/* True if any one literal suffices, and none is forced. */
static int is_clause(const Constraint *constraint, int64_t slack) {
  for (uint32_t i = 0; i < constraint->count; i++)
    if (constraint->terms[i].weight < constraint->degree || constraint->terms[i].weight > slack) return 0;
  return 1;
}

/* Puts the forced literals, and takes their terms out. */
static void put_units(Constraint *constraint, int64_t slack) {
  uint32_t left = 0;
  for (uint32_t i = 0; i < constraint->count; i++) {
    Term term = constraint->terms[i];
    if (term.weight > slack) {
      clause1(term.literal);
      constraint->degree -= term.weight;
    } else {
      constraint->terms[left++] = term;
    }
  }
  constraint->count = left;
}

/* The weight that all terms have, or 0 where there is none. */
static int64_t common_weight(const Constraint *constraint) {
  for (uint32_t i = 1; i < constraint->count; i++)
    if (constraint->terms[i].weight != constraint->terms[0].weight) return 0;
  return constraint->count ? constraint->terms[0].weight : 0;
}

static void saturate(Constraint *constraint) {
  for (uint32_t i = 0; i < constraint->count; i++)
    if (constraint->terms[i].weight > constraint->degree) constraint->terms[i].weight = constraint->degree;
}

/* Takes the literals of the constraint, negated where they are to be few. */
static void take_literals(const Constraint *constraint, int sign) {
  if (literal_room < constraint->count) {
    literal_room = 2 * constraint->count;
    literals = grown(literals, literal_room * sizeof *literals);
  }
  for (uint32_t i = 0; i < constraint->count; i++) literals[i] = sign * constraint->terms[i].literal;
}

static void put_at_most_one(uint32_t count) {
  int is_auto = is_word(options.amo, "auto");
  if (is_auto ? count <= 6 : is_word(options.amo, "pairwise"))
    pairwise(literals, count);
  else if (is_auto ? count <= 30 : is_word(options.amo, "ladder"))
    ladder(literals, count);
  else
    product(literals, count);
}

/* True if the family of a cardinality constraint has its fresh variables within the budget, and makes its clauses. */
static int put_cardinality(uint32_t count, uint32_t bound) {
  if (is_word(options.card, "auto") ? bound <= 8 : is_word(options.card, "counter")) {
    if (counter_fresh(count, bound) > options.budget) return 0;
    counter(literals, count, bound);
  } else {
    if (totalizer_fresh(count, bound) > options.budget) return 0;
    totalizer(literals, count, bound);
  }
  return 1;
}

static void negate(Constraint *constraint) {
  for (uint32_t i = 0; i < constraint->count; i++) constraint->terms[i].literal = -constraint->terms[i].literal;
}

/* Of one weight, so that at most so many literals are false. */
static void put_equal_weights(Constraint *constraint, int64_t weight) {
  constraint->degree = (constraint->degree + weight - 1) / weight;
  if (constraint->degree == 1) {
    put_clause(constraint);
    return;
  }
  const uint32_t count = constraint->count, bound = count - (uint32_t)constraint->degree;
  for (uint32_t i = 0; i < count; i++) constraint->terms[i].weight = 1;
  take_literals(constraint, -1);
  if (bound == 1) {
    put_at_most_one(count);
  } else if (!put_cardinality(count, bound)) {
    negate(constraint);
    adder(constraint->terms, count, bound);
  }
}

static void put_general(Constraint *constraint) {
  const int64_t bound = weight_of(constraint) - constraint->degree;
  negate(constraint);
  qsort(constraint->terms, constraint->count, sizeof(Term), by_weight);
  if (is_word(options.general, "diagram") && diagram(constraint->terms, constraint->count, bound, options.budget)) return;
  if (is_word(options.general, "tree") && tree(constraint->terms, constraint->count, bound, options.budget)) return;
  adder(constraint->terms, constraint->count, bound);
}

static void put_half(Constraint *constraint) {
  const int64_t slack = weight_of(constraint) - constraint->degree;
  if (constraint->degree == 0) return;
  if (slack < 0) {
    end_clause();
    return;
  }
  if (is_clause(constraint, slack)) {
    put_clause(constraint);
    return;
  }
  put_units(constraint, slack);
  if (constraint->degree <= 0) return;
  saturate(constraint);
  const int64_t weight = common_weight(constraint);
  if (weight)
    put_equal_weights(constraint, weight);
  else
    put_general(constraint);
}

/* True if the two halves of an equality, of which this is the lower one, are encoded as one; makes their clauses then. */
static int put_joint(Constraint *constraint) {
  const int64_t weight = common_weight(constraint);
  if (constraint->count < 3 || !weight || constraint->degree % weight) return 0;
  const int64_t sum = constraint->degree / weight;
  if (sum < 1 || sum >= constraint->count || totalizer_fresh(constraint->count, (uint32_t)sum) > options.budget) return 0;
  take_literals(constraint, 1);
  exact_sum(literals, constraint->count, (uint32_t)sum);
  return 1;
}

static void put_statement(const Problem *problem, const Statement *statement, size_t begin) {
  if (has_half(statement, 0)) {
    take_half(&now, problem, statement, begin, 0);
    if (has_half(statement, 1) && is_word(options.equal, "joint") && put_joint(&now)) return;
    put_half(&now);
  }
  if (has_half(statement, 1)) {
    take_half(&now, problem, statement, begin, 1);
    put_half(&now);
  }
}

static void take_option(const char *name, const char *value) {
  if (is_word(name, "--amo"))
    options.amo = value;
  else if (is_word(name, "--card"))
    options.card = value;
  else if (is_word(name, "--general"))
    options.general = value;
  else if (is_word(name, "--equal"))
    options.equal = value;
  else if (is_word(name, "--budget"))
    options.budget = strtoull(value, NULL, 10);
  else
    stop(USAGE, "usage: encode OPB CNF [OPTION VALUE]..");
}

int main(int count, char **words) {
  if (count < 3 || count % 2 == 0) stop(USAGE, "usage: encode OPB CNF [OPTION VALUE]..");
  for (int i = 3; i < count; i += 2) take_option(words[i], words[i + 1]);
  Problem problem = read_problem(words[1]);
  size_t begin = 0;
  begin_clauses(problem.variables);
  for (size_t i = 0; i < problem.count; i++) {
    put_statement(&problem, &problem.statements[i], begin);
    begin += problem.statements[i].terms;
  }
  write_clauses(words[2]);
  return 0;
}
