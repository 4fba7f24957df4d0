/* A plain C checker of the derivations that `encode` writes: a peer for `pbcnf check`.
 *
 * usage: check OPB CNF PROOF     prints `accepted`, and how many terms went through additions
 *
 * Status 7 where a step is not allowed, and 8 where that would take propagation over all that stands, which is not judged here: a `rup`
 * step without ids, and an obligation of `red` that the claim's negation alone does not meet. No sum of 2^60 or more is taken, and no
 * problem that the encoder beside it does not read. */
#include "cnf.h"
#include "database.h"
#include "opb.h"
#include "operations.h"
#include <stdio.h>
#include <string.h>

static Cnf cnf;
static uint64_t clauses_put;

/* The constraint that a step claims, and one that is looked at beside it. */
static Constraint claim, goal;

/* ---- words */

static int at_end_of_line(Text *text) {
  while (*text->at == ' ') text->at++;
  return *text->at == '\n' || text->at >= text->end;
}

static int32_t take_literal(Text *text) {
  const int is_negated = *text->at == '~';
  text->at += is_negated;
  if (*text->at++ != 'x') stop(REFUSED, "a literal is missing");
  const int64_t variable = digits(text);
  if (variable < 1 || variable > cnf.variables) stop(DENIED, "an unknown variable");
  return (int32_t)(is_negated ? -variable : variable);
}

static int64_t take_signed(Text *text) {
  const int is_negative = *text->at == '-';
  text->at += is_negative || *text->at == '+';
  const int64_t value = digits(text);
  if (value >= GREATEST) stop(WIDE, "an integer");
  return is_negative ? -value : value;
}

/* Takes a claim up to its `;`. */
static void take_claim(Text *text) {
  claim.count = 0;
  while (!at_end_of_line(text) && *text->at != '>') {
    const int64_t weight = take_signed(text);
    while (*text->at == ' ') text->at++;
    make_room(&claim, claim.count + 1);
    claim.terms[claim.count++] = (Term){weight, take_literal(text)};
  }
  text->at += strlen(">=");
  while (*text->at == ' ') text->at++;
  claim.degree = take_signed(text);
  if (at_end_of_line(text) || *text->at++ != ';') stop(REFUSED, "a semicolon is missing");
  normalise(&claim);
  size_of(&claim);
}

/* ---- pol */

static struct {
  Constraint *places;
  uint32_t count, room;
} stack;

static Constraint *top(uint32_t needed) {
  if (stack.count < needed) stop(DENIED, "the stack");
  return &stack.places[stack.count - 1];
}

static Constraint *pushed(void) {
  if (stack.count == stack.room) {
    stack.places = grown(stack.places, (2 * stack.room + 8) * sizeof *stack.places);
    memset(stack.places + stack.room, 0, (stack.room + 8) * sizeof *stack.places);
    stack.room = 2 * stack.room + 8;
  }
  return &stack.places[stack.count++];
}

static void take_number(Text *text) {
  const int64_t number = digits(text);
  at_end_of_line(text);
  if (*text->at == '*') {
    multiply(top(1), number);
    text->at++;
  } else if (*text->at == 'd') {
    if (number == 0) stop(REFUSED, "a divisor of 0");
    divide(top(1), number);
    text->at++;
  } else {
    const Entry *entry = entry_at((uint64_t)number);
    copy_terms(pushed(), entry->terms, entry->count, entry->degree);
  }
}

static void take_operand(Text *text) {
  const int32_t literal = take_literal(text);
  at_end_of_line(text);
  if (*text->at == 'w') {
    weaken(top(1), variable_of(literal));
    text->at++;
  } else {
    copy_terms(pushed(), &(Term){1, literal}, 1, 0);
  }
}

static void take_pol(Text *text) {
  stack.count = 0;
  while (!at_end_of_line(text))
    if (*text->at == '+') {
      Constraint *last = top(2);
      add(last - 1, last);
      stack.count--;
      text->at++;
    } else if (*text->at == 's') {
      saturate(top(1));
      text->at++;
    } else if (is_digit(*text->at)) {
      take_number(text);
    } else {
      take_operand(text);
    }
  if (stack.count != 1) stop(DENIED, "the stack");
  join_database(top(1));
}

/* ---- rup */

/* By variables: 1 where it is true, -1 where it is false; and those that have a value. */
static signed char *values;
static uint32_t *assigned, assigned_count;

static int is_false(int32_t literal) {
  return values[variable_of(literal)] == (literal > 0 ? -1 : 1);
}

/* What the literals that are not false weigh above the degree. */
static int64_t slack_of(const Term *terms, uint32_t count, int64_t degree) {
  int64_t slack = -degree;
  for (uint32_t i = 0; i < count; i++)
    if (!is_false(terms[i].literal)) slack += terms[i].weight;
  return slack;
}

enum Reached { NOTHING, SOMETHING, CONFLICT };

static enum Reached propagate(const Term *terms, uint32_t count, int64_t degree) {
  const int64_t slack = slack_of(terms, count, degree);
  const uint32_t before = assigned_count;
  if (slack < 0) return CONFLICT;
  for (uint32_t i = 0; i < count; i++) {
    const uint32_t variable = variable_of(terms[i].literal);
    if (values[variable] || terms[i].weight <= slack) continue;
    values[variable] = terms[i].literal > 0 ? 1 : -1;
    assigned[assigned_count++] = variable;
  }
  return assigned_count > before ? SOMETHING : NOTHING;
}

/* One round over the claim's negation, which is the goal, and the constraints with the ids. */
static enum Reached propagate_round(const Ids *ids) {
  enum Reached reached = propagate(goal.terms, goal.count, goal.degree);
  for (size_t i = 0; i < ids->count && reached != CONFLICT; i++) {
    const Entry *entry = entry_at(ids->ids[i]);
    const enum Reached more = propagate(entry->terms, entry->count, entry->degree);
    if (more > reached) reached = more;
  }
  return reached;
}

/* Makes the goal the claim's negation. */
static void negate_claim(void) {
  copy_terms(&goal, claim.terms, claim.count, 1 - claim.degree);
  for (uint32_t i = 0; i < goal.count; i++) {
    goal.degree += goal.terms[i].weight;
    goal.terms[i].literal = -goal.terms[i].literal;
  }
}

static void take_rup(Text *text) {
  static Ids ids;
  enum Reached reached = SOMETHING;
  take_claim(text);
  for (ids.count = 0; !at_end_of_line(text);) push_id(&ids, (uint64_t)digits(text));
  if (!ids.count) stop(NOT_JUDGED, "propagation over all that stands is not judged here");
  negate_claim();
  while (reached == SOMETHING) reached = propagate_round(&ids);
  while (assigned_count) values[assigned[--assigned_count]] = 0;
  if (reached != CONFLICT) stop(DENIED, "not propagated");
  join_database(&claim);
}

/* ---- red */

/* The literals that a substitution makes true. */
static struct {
  int32_t *literals;
  uint32_t count, room;
} sets;

static void take_sets(Text *text) {
  for (sets.count = 0; !at_end_of_line(text);) {
    const int32_t variable = take_literal(text);
    if (!is_fresh(variable_of(variable))) stop(DENIED, "a variable of the problem is set");
    while (*text->at == ' ' || *text->at == '-' || *text->at == '>') text->at++;
    if (sets.count == sets.room) {
      sets.room = 2 * sets.room + 8;
      sets.literals = grown(sets.literals, sets.room * sizeof *sets.literals);
    }
    sets.literals[sets.count++] = *text->at++ == '1' ? variable : -variable;
  }
}

/* The literal of this variable that the substitution makes true, or 0. */
static int32_t set_of(uint32_t variable) {
  for (uint32_t i = 0; i < sets.count; i++)
    if (variable_of(sets.literals[i]) == variable) return sets.literals[i];
  return 0;
}

/* Makes the goal what a constraint says under the substitution. */
static void substitute(const Term *terms, uint32_t count, int64_t degree) {
  make_room(&goal, count);
  goal.count = 0;
  goal.degree = degree;
  for (uint32_t i = 0; i < count; i++) {
    const int32_t set = set_of(variable_of(terms[i].literal));
    if (!set)
      goal.terms[goal.count++] = terms[i];
    else if (set == terms[i].literal)
      goal.degree -= terms[i].weight;
  }
}

/* True if the claim's negation implies the goal: what it weighs beyond the goal's weights does not matter for the goal's degree. */
static int is_met(void) {
  int64_t degree = 1 - claim.degree, lost = 0;
  uint32_t place = 0;
  if (goal.degree <= 0) return 1;
  for (uint32_t i = 0; i < claim.count; i++) {
    const Term term = claim.terms[i];
    while (place < goal.count && variable_of(goal.terms[place].literal) < variable_of(term.literal)) place++;
    const int has_it = place < goal.count && goal.terms[place].literal == -term.literal;
    const int64_t due = has_it ? goal.terms[place].weight : 0;
    degree += term.weight;
    if (term.weight > due) lost += term.weight - due;
  }
  return degree - lost >= goal.degree;
}

static void meet(const Term *terms, uint32_t count, int64_t degree) {
  substitute(terms, count, degree);
  if (!is_met()) stop(NOT_JUDGED, "an obligation that the claim's negation does not meet is not judged here");
}

static void take_red(Text *text) {
  take_claim(text);
  take_sets(text);
  for (uint32_t i = 0; i < sets.count; i++) {
    const Ids *ids = ids_of(variable_of(sets.literals[i]));
    for (size_t j = 0; j < ids->count; j++) {
      const Entry *entry = entry_at(ids->ids[j]);
      meet(entry->terms, entry->count, entry->degree);
    }
  }
  meet(claim.terms, claim.count, claim.degree);
  join_database(&claim);
}

/* ---- out, del */

/* The literals of a clause have its stamp. */
static uint64_t *stamps;

static void take_out(Text *text) {
  at_end_of_line(text);
  Entry *entry = entry_at((uint64_t)digits(text));
  int64_t others = 0;
  if (clauses_put++ == cnf.count) stop(DENIED, "no clause is left");
  for (uint64_t i = cnf.starts[clauses_put - 1]; i < cnf.starts[clauses_put]; i++) stamps[index_of(cnf.literals[i])] = clauses_put;
  for (uint32_t i = 0; i < entry->count; i++)
    if (stamps[index_of(entry->terms[i].literal)] != clauses_put) others += entry->terms[i].weight;
  if (others >= entry->degree) stop(DENIED, "the constraint does not imply the clause");
  entry->is_out = 1;
}

static void take_deletion(Text *text) {
  while (!at_end_of_line(text)) delete_entry((uint64_t)digits(text));
}

/* ---- the run */

static void load(const char *name) {
  const Problem problem = read_problem(name);
  size_t begin = 0;
  if (problem.variables > cnf.variables) stop(REFUSED, "the CNF has too few variables");
  begin_database(cnf.variables, problem.variables);
  for (size_t i = 0; i < problem.count; i++) {
    for (int is_upper = 0; is_upper < 2; is_upper++) {
      if (!has_half(&problem.statements[i], is_upper)) continue;
      take_half(&claim, &problem, &problem.statements[i], begin, is_upper);
      join_database(&claim);
    }
    begin += problem.statements[i].terms;
  }
}

static void begin(const char *opb, const char *name) {
  cnf = read_cnf(name);
  const size_t places = 2 * (size_t)cnf.variables + 2;
  values = grown(NULL, places);
  memset(values, 0, places);
  assigned = grown(NULL, places * sizeof *assigned);
  stamps = grown(NULL, places * sizeof *stamps);
  memset(stamps, 0, places * sizeof *stamps);
  load(opb);
}

static void take_head(Text *text) {
  static const char HEAD[] = "pseudo-Boolean derivation profile 1\nf ";
  if (strncmp((const char *)text->at, HEAD, strlen(HEAD))) stop(REFUSED, "the head");
  text->at += strlen(HEAD);
  if ((uint64_t)digits(text) != last_id()) stop(REFUSED, "the number of loaded constraints");
}

/* Takes the rest of a step's line after its first word. */
static void take_step(Text *text) {
  const unsigned char first = text->at[0], second = text->at[1];
  text->at += strlen("pol");
  if (first == 'p')
    take_pol(text);
  else if (first == 'd')
    take_deletion(text);
  else if (first == 'o')
    take_out(text);
  else if (first == 'r' && second == 'u')
    take_rup(text);
  else if (first == 'r')
    take_red(text);
  else
    stop(REFUSED, "a step is missing");
  if (!at_end_of_line(text)) stop(REFUSED, "a word too many");
}

int main(int count, char **words) {
  if (count != 4) stop(USAGE, "usage: check OPB CNF PROOF");
  begin(words[1], words[2]);
  Text text = text_of(words[3]);
  take_head(&text);
  for (; *text.at != 'e'; text.at++)
    if (*text.at != '\n') {
      take_step(&text);
      if (*text.at != '\n') stop(REFUSED, "the end is missing");
    }
  if (clauses_put < cnf.count) stop(DENIED, "clauses are left");
  printf("accepted\nterms %llu\n", (unsigned long long)added_terms);
  return 0;
}
