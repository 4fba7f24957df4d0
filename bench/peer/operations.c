/* Terms ascend by variables, so an addition is a merge, and a variable is found by halves. */
#include "operations.h"
#include <string.h>

uint64_t added_terms;

int64_t size_of(const Constraint *constraint) {
  int64_t size = constraint->degree;
  for (uint32_t i = 0; i < constraint->count && size < GREATEST; i++) size += constraint->terms[i].weight;
  if (size >= GREATEST) stop(WIDE, "a constraint");
  return size;
}

void copy_terms(Constraint *constraint, const Term *terms, uint32_t count, int64_t degree) {
  make_room(constraint, count);
  memcpy(constraint->terms, terms, count * sizeof *terms);
  constraint->count = count;
  constraint->degree = degree;
}

/* What is left of two terms of one variable, whose opposite parts leave both and the degree. */
static Term joined(Term one, Term other, int64_t *gone) {
  if (one.literal == other.literal) return (Term){one.weight + other.weight, one.literal};
  *gone += one.weight < other.weight ? one.weight : other.weight;
  return one.weight < other.weight ? (Term){other.weight - one.weight, other.literal} : (Term){one.weight - other.weight, one.literal};
}

void add(Constraint *constraint, const Constraint *other) {
  static Constraint sum;
  const Term *left = constraint->terms, *right = other->terms;
  const Term *const left_end = left + constraint->count, *const right_end = right + other->count;
  int64_t gone = 0;
  added_terms += constraint->count + other->count;
  make_room(&sum, constraint->count + other->count);
  Term *at = sum.terms;
  while (left < left_end && right < right_end) {
    const uint32_t one = variable_of(left->literal), two = variable_of(right->literal);
    if (one < two) {
      *at++ = *left++;
    } else if (two < one) {
      *at++ = *right++;
    } else {
      *at = joined(*left++, *right++, &gone);
      at += at->weight != 0;
    }
  }
  while (left < left_end) *at++ = *left++;
  while (right < right_end) *at++ = *right++;
  sum.count = (uint32_t)(at - sum.terms);
  sum.degree = constraint->degree + other->degree - gone;
  if (sum.degree < 0) sum.degree = 0;
  const Constraint before = *constraint;
  *constraint = sum;
  sum = before;
  size_of(constraint);
}

void multiply(Constraint *constraint, int64_t factor) {
  const int64_t size = size_of(constraint);
  if (size && factor >= GREATEST / size) stop(WIDE, "a product");
  for (uint32_t i = 0; i < constraint->count; i++) constraint->terms[i].weight *= factor;
  constraint->degree *= factor;
}

static int64_t quotient(int64_t number, int64_t divisor) {
  return number <= divisor ? number > 0 : (number - 1) / divisor + 1;
}

void divide(Constraint *constraint, int64_t divisor) {
  for (uint32_t i = 0; i < constraint->count; i++) constraint->terms[i].weight = quotient(constraint->terms[i].weight, divisor);
  constraint->degree = quotient(constraint->degree, divisor);
}

void saturate(Constraint *constraint) {
  uint32_t left = 0;
  for (uint32_t i = 0; i < constraint->count; i++) {
    Term term = constraint->terms[i];
    if (term.weight > constraint->degree) term.weight = constraint->degree;
    if (term.weight) constraint->terms[left++] = term;
  }
  constraint->count = left;
}

void weaken(Constraint *constraint, uint32_t variable) {
  Term *terms = constraint->terms;
  uint32_t low = 0, high = constraint->count;
  while (low < high) {
    const uint32_t middle = (low + high) / 2;
    if (variable_of(terms[middle].literal) < variable)
      low = middle + 1;
    else
      high = middle;
  }
  if (low == constraint->count || variable_of(terms[low].literal) != variable) return;
  constraint->degree = constraint->degree > terms[low].weight ? constraint->degree - terms[low].weight : 0;
  memmove(terms + low, terms + low + 1, (constraint->count - low - 1) * sizeof *terms);
  constraint->count--;
}
