/* The normal form. Terms that ascend are not sorted. */
#include "constraint.h"

int by_variable(const void *one, const void *other) {
  uint32_t left = variable_of(((const Term *)one)->literal), right = variable_of(((const Term *)other)->literal);
  return (left > right) - (left < right);
}

static int ascends(const Constraint *constraint) {
  uint32_t last = 0;
  for (uint32_t i = 0; i < constraint->count; i++) {
    uint32_t variable = variable_of(constraint->terms[i].literal);
    if (variable <= last) return 0;
    last = variable;
  }
  return 1;
}

/* Brings all terms to the positive literals, sorts them, and adds up those of one variable. */
static void merge(Constraint *constraint) {
  Term *terms = constraint->terms;
  uint32_t written = 0;
  for (uint32_t i = 0; i < constraint->count; i++)
    if (terms[i].literal < 0) {
      constraint->degree -= terms[i].weight;
      terms[i] = (Term){-terms[i].weight, -terms[i].literal};
    }
  qsort(terms, constraint->count, sizeof *terms, by_variable);
  for (uint32_t i = 0; i < constraint->count; i++)
    if (written && terms[written - 1].literal == terms[i].literal)
      terms[written - 1].weight += terms[i].weight;
    else
      terms[written++] = terms[i];
  constraint->count = written;
}

void normalise(Constraint *constraint) {
  Term *terms = constraint->terms;
  uint32_t written = 0;
  if (!ascends(constraint)) merge(constraint);
  for (uint32_t i = 0; i < constraint->count; i++) {
    Term term = terms[i];
    if (term.weight < 0) {
      constraint->degree -= term.weight;
      term = (Term){-term.weight, -term.literal};
    }
    if (term.weight) terms[written++] = term;
  }
  constraint->count = written;
  if (constraint->degree < 0) constraint->degree = 0;
}
