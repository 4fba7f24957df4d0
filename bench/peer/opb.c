/* Reads in one pass, token by token, each known by its first byte. */
#include "opb.h"
#include <stdio.h>
#include <string.h>

/* What was read of the statement so far. */
typedef struct {
  size_t begin;
  int64_t number, weight;
  char relation;
  int has_number, is_objective;
} Reading;

static void add_term(Problem *problem, int64_t coefficient, int32_t literal) {
  if (problem->terms == problem->room) {
    problem->room = 2 * problem->room + 1024;
    problem->coefficients = grown(problem->coefficients, problem->room * sizeof *problem->coefficients);
    problem->literals = grown(problem->literals, problem->room * sizeof *problem->literals);
  }
  problem->coefficients[problem->terms] = coefficient;
  problem->literals[problem->terms++] = literal;
}

static void end_statement(Problem *problem, Reading *reading) {
  if (reading->is_objective) {
    problem->terms = reading->begin;
  } else {
    if (!reading->relation || !reading->has_number) stop(REFUSED, "a statement is cut off");
    if (problem->count == problem->statement_room) {
      problem->statement_room = 2 * problem->statement_room + 1024;
      problem->statements = grown(problem->statements, problem->statement_room * sizeof *problem->statements);
    }
    uint32_t terms = (uint32_t)(problem->terms - reading->begin);
    problem->statements[problem->count++] = (Statement){terms, reading->relation, reading->number};
  }
  *reading = (Reading){.begin = problem->terms};
}

static void take_literal(Problem *problem, Reading *reading, Text *text) {
  int is_negated = *text->at == '~';
  text->at += is_negated;
  if (*text->at++ != 'x' || !reading->has_number) stop(REFUSED, "a literal by its number, after a coefficient, is all that is taken");
  int64_t variable = digits(text);
  if (variable < 1 || variable > INT32_MAX) stop(WIDE, "a variable");
  if (variable > problem->variables) problem->variables = (uint32_t)variable;
  add_term(problem, reading->number, (int32_t)(is_negated ? -variable : variable));
  reading->has_number = 0;
}

static void take_integer(Reading *reading, Text *text) {
  int is_negative = *text->at == '-';
  text->at += is_negative || *text->at == '+';
  int64_t value = digits(text);
  if (value >= GREATEST - reading->weight && !reading->is_objective) stop(WIDE, "a statement");
  if (!reading->is_objective) reading->weight += value;
  reading->number = is_negative ? -value : value;
  reading->has_number = 1;
}

static void take_token(Problem *problem, Reading *reading, Text *text) {
  switch (*text->at) {
  case '*':
    skip_line(text);
    break;
  case 'm':
    reading->is_objective = 1;
    text->at += strlen("min:");
    break;
  case '<':
  case '>':
    reading->relation = (char)*text->at;
    text->at += 2;
    break;
  case '=':
    reading->relation = (char)*text->at++;
    break;
  case ';':
    text->at++;
    end_statement(problem, reading);
    break;
  case 'x':
  case '~':
    take_literal(problem, reading, text);
    break;
  default:
    take_integer(reading, text);
  }
}

Problem read_problem(const char *name) {
  Problem problem = {0};
  Reading reading = {0};
  Text text = text_of(name);
  unsigned variables;
  if (sscanf((const char *)text.at, "* #variable= %u", &variables) == 1) problem.variables = variables;
  while (text.at < text.end)
    if (*text.at <= ' ')
      text.at++;
    else
      take_token(&problem, &reading, &text);
  return problem;
}

void take_half(Constraint *half, const Problem *problem, const Statement *statement, size_t begin, int is_upper) {
  const int64_t *coefficients = problem->coefficients + begin;
  const int32_t *literals = problem->literals + begin;
  make_room(half, statement->terms);
  half->count = statement->terms;
  half->degree = is_upper ? -statement->right : statement->right;
  for (uint32_t i = 0; i < statement->terms; i++)
    half->terms[i] = (Term){is_upper ? -coefficients[i] : coefficients[i], literals[i]};
  normalise(half);
}
