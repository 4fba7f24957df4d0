/* Reads in one pass; a comment is known by its first byte. */
#include "cnf.h"
#include <stdio.h>
#include <stdlib.h>

static void read_head(Cnf *cnf, Text *text) {
  unsigned long long clauses;
  while (*text->at == 'c') {
    skip_line(text);
    text->at++;
  }
  if (sscanf((const char *)text->at, "p cnf %u %llu", &cnf->variables, &clauses) != 2) stop(REFUSED, "the p line");
  cnf->count = clauses;
  skip_line(text);
  /* An integer takes two bytes at least, but for the last one. */
  uint64_t bytes = (uint64_t)(text->end - text->at);
  if (cnf->variables > INT32_MAX || clauses > bytes) stop(REFUSED, "the p line");
  cnf->literals = grown(NULL, (bytes / 2 + 1) * sizeof *cnf->literals);
  cnf->starts = grown(NULL, (clauses + 1) * sizeof *cnf->starts);
  cnf->starts[0] = 0;
}

Cnf read_cnf(const char *name) {
  const Text whole = text_of(name);
  Cnf cnf = {0};
  Text text = whole;
  read_head(&cnf, &text);
  int32_t *literal = cnf.literals;
  uint64_t clause = 0;
  while (text.at < text.end) {
    if (*text.at <= ' ') {
      text.at++;
    } else if (*text.at == 'c') {
      skip_line(&text);
    } else {
      if (clause == cnf.count) stop(REFUSED, "a clause too many");
      *literal = take_integer(&text, cnf.variables);
      if (*literal)
        literal++;
      else
        cnf.starts[++clause] = (uint64_t)(literal - cnf.literals);
    }
  }
  if (clause < cnf.count) stop(REFUSED, "a clause is missing");
  free((void *)whole.at);
  return cnf;
}
