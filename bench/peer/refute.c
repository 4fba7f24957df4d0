/* A plain C checker of LRAT refutations by unit propagation (no RAT lines), in one pass: a peer for what `pbcnf refute` does after its
 * `check`. It takes only the CNF, whose derivation from a problem is the business of check.
 *
 * usage: refute CNF LRAT     prints `refuted`; status 7 where a line is not allowed, or no empty clause is reached */
#include "cnf.h"
#include <stdio.h>
#include <stdlib.h>
#include <string.h>

static const uint32_t GONE = UINT32_MAX;

/* The clauses by their ids: where their literals begin, and how many there are. */
static struct {
  Cnf cnf;
  int32_t *literals;
  uint64_t length, room;
  uint64_t *starts, ids, last;
  uint32_t *lengths;
  int has_empty;
} store;

/* A variable's literal is false in this line where its mark is the line's stamp. */
static uint32_t *marks, stamp;

static void make_ids(uint64_t ids) {
  if (ids <= store.ids) return;
  store.starts = grown(store.starts, ids * sizeof *store.starts);
  store.lengths = grown(store.lengths, ids * sizeof *store.lengths);
  memset(store.lengths + store.ids, 0xff, (ids - store.ids) * sizeof *store.lengths);
  store.ids = ids;
}

static void add_clause(uint64_t id, uint64_t start, uint32_t length) {
  if (id >= store.ids) make_ids(2 * id + 16);
  store.starts[id] = start;
  store.lengths[id] = length;
  store.last = id;
  if (length == 0) store.has_empty = 1;
}

static void begin(const char *name) {
  store.cnf = read_cnf(name);
  store.literals = store.cnf.literals;
  store.length = store.cnf.starts[store.cnf.count];
  store.room = store.length;
  make_ids(2 * store.cnf.count + 16);
  for (uint64_t i = 0; i < store.cnf.count; i++)
    add_clause(i + 1, store.cnf.starts[i], (uint32_t)(store.cnf.starts[i + 1] - store.cnf.starts[i]));
  const size_t places = 2 * (size_t)store.cnf.variables + 2;
  marks = grown(NULL, places * sizeof *marks);
  memset(marks, 0, places * sizeof *marks);
}

static int is_false(int32_t literal) {
  return marks[index_of(literal)] == stamp;
}

static inline void skip_blanks(Text *text) {
  while (*text->at == ' ') text->at++;
}

/* The number of a clause that is there, or 0 at the end of the list. */
static inline uint64_t take_id(Text *text) {
  skip_blanks(text);
  return (uint64_t)digits(text);
}

static void delete_clauses(Text *text) {
  for (uint64_t id = take_id(text); id; id = take_id(text))
    if (id < store.ids) store.lengths[id] = GONE;
}

/* Appends the literals of a clause to those that are there. */
static uint32_t take_literals(Text *text) {
  Text rest = *text;
  uint32_t count = 0;
  for (;;) {
    skip_blanks(&rest);
    const int32_t literal = take_integer(&rest, store.cnf.variables);
    if (!literal) break;
    if (store.length + count == store.room) {
      store.room = 2 * store.room + 1024;
      store.literals = grown(store.literals, store.room * sizeof *store.literals);
    }
    store.literals[store.length + count++] = literal;
  }
  *text = rest;
  return count;
}

/* Takes the literals as false. True where two are opposite. */
static int assume_false(const int32_t *literals, uint32_t count) {
  int is_tautology = 0;
  stamp++;
  for (uint32_t i = 0; i < count; i++) {
    is_tautology |= is_false(-literals[i]);
    marks[index_of(literals[i])] = stamp;
  }
  return is_tautology;
}

/* Makes the one literal of a clause true that is not false. True where there is none; nothing is done where there are two. */
static int propagate(uint64_t id) {
  const int32_t *literals = store.literals + store.starts[id];
  int32_t unit = 0;
  for (uint32_t i = 0; i < store.lengths[id]; i++) {
    if (is_false(literals[i])) continue;
    if (unit && unit != literals[i]) return 0;
    unit = literals[i];
  }
  if (unit) marks[index_of(-unit)] = stamp;
  return !unit;
}

/* True if the hints lead to a conflict, or none is needed. */
static int is_allowed(Text *text, int is_tautology) {
  Text rest = *text;
  int reached = is_tautology;
  for (uint64_t hint = take_id(&rest); hint; hint = take_id(&rest)) {
    if (hint >= store.ids || store.lengths[hint] == GONE) stop(DENIED, "a hint that is no clause");
    if (!reached) reached = propagate(hint);
  }
  *text = rest;
  return reached;
}

static void take_clause(Text *text, uint64_t id) {
  const uint32_t count = take_literals(text);
  const int is_tautology = assume_false(store.literals + store.length, count);
  if (id <= store.last) stop(DENIED, "an id that is not new");
  if (!is_allowed(text, is_tautology)) stop(DENIED, "no conflict");
  add_clause(id, store.length, count);
  store.length += count;
}

static void take_line(Text *text) {
  const uint64_t id = take_id(text);
  skip_blanks(text);
  if (*text->at != 'd') {
    take_clause(text, id);
    return;
  }
  text->at++;
  delete_clauses(text);
}

int main(int count, char **words) {
  if (count != 3) stop(USAGE, "usage: refute CNF LRAT");
  begin(words[1]);
  Text text = text_of(words[2]);
  while (text.at < text.end)
    if (*text.at <= ' ')
      text.at++;
    else if (*text.at == 'c')
      skip_line(&text);
    else
      take_line(&text);
  if (!store.has_empty) stop(DENIED, "no empty clause");
  puts("refuted");
  return 0;
}
