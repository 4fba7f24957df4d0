/* The calls of pbcnf.h in one form, for tests that do the same with each: over a problem, into a room. */
#ifndef CALLS_H
#define CALLS_H
#include "pbcnf.h"
#include <stdio.h>
#include <stdlib.h>
#include <string.h>

#define COUNT(array) (sizeof(array) / sizeof *(array))

/* What a call answers. */
struct answer {
  uint8_t status;
  uint64_t length;
  pbcnf_size size;
  pbcnf_refusal refusal;
};

/* A problem with options and a bound, and the text of a solver. */
struct problem {
  const char *opb, *model;
  pbcnf_options options;
  pbcnf_bound bound;
};

/* A call: the bytes of an item that it puts, and how it is made. */
struct call {
  const char *name;
  size_t item;
  void (*make)(const struct problem *, void *room, size_t count, struct answer *);
};

#define OPB(p) (const uint8_t *)(p)->opb, strlen((p)->opb)

#define POSED(name, type) \
  static void make_##name(const struct problem *p, void *room, size_t count, struct answer *a) { \
    a->status = pbcnf_##name(OPB(p), &p->options, &p->bound, (type *)room, count, &a->size, &a->refusal); \
    a->length = a->size.length; \
  }
POSED(encode, uint8_t)
POSED(clauses, int32_t)
POSED(derive, uint8_t)
POSED(bounds, pbcnf_row)
POSED(wcnf, uint8_t)

static void make_decode(const struct problem *p, void *room, size_t count, struct answer *a) {
  a->status = pbcnf_decode(OPB(p), &p->bound, (const uint8_t *)p->model, strlen(p->model), (uint8_t *)room, count, &a->length, &a->refusal);
}

/* Judges the CNF and the derivation that the library makes of the problem; of one that is refused, empty texts. It puts nothing. */
static void make_check(const struct problem *p, void *room, size_t count, struct answer *a) {
  enum { TEXT = 1 << 14 };
  uint8_t cnf[TEXT], proof[TEXT];
  pbcnf_size made = {0, 0, 0, 0}, derived = {0, 0, 0, 0};
  (void)room;
  (void)count;
  a->length = 0;
  a->status = pbcnf_encode(OPB(p), &p->options, &p->bound, cnf, TEXT, &made, &a->refusal);
  if (a->status == PBCNF_DONE) a->status = pbcnf_derive(OPB(p), &p->options, &p->bound, proof, TEXT, &derived, &a->refusal);
  if (a->status == PBCNF_NO_MEMORY) return;
  a->status = pbcnf_check(OPB(p), &p->bound, cnf, made.length, proof, derived.length, &a->refusal);
}

static void make_softs(const struct problem *p, void *room, size_t count, struct answer *a) {
  pbcnf_costs costs = {7, 7, 7};
  a->status = pbcnf_softs(OPB(p), &p->bound, (pbcnf_row *)room, count, &costs, &a->refusal);
  a->length = costs.length;
  if (a->status != PBCNF_DONE && a->status != PBCNF_NO_ROOM) a->length += costs.offset_low + costs.offset_high;
}

static void make_map(const struct problem *p, void *room, size_t count, struct answer *a) {
  a->status = pbcnf_map(OPB(p), (uint8_t *)room, count, &a->length, &a->refusal);
}

/* One constraint, under the problem's options: of narrow coefficients, and of wide ones. */
static const int64_t narrow[] = {7, -5, 4, 3, 2, 6, 1};
static const uint64_t wide[] = {7, 0, (uint64_t)-5, UINT64_MAX, 4, 1, 3, 0, 2, 1, 6, 0, 1, 2};
static const int32_t literals[] = {1, -2, 3, 4, -5, 6, 7};

#define ONE(name, call, type, coefficients, relation, low, high) \
  static void make_##name(const struct problem *p, void *room, size_t count, struct answer *a) { \
    static const pbcnf_side side = {relation, 20, low, high}; \
    a->status = call((const uint64_t *)coefficients, COUNT(coefficients), literals, COUNT(literals), &side, &p->options, (type *)room, count, \
                     &a->size, &a->refusal); \
    a->length = a->size.length; \
  }
ONE(narrow, pbcnf_constraint, int32_t, narrow, PBCNF_AT_MOST, 9, 0)
ONE(wide, pbcnf_constraint, int32_t, wide, PBCNF_EQUAL, 11, 1)
ONE(narrow_derive, pbcnf_constraint_derive, uint8_t, narrow, PBCNF_AT_LEAST, 9, 0)
ONE(wide_derive, pbcnf_constraint_derive, uint8_t, wide, PBCNF_AT_LEAST, 11, 1)

/* The same terms in three constraints, of which the second has none. */
static const pbcnf_sum sums[] = {{PBCNF_AT_MOST, 0, 4, 9, 0}, {PBCNF_AT_LEAST, 0, 0, UINT64_MAX, UINT64_MAX}, {PBCNF_EQUAL, 0, 3, 6, 0}};

#define ALL(name, call, type, coefficients) \
  static void make_##name(const struct problem *p, void *room, size_t count, struct answer *a) { \
    a->status = call((const uint64_t *)coefficients, COUNT(coefficients), literals, COUNT(literals), sums, COUNT(sums), 20, &p->options, \
                     (type *)room, count, &a->size, &a->refusal); \
    a->length = a->size.length; \
  }
ALL(many_narrow, pbcnf_constraints, int32_t, narrow)
ALL(many_wide, pbcnf_constraints, int32_t, wide)
ALL(many_narrow_derive, pbcnf_constraints_derive, uint8_t, narrow)
ALL(many_wide_derive, pbcnf_constraints_derive, uint8_t, wide)

static const struct call calls[] = {
    {"encode", 1, make_encode},
    {"clauses", 4, make_clauses},
    {"derive", 1, make_derive},
    {"bounds", sizeof(pbcnf_row), make_bounds},
    {"wcnf", 1, make_wcnf},
    {"check", 1, make_check},
    {"decode", 1, make_decode},
    {"map", 1, make_map},
    {"softs", sizeof(pbcnf_row), make_softs},
    {"constraint, 64 bits", 4, make_narrow},
    {"constraint, 128 bits", 4, make_wide},
    {"constraint_derive, 64 bits", 1, make_narrow_derive},
    {"constraint_derive, 128 bits", 1, make_wide_derive},
    {"constraints, 64 bits", 4, make_many_narrow},
    {"constraints, 128 bits", 4, make_many_wide},
    {"constraints_derive, 64 bits", 1, make_many_narrow_derive},
    {"constraints_derive, 128 bits", 1, make_many_wide_derive},
};

/* Problems of which each call is done, but for decode of one without a solution. */
static const struct problem problems[] = {
    {"min: +3 rain -2 sun +1 x1 ;\n+2 rain +1 x1 +2 ~sun >= 2 ;\n-3 x1 -2 x2 -2 rain >= -4 ;\n+1 x1 x2 +1 ~rain >= 1 ;\n",
     "s SATISFIABLE\nv 2 0\n", PBCNF_OPTIONS_DEFAULT, PBCNF_NO_BOUND},
    {"min: +3 rain -2 sun +1 x1 ;\n+2 rain +1 x1 +2 ~sun >= 2 ;\n-3 x1 -2 x2 -2 rain >= -4 ;\n", "s SATISFIABLE\nv 2 -4 0\n",
     {2, 2, 1, 1, 1, 50000}, {1, 3, 0}},
    {"+1 x1 +1 x2 +1 x3 +1 x4 +1 x5 +1 x6 +1 x7 = 3 ;\n+5 x1 +4 x2 +3 x3 +3 x4 +2 x5 <= 8 ;\n", "s SATISFIABLE\nv 1 5 6 0\n",
     {1, 1, 2, 1, 0, 50000}, PBCNF_NO_BOUND},
    {"+1 x1 +1 x2 >= 1 ;\n+1 ~x1 >= 1 ;\n+1 ~x2 >= 1 ;\n", "s UNSATISFIABLE\n", PBCNF_OPTIONS_DEFAULT, PBCNF_NO_BOUND},
    {"", "s SATISFIABLE\n", PBCNF_OPTIONS_DEFAULT, PBCNF_NO_BOUND},
};

/* Whether a call takes options, and tells the size of an encoding. */
static inline int encodes(const struct call *call) {
  return call->make != make_decode && call->make != make_map && call->make != make_check && call->make != make_softs;
}

/* What a problem's status is due to be of a call, in the order of the list of calls. */
static inline uint8_t due(const struct problem *p, const struct call *call) {
  if (call->make == make_decode) return strncmp(p->model, "s SAT", 5) ? PBCNF_NO_MODEL : PBCNF_DONE;
  return PBCNF_DONE;
}

static int failures, passes;

static void judge(int holds, const char *what, const char *call, long where) {
  if (holds) {
    passes++;
  } else {
    failures++;
    printf("%s: %s (%ld)\n", call, what, where);
  }
}

/* A room of just so many items, all of the same bytes. An empty one has a pointer too. */
static inline void *room_of(const struct call *call, size_t count) {
  const size_t bytes = call->item * count;
  void *room = malloc(bytes + (bytes == 0));
  if (!room) exit(99);
  return memset(room, 0xa5, bytes + (bytes == 0));
}

static inline int is_untouched(const void *room, size_t from, size_t to) {
  for (size_t i = from; i < to; i++)
    if (((const uint8_t *)room)[i] != 0xa5) return 0;
  return 1;
}

/* True if it reports no size. */
static inline int is_bare(const struct answer *a) {
  return a->length == 0 && a->size.vars == 0 && a->size.original == 0 && a->size.clauses == 0 && a->size.length == 0;
}

/* True if it reports nothing but the status. */
static inline int is_plain(const pbcnf_refusal *r, uint32_t status) {
  return r->status == status && r->line == 0 && r->column == 0 && r->number == 0 && r->file == 0 && r->expected == 0 && r->limit == 0 &&
         r->denied == 0 && r->unproved == 0;
}

/* An answer in which nothing is as a call would leave it. */
static inline struct answer spoiled(void) {
  struct answer a;
  memset(&a, 0x3c, sizeof a);
  memset(&a.size, 0, sizeof a.size);
  a.length = 0;
  return a;
}

/* The last line of each test. */
static int conclude(void) {
  printf("%d passed, %d failed\n", passes, failures);
  return failures > 0;
}
#endif
