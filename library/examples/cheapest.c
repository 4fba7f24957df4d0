/* Finds the cheapest guards for a street of corners by one solver in this process: after each solution it gets one constraint
 * more, that the next is cheaper. Nothing is kept between the calls but the first variable that is still free.
 *
 *   cc cheapest.c $(pkg-config --cflags --libs pbcnf) -lcadical -lstdc++ -lm -o cheapest
 */
#include <ccadical.h>
#include <pbcnf.h>
#include <stdio.h>
#include <stdlib.h>

enum { CORNERS = 8 };

static const int64_t costs[CORNERS] = {3, 5, 4, 6, 2, 4, 7, 3};

static void add(void *solver, int32_t literal) { ccadical_add(solver, literal); }

/* Adds one constraint, and gives back the first variable that is then free. */
static uint32_t add_constraint(CCaDiCaL *solver, const int64_t *coefficients, const int32_t *literals, size_t count, uint32_t relation,
                               int64_t right, uint32_t first) {
  const pbcnf_options options = PBCNF_OPTIONS_DEFAULT;
  const pbcnf_side side = pbcnf_side_of(relation, right, first);
  static int32_t clauses[1 << 16];
  pbcnf_size size;
  pbcnf_refusal refusal;
  uint8_t status = pbcnf_constraint((const uint64_t *)coefficients, count, literals, count, &side, &options, clauses,
                                    sizeof clauses / sizeof *clauses, &size, &refusal);
  if (status != PBCNF_DONE) exit(status);
  pbcnf_add_all(clauses, size.length, solver, add);
  return size.vars + 1;
}

int main(void) {
  int32_t guards[CORNERS];
  const int64_t ones[2] = {1, 1};
  uint32_t first = CORNERS + 1;
  CCaDiCaL *solver = ccadical_init();
  for (int corner = 0; corner < CORNERS; corner++) guards[corner] = corner + 1;
  /* Each stretch of the street is seen from one of its ends. */
  for (int corner = 0; corner + 1 < CORNERS; corner++)
    first = add_constraint(solver, ones, guards + corner, 2, PBCNF_AT_LEAST, 1, first);
  while (ccadical_solve(solver) == 10) {
    int64_t cost = 0;
    for (int corner = 0; corner < CORNERS; corner++)
      if (ccadical_val(solver, guards[corner]) > 0) cost += costs[corner];
    printf("cost %lld\n", (long long)cost);
    first = add_constraint(solver, costs, guards, CORNERS, PBCNF_AT_MOST, cost - 1, first);
  }
  puts("none is cheaper");
  ccadical_release(solver);
  return 0;
}
