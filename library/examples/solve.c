/* Solves an OPB file in one process: encodes it, hands its clauses to CaDiCaL, and decodes the model, which tests it.
 *
 *   cc solve.c $(pkg-config --cflags --libs pbcnf) -lcadical -lstdc++ -lm -o solve
 *   ./solve knapsack.opb
 *
 * Exit status: that of pbcnf in the same case, or 20 where there is no solution. */
#include <ccadical.h>
#include <pbcnf.h>
#include <stdio.h>
#include <stdlib.h>

/* An array that a call fills. */
struct room {
  void *front;
  size_t count;
};

static void *taken(void *memory) {
  if (!memory) exit(PBCNF_NO_MEMORY);
  return memory;
}

static struct room read_file(const char *name) {
  FILE *file = fopen(name, "rb");
  struct room text = {taken(malloc(1)), 0};
  size_t got;
  if (!file) {
    perror(name);
    exit(PBCNF_UNREAD);
  }
  do {
    text.front = taken(realloc(text.front, text.count + 65536));
    got = fread((char *)text.front + text.count, 1, 65536, file);
    text.count += got;
  } while (got > 0);
  fclose(file);
  return text;
}

/* Ends as the program would. */
static void refuse(const pbcnf_refusal *refusal) {
  uint8_t words[160];
  uint64_t length;
  pbcnf_words(refusal, words, sizeof words, &length);
  fprintf(stderr, "%.*s\n", (int)length, (const char *)words);
  exit((int)refusal->status);
}

/* The clauses of a text, in a room that grows where it was too small. */
static struct room clauses_of(struct room opb, pbcnf_size *size) {
  const pbcnf_options options = PBCNF_OPTIONS_DEFAULT;
  const pbcnf_bound bound = PBCNF_NO_BOUND;
  pbcnf_refusal refusal;
  struct room clauses = {NULL, 1024};
  uint8_t status;
  do {
    clauses.front = taken(realloc(clauses.front, clauses.count * sizeof(int32_t)));
    status = pbcnf_clauses(opb.front, opb.count, &options, &bound, clauses.front, clauses.count, size, &refusal);
    clauses.count = size->length;
  } while (status == PBCNF_NO_ROOM);
  if (status != PBCNF_DONE) refuse(&refusal);
  return clauses;
}

/* What a solver would print of its model. */
static struct room model_of(CCaDiCaL *solver, uint32_t vars) {
  struct room text = {taken(malloc(64 + 12 * (size_t)vars)), 0};
  text.count += (size_t)sprintf(text.front, "s SATISFIABLE\nv");
  for (uint32_t var = 1; var <= vars; var++)
    text.count += (size_t)sprintf((char *)text.front + text.count, " %d", ccadical_val(solver, (int)var) > 0 ? (int)var : -(int)var);
  text.count += (size_t)sprintf((char *)text.front + text.count, " 0\n");
  return text;
}

static void say_solution(struct room opb, struct room model) {
  const pbcnf_bound bound = PBCNF_NO_BOUND;
  pbcnf_refusal refusal;
  struct room said = {NULL, 1024};
  uint64_t length;
  uint8_t status;
  do {
    said.front = taken(realloc(said.front, said.count));
    status = pbcnf_decode(opb.front, opb.count, &bound, model.front, model.count, said.front, said.count, &length, &refusal);
    said.count = length;
  } while (status == PBCNF_NO_ROOM);
  if (status != PBCNF_DONE) refuse(&refusal);
  fwrite(said.front, 1, said.count, stdout);
  free(said.front);
}

static void add(void *solver, int32_t literal) { ccadical_add(solver, literal); }

int main(int argc, char **argv) {
  if (argc != 2) return PBCNF_USAGE;
  struct room opb = read_file(argv[1]);
  pbcnf_size size;
  struct room clauses = clauses_of(opb, &size);
  CCaDiCaL *solver = ccadical_init();
  pbcnf_add_all(clauses.front, clauses.count, solver, add);
  int answer = ccadical_solve(solver);
  if (answer == 10) {
    struct room model = model_of(solver, size.original);
    say_solution(opb, model);
    free(model.front);
  } else {
    puts("s UNSATISFIABLE");
  }
  ccadical_release(solver);
  free(clauses.front);
  free(opb.front);
  return answer == 10 ? PBCNF_DONE : 20;
}
