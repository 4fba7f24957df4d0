/* The constants of pbcnf.h are the library's numbers: of each text, and of the usual options.
 *
 * usage: usual OPB    prints the CNF text of the problem under the usual options, after a line on standard error for each failure */
#include "calls.h"

static const struct {
  uint32_t number;
  const char *name;
} texts[] = {
    {PBCNF_FILE_OPB, "OPB"}, {PBCNF_FILE_CNF, "CNF"}, {PBCNF_FILE_PROOF, "PROOF"}, {PBCNF_FILE_MODEL, "MODEL"}, {PBCNF_FILE_LRAT, "LRAT"},
};

/* True if the library has this name for the text of this number. */
static int is_named(uint32_t number, const char *name) {
  const pbcnf_refusal r = {3, 7, 0, PBCNF_REFUSED, number, PBCNF_EXPECTED_INTEGER, 0, 0, 0};
  char due[64];
  uint8_t said[64];
  uint64_t length = 0;
  snprintf(due, sizeof due, "pbcnf: %s 3:7: expected an integer", name);
  return pbcnf_words(&r, said, sizeof said, &length) == PBCNF_DONE && length == strlen(due) && memcmp(said, due, length) == 0;
}

/* Which text a call blames that is no OPB text, CNF, derivation, model or refutation. */
static uint32_t blamed(size_t which) {
  static const uint8_t good[] = "+1 x1 >= 1 ;\n+1 ~x1 >= 1 ;\n", cnf[] = "p cnf 1 2\n1 0\n-1 0\n", bad[] = "x";
  static const uint8_t proof[] = "pseudo-Boolean derivation profile 1\nf 2\nout 1\nout 2\nend\n";
  const pbcnf_bound none = PBCNF_NO_BOUND;
  pbcnf_refusal r = {0};
  uint8_t room[64];
  uint64_t length = 0;
  uint8_t status;
  if (which == 3) {
    status = pbcnf_decode(good, sizeof good - 1, &none, bad, 1, room, sizeof room, &length, &r);
  } else {
    const uint8_t *all[] = {good, cnf, proof, bad, bad};
    size_t sizes[] = {sizeof good - 1, sizeof cnf - 1, sizeof proof - 1, 1, 1};
    all[which] = bad;
    sizes[which] = 1;
    status = pbcnf_refute(all[0], sizes[0], &none, all[1], sizes[1], all[2], sizes[2], all[4], sizes[4], &r);
  }
  return status == PBCNF_REFUSED ? r.file : PBCNF_FILE_NONE;
}

/* Prints the CNF text of the problem in a file; whether that went well. */
static int print_cnf(const char *file) {
  enum { ROOM = 1 << 25 };
  static uint8_t opb[ROOM], cnf[ROOM];
  const pbcnf_options usual = PBCNF_OPTIONS_DEFAULT;
  const pbcnf_bound none = PBCNF_NO_BOUND;
  pbcnf_size size;
  pbcnf_refusal r;
  FILE *from = fopen(file, "rb");
  size_t length = from ? fread(opb, 1, ROOM, from) : 0;
  if (from) fclose(from);
  return pbcnf_encode(opb, length, &usual, &none, cnf, ROOM, &size, &r) == PBCNF_DONE && fwrite(cnf, 1, size.length, stdout) == size.length;
}

int main(int count, char **words) {
  int fails = 0;
  for (size_t i = 0; i < COUNT(texts); i++) {
    if (!is_named(texts[i].number, texts[i].name)) fails++, fprintf(stderr, "%s has another name\n", texts[i].name);
    if (blamed(i) != texts[i].number) fails++, fprintf(stderr, "%s is blamed as %d\n", texts[i].name, (int)blamed(i));
  }
  return count != 2 || !print_cnf(words[1]) || fails;
}
