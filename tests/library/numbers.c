/* The numbers of pbcnf.h and the words that the library has for them are those of the comments there.
 *
 * The list of the constants, `numbers.h`, is made of the header by the test: each with its comment. */
#include "calls.h"

/* A constant of the header, which text it is about, and its comment. */
struct constant {
  const char *name;
  uint32_t number;
  const char *comment;
};

static const struct constant expected[] = {
#include "expected.h"
};
static const struct constant limits[] = {
#include "limits.h"
};
static const struct constant denied[] = {
#include "denied.h"
};
static const struct constant unproved[] = {
#include "unproved.h"
};

static int says(pbcnf_refusal r, const char *due) {
  uint8_t said[160];
  uint64_t length = 0;
  uint8_t status = pbcnf_words(&r, said, sizeof said, &length);
  if (status == PBCNF_DONE && length == strlen(due) && memcmp(said, due, length) == 0) return 1;
  printf("wanted '%s', got status %d and '%.*s'\n", due, status, (int)length, (const char *)said);
  return 0;
}

/* Which text a comment begins with, and what is after it. */
static uint32_t file_of(const char **comment, const char **name) {
  static const char *const marks[] = {"OPB: ", "CNF: ", "derivation: ", "model: ", "LRAT: "};
  static const char *const names[] = {"OPB", "CNF", "PROOF", "MODEL", "LRAT"};
  for (uint32_t i = 0; i < COUNT(marks); i++)
    if (strncmp(*comment, marks[i], strlen(marks[i])) == 0) {
      *comment += strlen(marks[i]);
      *name = names[i];
      return i + 1;
    }
  *name = "OPB";
  return PBCNF_FILE_OPB;
}

/* The words of a reason, at whose end N is the number that is reported with it. */
static void try_reason(const struct constant *reason, pbcnf_refusal r, const char *where) {
  const size_t length = strlen(reason->comment), has_number = reason->comment[length - 1] == 'N';
  char due[200], number[2] = "";
  if (has_number) r.number = 8, number[0] = '8';
  snprintf(due, sizeof due, "pbcnf: %s line 3: %.*s%s", where, (int)(length - has_number), reason->comment, number);
  judge(says(r, due), "the words of its comment", reason->name, (long)reason->number);
}

/* A number of 64 bits is the same in two words, of which the high one has its sign alone. */
static void try_words(void) {
  static const int64_t numbers[] = {0, 1, -1, 1ll << 40, -(1ll << 40), INT64_MAX, INT64_MIN};
  for (size_t i = 0; i < COUNT(numbers); i++) {
    const uint64_t low = (uint64_t)numbers[i], high = numbers[i] < 0 ? UINT64_MAX : 0;
    const pbcnf_bound bound = pbcnf_bound_of(numbers[i]);
    const pbcnf_side side = pbcnf_side_of(PBCNF_AT_MOST, numbers[i], 9);
    const pbcnf_sum sum = pbcnf_sum_of(PBCNF_EQUAL, numbers[i], 7);
    judge(bound.set == 1 && bound.low == low && bound.high == high, "a bound", "bound_of", (long)i);
    judge(side.relation == PBCNF_AT_MOST && side.first == 9 && side.right_low == low && side.right_high == high, "a side", "side_of", (long)i);
    judge(sum.relation == PBCNF_EQUAL && sum.condition == 0 && sum.terms == 7 && sum.right_low == low && sum.right_high == high, "a sum", "sum_of", (long)i);
  }
}

/* The library is of the header's version and interface. */
static void try_version(void) {
  unsigned major, minor, patch;
  judge(sscanf(PBCNF_VERSION, "%u.%u.%u", &major, &minor, &patch) == 3 && pbcnf_version() == (major << 16 | minor << 8 | patch),
        "the header's version", "version", (long)pbcnf_version());
  judge(pbcnf_abi() == PBCNF_ABI, "the header's interface", "abi", (long)pbcnf_abi());
}

int main(void) {
  char due[200];
  try_version();
  try_words();
  for (size_t i = 0; i < COUNT(expected); i++) {
    const char *comment = expected[i].comment, *name;
    pbcnf_refusal r = {3, 7, 0, PBCNF_REFUSED, 0, expected[i].number, 0, 0, 0};
    r.file = file_of(&comment, &name);
    snprintf(due, sizeof due, "pbcnf: %s 3:7: expected %s", name, comment);
    judge(says(r, due), "the words of its comment", expected[i].name, (long)expected[i].number);
  }
  for (size_t i = 0; i < COUNT(limits); i++) {
    pbcnf_refusal r = {3, 7, 0, PBCNF_LIMIT, PBCNF_FILE_OPB, 0, limits[i].number, 0, 0};
    snprintf(due, sizeof due, "pbcnf: OPB 3:7: limit %s", limits[i].comment);
    judge(says(r, due), "the word of its name", limits[i].name, (long)limits[i].number);
  }
  for (size_t i = 0; i < COUNT(denied); i++) {
    pbcnf_refusal r = {3, 0, 0, PBCNF_REJECTED, 0, 0, 0, denied[i].number, 0};
    try_reason(&denied[i], r, "PROOF");
  }
  for (size_t i = 0; i < COUNT(unproved); i++) {
    pbcnf_refusal r = {3, 0, 0, PBCNF_NOT_REFUTED, 0, 0, 0, 0, unproved[i].number};
    try_reason(&unproved[i], r, "LRAT");
  }
  {
    pbcnf_refusal r = {0, 0, 0, PBCNF_REFUSED, PBCNF_FILE_OPB, 0, 0, 0, 0};
    judge(says(r, "pbcnf: OPB: no objective"), "the words of a text without an objective", "PBCNF_REFUSED", PBCNF_REFUSED);
  }
  return conclude();
}
