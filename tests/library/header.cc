/* Each call of pbcnf.hpp once, with rooms that have to grow, empty texts, and refusals. */
#include <pbcnf.hpp>

#include <cstdio>
#include <string>
#include <vector>

namespace {

int passes, failures;

void judge(bool holds, const char *what) {
  holds ? passes++ : failures++;
  if (!holds) std::printf("%s\n", what);
}

const std::string opb = "min: +3 rain -2 sun ;\n+2 rain +1 sun +1 x1 x2 >= 2 ;\n+1 rain +1 x1 = 1 ;\n";

/* True if a call is refused so. */
template <typename Call>
bool refuses(Call call, int status, const std::string &words) {
  try {
    call();
  } catch (const pbcnf::Error &error) {
    return error.status() == status && error.refusal().status == static_cast<std::uint32_t>(status) && error.what() == words;
  }
  return false;
}

/* A solver that keeps what it is handed. */
struct Kept {
  std::vector<std::int32_t> integers;
  void add(int integer) { integers.push_back(integer); }
};

void try_clauses() {
  pbcnf::Options options;
  options.general = pbcnf::General::tree;
  options.equal = pbcnf::Equal::joint;
  const pbcnf::Encoding encoding = pbcnf::encode(opb, options);
  std::string text = "p cnf " + std::to_string(encoding.variables()) + " " + std::to_string(encoding.size()) + "\n";
  std::size_t clauses = 0;
  for (pbcnf::Clause clause : encoding) {
    for (std::int32_t literal : clause) text += std::to_string(literal) + " ";
    text += "0\n";
    clauses++;
  }
  judge(text == pbcnf::dimacs(opb, options) && clauses == encoding.size(), "the clauses are those of the text");
  judge(encoding.original() == 4 && encoding.next_free() == encoding.variables() + 1, "its numbers");
  Kept kept;
  encoding.add_to(kept);
  judge(kept.integers == encoding.integers(), "a solver is handed all integers");
  const std::vector<std::int32_t> empty_clause = {0};
  judge(pbcnf::encode("").integers().empty() && pbcnf::encode("+1 x1 >= 2 ;").integers() == empty_clause, "no clause, and an empty one");
  judge((*pbcnf::encode("+1 x1 >= 2 ;").begin()).empty(), "an empty clause has no literal");
  judge(pbcnf::encode(opb, {}, -1).integers() == pbcnf::encode(opb + "+3 rain -2 sun <= -1 ;").integers(), "a bound is a statement more");
  judge(pbcnf::wcnf("min: +3 x1 -2 x2 ;\n+1 x1 +1 x2 >= 1 ;\n") == "c offset -2\nh 1 2 0\n3 -1 0\n2 2 0\n", "weights");
  const std::vector<pbcnf_row> rows = pbcnf::bounds("min: +3 x1 -2 x2 ;");
  judge(rows.size() == 3 && rows[2].low == 3 && rows[2].high == 0 && rows[2].literal == 5, "bounds");
  const pbcnf::Softs softs = pbcnf::softs("min: +3 x1 -2 x2 ;");
  judge(softs.offset.low == UINT64_MAX - 1 && softs.offset.high == UINT64_MAX && softs.rows.size() == 2, "an offset");
  judge(softs.rows[0].low == 3 && softs.rows[0].literal == -1 && softs.rows[1].low == 2 && softs.rows[1].literal == 2, "soft literals");
}

void try_models() {
  const std::string said = "o 1\ns SATISFIABLE\nv -x1 -x2 rain sun\n";
  judge(pbcnf::decode(opb, std::vector<std::int32_t>{-1, -2, 3, 4, 0}) == said, "literals are decoded");
  judge(pbcnf::decode(opb, "s SATISFIABLE\nv -1 -2 3 4 0\n") == said, "a text is decoded");
  judge(pbcnf::names(opb) == "3 rain\n4 sun\n" && pbcnf::names("").empty(), "names");
  judge(refuses([] { pbcnf::decode(opb, std::vector<std::int32_t>{3, 4}, 0); }, PBCNF_NO_SOLUTION, "pbcnf: statement 3 is violated"),
        "a statement is violated");
  judge(refuses([] { pbcnf::decode(opb, "s UNSATISFIABLE\n"); }, PBCNF_NO_MODEL, "pbcnf: no model"), "no model");
}

void try_judgements() {
  const std::string unsolved = "+1 x1 >= 1 ;\n+1 ~x1 >= 1 ;\n", cnf = pbcnf::dimacs(unsolved), proof = pbcnf::derive(unsolved);
  pbcnf::check(unsolved, cnf, proof);
  pbcnf::refute(unsolved, cnf, proof, "3 0 1 2 0\n");
  judge(refuses([&] { pbcnf::check(unsolved, "p cnf 1 2\n1 0\n1 0\n", proof); }, PBCNF_REJECTED, "pbcnf: PROOF line 6: not implied by 4"),
        "a step is rejected");
  judge(refuses([&] { pbcnf::refute(unsolved, cnf, proof, ""); }, PBCNF_NOT_REFUTED, "pbcnf: LRAT line 1: no empty clause"), "not refuted");
}

void try_constraints() {
  const std::vector<std::int32_t> due = {-1, 2, 0, -1, -3, 0, 2, -3, 0};
  const pbcnf::Encoding one = pbcnf::constraint({{1, 1, 1}, {1, -2, 3}, pbcnf::Relation::at_most, 1}, 10);
  judge(one.integers() == due && one.original() == 9 && one.next_free() == 10, "one constraint");
  judge(pbcnf::constraint({{}, {}, pbcnf::Relation::at_least, 1}, 1).size() == 1, "a sum of no terms");
  const pbcnf::Number great(0, 1);
  judge(pbcnf::constraint({{great, great}, {1, 2}, pbcnf::Relation::at_least, great}, 3).size() == 1, "numbers of 128 bits");
  judge(pbcnf::constraint({{-1, -1}, {1, 2}, pbcnf::Relation::at_least, -1}, 3).size() == 1, "numbers below 0");
  pbcnf::Constraint heavy = {{}, {}, pbcnf::Relation::at_most, 900};
  std::string text;
  for (std::int32_t var = 1; var <= 40; var++) {
    heavy.coefficients.push_back(3 * var % 101 + 1);
    heavy.literals.push_back(var);
    text += "+" + std::to_string(3 * var % 101 + 1) + " x" + std::to_string(var) + " ";
  }
  text += "<= 900 ;";
  const pbcnf::Encoding grown = pbcnf::constraint(heavy, 41);
  judge(grown.integers().size() > 32 * 40 + 256 && grown.integers() == pbcnf::encode(text).integers(), "rooms that grow");
  judge(pbcnf::derive_constraint(heavy, 41) == pbcnf::derive(text), "and of derivations");
}

void try_many() {
  const pbcnf::Constraint first = {{1, 1, 1}, {1, -2, 3}, pbcnf::Relation::at_most, 1}, second = {{2, 3, -4}, {4, 5, -6}, pbcnf::Relation::equal, 1};
  pbcnf::Constraints both;
  judge(both.size() == 0 && pbcnf::constraints(both, 9).integers().empty() && pbcnf::constraints(both, 9).next_free() == 9, "no constraint");
  both.add(first);
  both.add(second);
  const pbcnf::Encoding one = pbcnf::constraint(first, 9), other = pbcnf::constraint(second, one.next_free()), made = pbcnf::constraints(both, 9);
  std::vector<std::int32_t> due = one.integers();
  due.insert(due.end(), other.integers().begin(), other.integers().end());
  judge(both.size() == 2 && made.integers() == due && made.next_free() == other.next_free() && made.original() == 8, "two constraints");
  const std::string text = "* #variable= 8 #constraint= 2\n+1 x1 +1 ~x2 +1 x3 <= 1 ;\n+2 x4 +3 x5 -4 ~x6 = 1 ;\n";
  judge(pbcnf::derive_constraints(both, 9) == pbcnf::derive(text), "their derivation");
  pbcnf::Constraints conditional;
  conditional.add({{1, 1}, {1, 2}, pbcnf::Relation::at_least, 1}, 3);
  conditional.add({1}, {2}, pbcnf::Relation::at_most, 0, -3);
  judge(pbcnf::constraints(conditional, 4).integers() == std::vector<std::int32_t>{1, 2, -3, 0, -2, 3, 0}, "conditions");
  conditional.add({1}, {2}, pbcnf::Relation::at_most, 0, 4);
  judge(refuses([&] { pbcnf::constraints(conditional, 4); }, PBCNF_USAGE, "pbcnf: constraint 3: a number is out of its range"), "a condition");
  both.add({pbcnf::Number(0, 1ull << 40)}, {1}, pbcnf::Relation::at_least, 1);
  judge(refuses([&] { pbcnf::constraints(both, 9); }, PBCNF_LIMIT, "pbcnf: constraint 3: limit weight"), "the one to blame");
  bool is_refused = false;
  try {
    both.add({1, 2}, {1}, pbcnf::Relation::at_least, 1);
  } catch (const std::invalid_argument &) {
    is_refused = true;
  }
  judge(is_refused && both.size() == 3, "a literal without a coefficient");
}

void try_refusals() {
  judge(refuses([] { pbcnf::encode("+1 x1 >= ;"); }, PBCNF_REFUSED, "pbcnf: OPB 1:10: expected an integer"), "a place");
  pbcnf::Options none;
  none.budget = 0;
  bool is_usage = false;
  try {
    pbcnf::encode("", none);
  } catch (const std::runtime_error &error) {
    is_usage = dynamic_cast<const pbcnf::Error &>(error).status() == PBCNF_USAGE;
  }
  judge(is_usage, "a usage");
  judge(refuses([] { pbcnf::encode("+1 x2147483648 >= 1 ;"); }, PBCNF_LIMIT, "pbcnf: OPB 1:4: limit variables"), "a limit");
}

}  // namespace

void try_numbers() {
  const pbcnf::Number rising[] = {{0, 1ull << 63}, {0, UINT64_MAX}, -5, -1, 0, 1, INT64_MAX, {1ull << 63, 0}, {0, 1}, {UINT64_MAX, INT64_MAX}};
  bool is_right = true;
  for (const pbcnf::Number &a : rising)
    for (const pbcnf::Number &b : rising) is_right = is_right && (a < b) == (&a < &b) && (a == b) == (&a == &b) && (a != b) == (&a != &b);
  judge(is_right, "numbers in order");
}

int main() {
  try_clauses();
  try_models();
  try_judgements();
  try_constraints();
  try_many();
  try_numbers();
  try_refusals();
  std::printf("%d passed, %d failed\n", passes, failures);
  return failures > 0;
}
