// Finds the best solution of an OPB file in one process, in C++: a table of bounds on the objective stands after its clauses, so that a
// better solution is asked for by assuming one literal, and the solver keeps all that it has learned. Each solution is tested against
// each statement; that none is better is the solver's word.
//
//   c++ -std=c++17 optimum.cc $(pkg-config --cflags --libs pbcnf) -lcadical -o optimum
//   ./optimum knapsack.opb
//
// Exit status: that of pbcnf in the same case, or 20 where there is no solution.
#include <cadical.hpp>
#include <pbcnf.hpp>

#include <cstdint>
#include <fstream>
#include <iostream>
#include <iterator>
#include <string>
#include <vector>

namespace {

// What the program would say of the solver's model: its objective in the first line, and its values.
std::string solution_of(CaDiCaL::Solver &solver, const std::string &opb, std::uint32_t variables) {
  std::vector<std::int32_t> model;
  for (std::uint32_t v = 1; v <= variables; v++)
    if (solver.val(static_cast<int>(v)) > 0) model.push_back(static_cast<std::int32_t>(v));
  return pbcnf::decode(opb, model);
}

// Takes off the rows whose values are above that of a solution.
void cut_to(std::vector<pbcnf_row> &rows, const pbcnf::Number &value) {
  while (!rows.empty() && value < pbcnf::value_of(rows.back())) rows.pop_back();
}

bool has_objective(const std::string &said) { return said.compare(0, 2, "o ") == 0; }

// The best solution, or any where there is no objective, or nothing.
std::string best_of(const std::string &opb) {
  pbcnf::Options options;
  options.table = true;
  const pbcnf::Encoding encoding = pbcnf::encode(opb, options);
  std::vector<pbcnf_row> rows = pbcnf::bounds(opb);
  CaDiCaL::Solver solver;
  encoding.add_to(solver);
  std::string best;
  while (solver.solve() == 10) {
    best = solution_of(solver, opb, encoding.original());
    if (!has_objective(best)) break;
    std::cout << best.substr(0, best.find('\n') + 1);
    cut_to(rows, std::stoll(best.substr(2)));
    if (rows.empty()) break;
    solver.assume(-rows.back().literal);
  }
  return best;
}

} // namespace

int main(int argc, char **argv) try {
  std::ifstream file(argc == 2 ? argv[1] : "", std::ios::binary);
  if (!file) return PBCNF_UNREAD;
  const std::string opb{std::istreambuf_iterator<char>(file), {}}, best = best_of(opb);
  if (best.empty()) {
    std::cout << "s UNSATISFIABLE\n";
    return 20;
  }
  std::cout << (has_objective(best) ? "s OPTIMUM FOUND\n" + best.substr(best.find("v ")) : best);
} catch (const pbcnf::Error &error) {
  std::cerr << error.what() << '\n';
  return error.status();
}
