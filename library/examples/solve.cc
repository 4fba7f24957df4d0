// Solves an OPB file in one process, in C++: encodes it, hands its clauses to CaDiCaL, and decodes the model, which tests it.
//
//   c++ -std=c++17 solve.cc $(pkg-config --cflags --libs pbcnf) -lcadical -o solve
//   ./solve knapsack.opb
//
// Exit status: that of pbcnf in the same case, or 20 where there is no solution.
#include <cadical.hpp>
#include <pbcnf.hpp>

#include <cstdint>
#include <fstream>
#include <iostream>
#include <iterator>
#include <string>
#include <vector>

namespace {

int solve(const std::string &opb) {
  const pbcnf::Encoding encoding = pbcnf::encode(opb);
  CaDiCaL::Solver solver;
  encoding.add_to(solver);
  if (solver.solve() != 10) {
    std::cout << "s UNSATISFIABLE\n";
    return 20;
  }
  std::vector<std::int32_t> model;
  for (int var = 1; var <= static_cast<int>(encoding.original()); var++) model.push_back(solver.val(var) > 0 ? var : -var);
  std::cout << pbcnf::decode(opb, model);
  return PBCNF_DONE;
}

} // namespace

int main(int argc, char **argv) {
  if (argc != 2) return PBCNF_USAGE;
  std::ifstream file(argv[1], std::ios::binary);
  if (!file) return PBCNF_UNREAD;
  try {
    return solve(std::string{std::istreambuf_iterator<char>(file), {}});
  } catch (const pbcnf::Error &error) {
    std::cerr << error.what() << '\n';
    return error.status();
  }
}
