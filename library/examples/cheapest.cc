// Finds the cheapest guards for a street of corners by one solver in this process, in C++: after each solution it gets one
// constraint more, that the next is cheaper. Nothing is kept between the calls but the first variable that is still free.
//
//   c++ -std=c++17 cheapest.cc $(pkg-config --cflags --libs pbcnf) -lcadical -o cheapest
#include <cadical.hpp>
#include <pbcnf.hpp>

#include <cstdint>
#include <iostream>
#include <vector>

namespace {

// A solver that takes constraints.
class Solver {
public:
  explicit Solver(std::uint32_t first) : first(first) {}

  void add(const pbcnf::Constraint &constraint) {
    const pbcnf::Encoding encoding = pbcnf::constraint(constraint, first);
    encoding.add_to(solver);
    first = encoding.next_free();
  }

  bool solve() { return solver.solve() == 10; }

  bool is_true(std::int32_t literal) { return solver.val(literal) > 0; }

private:
  CaDiCaL::Solver solver;
  std::uint32_t first;
};

} // namespace

int main() {
  const std::vector<std::int32_t> costs = {3, 5, 4, 6, 2, 4, 7, 3};
  const std::int32_t last = static_cast<std::int32_t>(costs.size());
  pbcnf::Constraint cheaper = {{}, {}, pbcnf::Relation::at_most, 0};
  for (std::int32_t guard = 1; guard <= last; guard++) {
    cheaper.coefficients.push_back(costs[guard - 1]);
    cheaper.literals.push_back(guard);
  }
  Solver solver(static_cast<std::uint32_t>(last + 1));
  // Each stretch of the street is seen from one of its ends.
  for (std::int32_t guard = 1; guard < last; guard++) solver.add({{1, 1}, {guard, guard + 1}, pbcnf::Relation::at_least, 1});
  while (solver.solve()) {
    std::int64_t cost = 0;
    for (std::int32_t guard = 1; guard <= last; guard++)
      if (solver.is_true(guard)) cost += costs[guard - 1];
    std::cout << "cost " << cost << '\n';
    cheaper.right = cost - 1;
    solver.add(cheaper);
  }
  std::cout << "none is cheaper\n";
}
