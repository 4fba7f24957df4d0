/* pbcnf for C++17: the calls of pbcnf.h over vectors and texts, with rooms that grow and refusals that are thrown.
 *
 *   pbcnf::Encoding encoding = pbcnf::encode("+2 x1 +1 x2 +1 x3 >= 3 ;");
 *   encoding.add_to(solver);                 // anything with add(int), as CaDiCaL's Solver
 *
 * There is nothing to link but libpbcnf, and no state: any number of threads may call at once. */
#ifndef PBCNF_HPP
#define PBCNF_HPP
#include <pbcnf.h>

#include <cstddef>
#include <cstdint>
#include <iterator>
#include <optional>
#include <stdexcept>
#include <string>
#include <string_view>
#include <utility>
#include <vector>

namespace pbcnf {

/* Why a call did not do what was asked. what() is what the program would print. */
class Error : public std::runtime_error {
 public:
  explicit Error(const pbcnf_refusal &refusal) : std::runtime_error(words_of(refusal)), refusal_(refusal) {}

  /* The same in numbers: pbcnf.h says what each is. */
  const pbcnf_refusal &refusal() const noexcept { return refusal_; }

  /* The exit status of the program in the same case: PBCNF_REFUSED, PBCNF_USAGE and so on. */
  int status() const noexcept { return static_cast<int>(refusal_.status); }

 private:
  static std::string words_of(const pbcnf_refusal &refusal) {
    std::uint8_t said[256];
    std::uint64_t length = 0;
    pbcnf_words(&refusal, said, sizeof said, &length);
    return std::string(said, said + length);
  }

  pbcnf_refusal refusal_;
};

/* A whole number of 128 bits, in two's complement. */
struct Number {
  std::uint64_t low, high;

  Number(std::int64_t value = 0) : low(static_cast<std::uint64_t>(value)), high(value < 0 ? UINT64_MAX : 0) {}
  Number(std::uint64_t low_word, std::uint64_t high_word) : low(low_word), high(high_word) {}

  /* The sign is in the high word. */
  friend bool operator<(const Number &a, const Number &b) {
    return a.high == b.high ? a.low < b.low : static_cast<std::int64_t>(a.high) < static_cast<std::int64_t>(b.high);
  }
  friend bool operator==(const Number &a, const Number &b) { return a.low == b.low && a.high == b.high; }
  friend bool operator!=(const Number &a, const Number &b) { return !(a == b); }
};

/* The value of a row of `bounds`. */
inline Number value_of(const pbcnf_row &row) { return Number(row.low, row.high); }

enum class Relation : std::uint32_t { at_least = PBCNF_AT_LEAST, at_most = PBCNF_AT_MOST, equal = PBCNF_EQUAL };
enum class Amo : std::uint32_t { automatic = 0, pairwise = 1, ladder = 2, product = 3 };
enum class Card : std::uint32_t { automatic = 0, counter = 1, totalizer = 2 };
enum class General : std::uint32_t { diagram = 0, tree = 1, adder = 2 };
enum class Equal : std::uint32_t { split = 0, joint = 1 };

/* What is chosen of an encoding, as pbcnf_options has it. */
struct Options {
  Amo amo = Amo::automatic;
  Card card = Card::automatic;
  General general = General::diagram;
  Equal equal = Equal::split;
  bool table = false;
  std::uint32_t budget = 50000;

  pbcnf_options numbers() const {
    return {static_cast<std::uint32_t>(amo),   static_cast<std::uint32_t>(card), static_cast<std::uint32_t>(general),
            static_cast<std::uint32_t>(equal), table ? 1u : 0u,                  budget};
  }
};

/* The literals of one clause. */
class Clause {
 public:
  Clause(const std::int32_t *first, const std::int32_t *last) : first_(first), last_(last) {}

  const std::int32_t *begin() const { return first_; }
  const std::int32_t *end() const { return last_; }
  std::size_t size() const { return static_cast<std::size_t>(last_ - first_); }
  bool empty() const { return first_ == last_; }

 private:
  const std::int32_t *first_, *last_;
};

/* The clauses of a problem, or of one constraint. `for (pbcnf::Clause clause : encoding)` goes through them. */
class Encoding {
 public:
  Encoding(std::vector<std::int32_t> integers, const pbcnf_size &size) : integers_(std::move(integers)), size_(size) {}

  /* The last variable that is taken. */
  std::uint32_t variables() const { return size_.vars; }
  /* The variables before those of products and the fresh ones: those of the problem, or those below the first fresh one. */
  std::uint32_t original() const { return size_.original; }
  /* The first variable that is still free: the `first` of the next constraint. */
  std::uint32_t next_free() const { return size_.vars + 1; }
  /* How many clauses there are. */
  std::size_t size() const { return static_cast<std::size_t>(size_.clauses); }
  /* The literals of each clause, and then 0, as IPASIR takes them. */
  const std::vector<std::int32_t> &integers() const { return integers_; }

  /* Hands each integer to a solver, by its add. */
  template <typename Solver>
  void add_to(Solver &solver) const {
    for (std::int32_t integer : integers_) solver.add(integer);
  }

  class Iterator {
   public:
    using value_type = Clause;
    using difference_type = std::ptrdiff_t;
    using reference = Clause;
    using pointer = const Clause *;
    using iterator_category = std::input_iterator_tag;

    explicit Iterator(const std::int32_t *at) : at_(at) {}
    Clause operator*() const { return Clause(at_, end()); }
    Iterator &operator++() {
      at_ = end() + 1;
      return *this;
    }
    Iterator operator++(int) {
      Iterator before = *this;
      ++*this;
      return before;
    }
    bool operator==(const Iterator &other) const { return at_ == other.at_; }
    bool operator!=(const Iterator &other) const { return at_ != other.at_; }

   private:
    const std::int32_t *end() const {
      const std::int32_t *last = at_;
      while (*last) ++last;
      return last;
    }

    const std::int32_t *at_;
  };

  Iterator begin() const { return Iterator(integers_.data()); }
  Iterator end() const { return Iterator(integers_.data() + integers_.size()); }

 private:
  std::vector<std::int32_t> integers_;
  pbcnf_size size_;
};

/* How calls are made. */
namespace detail {

inline const std::uint8_t *bytes(std::string_view text) { return reinterpret_cast<const std::uint8_t *>(text.data()); }
inline std::uint8_t *bytes(std::string &text) { return reinterpret_cast<std::uint8_t *>(text.data()); }

inline pbcnf_bound bound(const std::optional<Number> &at_most) {
  return at_most ? pbcnf_bound{1, at_most->low, at_most->high} : pbcnf_bound{0, 0, 0};
}

/* Refuses a library whose calls have other structs or numbers than the header. */
inline void judge_library() {
  if (pbcnf_abi() != PBCNF_ABI) throw std::logic_error("libpbcnf is of another version than pbcnf.hpp");
}

/* Has a call fill a room, which is a vector or a string: again, if it was too small. It reports how many items there are. */
template <typename Room, typename Call>
Room filled(Room room, Call call) {
  judge_library();
  pbcnf_refusal refusal;
  std::uint64_t length = 0;
  while (call(room, length, refusal) == PBCNF_NO_ROOM) room.resize(static_cast<std::size_t>(length));
  if (refusal.status != PBCNF_DONE) throw Error(refusal);
  room.resize(static_cast<std::size_t>(length));
  return room;
}

/* The words of numbers, the low one first, as the library takes them. */
inline std::vector<std::uint64_t> words(const std::vector<Number> &numbers) {
  std::vector<std::uint64_t> both;
  both.reserve(2 * numbers.size());
  for (const Number &number : numbers) both.insert(both.end(), {number.low, number.high});
  return both;
}

using Posed = std::uint8_t (*)(const std::uint8_t *, std::size_t, const pbcnf_options *, const pbcnf_bound *, std::uint8_t *, std::size_t,
                               pbcnf_size *, pbcnf_refusal *);

/* The text that a call over a problem puts. */
inline std::string text(Posed make, std::size_t room, std::string_view opb, const Options &options, const std::optional<Number> &at_most) {
  const pbcnf_options chosen = options.numbers();
  const pbcnf_bound below = bound(at_most);
  return filled(std::string(room, '\0'), [&](std::string &put, std::uint64_t &length, pbcnf_refusal &refusal) {
    pbcnf_size size;
    const std::uint8_t status = make(bytes(opb), opb.size(), &chosen, &below, bytes(put), put.size(), &size, &refusal);
    length = size.length;
    return status;
  });
}

/* One constraint, as the library takes it. */
struct One {
  const std::uint64_t *coefficients;
  std::size_t words;
  const std::vector<std::int32_t> &literals;
  pbcnf_side side;
  pbcnf_options options;
};

/* A column of constraints, as the library takes it. */
struct All {
  const std::vector<std::uint64_t> &words;
  const std::vector<std::int32_t> &literals;
  const std::vector<pbcnf_sum> &sums;
  std::uint32_t first;
  pbcnf_options options;
};

template <typename Room, typename Put, typename Make>
Room all(Room room, const All &asked, pbcnf_size &size, Make make, Put put) {
  return filled(std::move(room), [&](Room &filled, std::uint64_t &length, pbcnf_refusal &refusal) {
    const std::uint8_t status = make(asked.words.data(), asked.words.size(), asked.literals.data(), asked.literals.size(), asked.sums.data(),
                                     asked.sums.size(), asked.first, &asked.options, put(filled), filled.size(), &size, &refusal);
    length = size.length;
    return status;
  });
}

template <typename Room, typename Put, typename Make>
Room one(Room room, const One &asked, pbcnf_size &size, Make make, Put put) {
  return filled(std::move(room), [&](Room &filled, std::uint64_t &length, pbcnf_refusal &refusal) {
    const std::uint8_t status = make(asked.coefficients, asked.words, asked.literals.data(), asked.literals.size(), &asked.side,
                                     &asked.options, put(filled), filled.size(), &size, &refusal);
    length = size.length;
    return status;
  });
}

}  // namespace detail

/* ---- a whole problem, as an OPB text. `at_most` is a bound on the objective. */

/* The clauses of a problem: their models, cut to its variables, are exactly its solutions. */
inline Encoding encode(std::string_view opb, const Options &options = {}, std::optional<Number> at_most = {}) {
  const pbcnf_options chosen = options.numbers();
  const pbcnf_bound bound = detail::bound(at_most);
  pbcnf_size size;
  using Room = std::vector<std::int32_t>;
  Room integers = detail::filled(Room(2 * opb.size() + 1024), [&](Room &room, std::uint64_t &length, pbcnf_refusal &refusal) {
    const std::uint8_t status = pbcnf_clauses(detail::bytes(opb), opb.size(), &chosen, &bound, room.data(), room.size(), &size, &refusal);
    length = size.length;
    return status;
  });
  return Encoding(std::move(integers), size);
}

/* The same clauses as a CNF text, the one that the program writes. */
inline std::string dimacs(std::string_view opb, const Options &options = {}, std::optional<Number> at_most = {}) {
  return detail::text(pbcnf_encode, 4 * opb.size() + 4096, opb, options, at_most);
}

/* The derivation of the same clauses, which `check` accepts. */
inline std::string derive(std::string_view opb, const Options &options = {}, std::optional<Number> at_most = {}) {
  return detail::text(pbcnf_derive, 16 * opb.size() + 4096, opb, options, at_most);
}

/* The weighted CNF of a problem and its objective, the text that the program's `wcnf` writes. */
inline std::string wcnf(std::string_view opb, const Options &options = {}, std::optional<Number> at_most = {}) {
  return detail::text(pbcnf_wcnf, 5 * opb.size() + 4096, opb, options, at_most);
}

/* The rows of the table of bounds of `encode` with `table`, their values ascending. Assume a row's literal false, and the models are
 * just the solutions below its value. */
inline std::vector<pbcnf_row> bounds(std::string_view opb, Options options = {}, std::optional<Number> at_most = {}) {
  options.table = true;
  const pbcnf_options chosen = options.numbers();
  const pbcnf_bound bound = detail::bound(at_most);
  using Room = std::vector<pbcnf_row>;
  return detail::filled(Room(64), [&](Room &rows, std::uint64_t &length, pbcnf_refusal &refusal) {
    pbcnf_size size;
    const std::uint8_t status = pbcnf_bounds(detail::bytes(opb), opb.size(), &chosen, &bound, rows.data(), rows.size(), &size, &refusal);
    length = size.length;
    return status;
  });
}

/* What the objective costs: in each model it is the offset and the values of the rows whose literals are false. */
struct Softs {
  Number offset;
  std::vector<pbcnf_row> rows;
};

inline Softs softs(std::string_view opb, std::optional<Number> at_most = {}) {
  const pbcnf_bound bound = detail::bound(at_most);
  pbcnf_costs costs;
  using Room = std::vector<pbcnf_row>;
  Room rows = detail::filled(Room(64), [&](Room &room, std::uint64_t &length, pbcnf_refusal &refusal) {
    const std::uint8_t status = pbcnf_softs(detail::bytes(opb), opb.size(), &bound, room.data(), room.size(), &costs, &refusal);
    length = costs.length;
    return status;
  });
  return {Number(costs.offset_low, costs.offset_high), std::move(rows)};
}

/* What the program says of a solver's text, its `s` and `v` lines: the solution, once it was tested against each statement. */
inline std::string decode(std::string_view opb, std::string_view model, std::optional<Number> at_most = {}) {
  const pbcnf_bound bound = detail::bound(at_most);
  return detail::filled(std::string(4 * opb.size() + 64, '\0'), [&](std::string &said, std::uint64_t &length, pbcnf_refusal &refusal) {
    return pbcnf_decode(detail::bytes(opb), opb.size(), &bound, detail::bytes(model), model.size(), detail::bytes(said), said.size(), &length,
                        &refusal);
  });
}

/* The same of a model that is given as its true literals. A variable that is not listed is false. */
inline std::string decode(std::string_view opb, const std::vector<std::int32_t> &model, std::optional<Number> at_most = {}) {
  std::string text = "s SATISFIABLE\nv ";
  for (std::int32_t literal : model)
    if (literal) text += std::to_string(literal) + ' ';
  return decode(opb, text + "0\n", at_most);
}

/* The free names of a problem: a line each, of the variable's number and the name. */
inline std::string names(std::string_view opb) {
  return detail::filled(std::string(4 * opb.size() + 64, '\0'), [&](std::string &said, std::uint64_t &length, pbcnf_refusal &refusal) {
    return pbcnf_map(detail::bytes(opb), opb.size(), detail::bytes(said), said.size(), &length, &refusal);
  });
}

/* Throws unless a derivation shows that each solution of a problem is the front of a model of a CNF. */
inline void check(std::string_view opb, std::string_view cnf, std::string_view proof, std::optional<Number> at_most = {}) {
  detail::judge_library();
  const pbcnf_bound bound = detail::bound(at_most);
  pbcnf_refusal refusal;
  const std::uint8_t status =
      pbcnf_check(detail::bytes(opb), opb.size(), &bound, detail::bytes(cnf), cnf.size(), detail::bytes(proof), proof.size(), &refusal);
  if (status != PBCNF_DONE) throw Error(refusal);
}

/* Throws unless these show that a problem has no solution: the derivation as in `check`, and the refutation, in the LRAT format. */
inline void refute(std::string_view opb, std::string_view cnf, std::string_view proof, std::string_view lrat,
                   std::optional<Number> at_most = {}) {
  detail::judge_library();
  const pbcnf_bound bound = detail::bound(at_most);
  pbcnf_refusal refusal;
  const std::uint8_t status = pbcnf_refute(detail::bytes(opb), opb.size(), &bound, detail::bytes(cnf), cnf.size(), detail::bytes(proof),
                                           proof.size(), detail::bytes(lrat), lrat.size(), &refusal);
  if (status != PBCNF_DONE) throw Error(refusal);
}

/* ---- one constraint at a time: nothing is kept between calls but the first variable that is still free */

/* A sum of literals, each with its coefficient, a relation and the right side. A literal is a variable's number or its negative. */
struct Constraint {
  std::vector<Number> coefficients;
  std::vector<std::int32_t> literals;
  Relation relation;
  Number right;
};

/* The clauses of one constraint, whose fresh variables begin at `first`; all its variables are below that. */
inline Encoding constraint(const Constraint &asked, std::uint32_t first, const Options &options = {}) {
  const std::vector<std::uint64_t> words = detail::words(asked.coefficients);
  const pbcnf_side side = {static_cast<std::uint32_t>(asked.relation), first, asked.right.low, asked.right.high};
  using Room = std::vector<std::int32_t>;
  pbcnf_size size;
  Room integers = detail::one(Room(32 * asked.literals.size() + 256), {words.data(), words.size(), asked.literals, side, options.numbers()},
                              size, pbcnf_constraint, [](Room &room) { return room.data(); });
  return Encoding(std::move(integers), size);
}

/* The derivation of these clauses, beside the problem of this one constraint over the variables below `first`. */
inline std::string derive_constraint(const Constraint &asked, std::uint32_t first, const Options &options = {}) {
  const std::vector<std::uint64_t> words = detail::words(asked.coefficients);
  const pbcnf_side side = {static_cast<std::uint32_t>(asked.relation), first, asked.right.low, asked.right.high};
  pbcnf_size size;
  return detail::one(std::string(512 * asked.literals.size() + 4096, '\0'),
                     {words.data(), words.size(), asked.literals, side, options.numbers()}, size, pbcnf_constraint_derive,
                     [](std::string &room) { return detail::bytes(room); });
}

/* ---- many constraints in one call */

/* Constraints in columns: the terms of each after those of the one before. They are made once, and can be added to. */
class Constraints {
 public:
  /* With a condition, a literal, the constraint has to hold only if that is true. */
  void add(const Constraint &asked, std::int32_t condition = 0) {
    add(asked.coefficients, asked.literals, asked.relation, asked.right, condition);
  }

  /* A literal is a variable's number or its negative, and each has its coefficient. */
  void add(const std::vector<Number> &coefficients, const std::vector<std::int32_t> &literals, Relation relation, Number right,
           std::int32_t condition = 0) {
    if (coefficients.size() != literals.size()) throw std::invalid_argument("each literal has one coefficient");
    for (const Number &number : coefficients) words_.insert(words_.end(), {number.low, number.high});
    literals_.insert(literals_.end(), literals.begin(), literals.end());
    sums_.push_back({static_cast<std::uint32_t>(relation), condition, literals.size(), right.low, right.high});
  }

  /* How many there are. */
  std::size_t size() const { return sums_.size(); }

  void clear() {
    words_.clear();
    literals_.clear();
    sums_.clear();
  }

 private:
  friend Encoding constraints(const Constraints &, std::uint32_t, const Options &);
  friend std::string derive_constraints(const Constraints &, std::uint32_t, const Options &);

  std::vector<std::uint64_t> words_;
  std::vector<std::int32_t> literals_;
  std::vector<pbcnf_sum> sums_;
};

/* The clauses of all constraints, one after another, with their fresh variables from `first` on. A refusal's number is the constraint to
 * blame, from 1, and 0 where no single one is. */
inline Encoding constraints(const Constraints &asked, std::uint32_t first, const Options &options = {}) {
  using Room = std::vector<std::int32_t>;
  pbcnf_size size;
  Room integers = detail::all(Room(32 * asked.literals_.size() + 256), {asked.words_, asked.literals_, asked.sums_, first, options.numbers()},
                              size, pbcnf_constraints, [](Room &room) { return room.data(); });
  return Encoding(std::move(integers), size);
}

/* The derivation of these clauses, beside the problem of these constraints over the variables below `first`. */
inline std::string derive_constraints(const Constraints &asked, std::uint32_t first, const Options &options = {}) {
  pbcnf_size size;
  return detail::all(std::string(512 * asked.literals_.size() + 4096, '\0'),
                     {asked.words_, asked.literals_, asked.sums_, first, options.numbers()}, size, pbcnf_constraints_derive,
                     [](std::string &room) { return detail::bytes(room); });
}

}  // namespace pbcnf
#endif
