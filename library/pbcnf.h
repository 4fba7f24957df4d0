/* pbcnf as a C library: the proved encoder of pseudo-Boolean constraints in the caller's own process.
 *
 * Every call is a function of what it is passed. There is no state, no handle, no thread, no file and no output, so any number
 * of threads may call at once. Each call returns a status, which is the exit status of the program `pbcnf` in the same case,
 * and fills a `pbcnf_refusal` that says why in numbers.
 *
 * The caller owns all memory. What is made is put into an array of the caller's (the room) from its front on, and how much it
 * is is reported. Where the room is too small the call answers PBCNF_NO_ROOM, reports how much is needed, and leaves the room as it
 * was: make it larger and call again with the same arguments, and there is room. At PBCNF_DONE what stood in the room after
 * what was put stays as it was; at every other status the whole room does. At every status but PBCNF_DONE and PBCNF_NO_ROOM
 * the sizes and lengths are 0.
 *
 * Required of the caller:
 *  - a pointer and its count are those of one array, whole, which no other code writes during the call, nor reads where it is
 *    written. It is aligned for its type. It may be null, or any other, if its count is 0; then nobody looks at it. (That holds
 *    of this header, by the fronts at its end. Who calls the exports by their names from elsewhere passes an address always.)
 *    A pointer to a struct or a number is never null;
 *  - what a call writes (room, size, length, refusal) overlaps nothing else that is passed to it. What it only reads
 *    may overlap;
 *  - malloc, realloc and free are those of one allocator, and no call is made from where they must not be: a signal handler, or
 *    the forked child of a process with several threads. In such a child glibc's malloc works, and so do the calls over it.
 * What the call takes while it works it gives back before it returns. Texts are bytes; none ends in a 0 byte of its own.
 */
#ifndef PBCNF_H
#define PBCNF_H
#include <stddef.h>
#include <stdint.h>
#ifdef __cplusplus
extern "C" {
#endif

#define PBCNF_VERSION "0.4.1"
/* Which structs, numbers and meanings the calls below have. A library of others answers another number by pbcnf_abi. */
#define PBCNF_ABI 1

/* The version of the library that is there: a byte for each of its three numbers, 0x000401 for 0.4.1.
 *
 *      assert(pbcnf_version() >= 0x000400);
 */
uint32_t pbcnf_version(void);

/* PBCNF_ABI of the library that is there. A program that did not come with it asks this before any other call.
 *
 *      assert(pbcnf_abi() == PBCNF_ABI);
 */
uint32_t pbcnf_abi(void);

/* ---- statuses: those of the program. PBCNF_UNREAD is not returned. */
enum {
  PBCNF_DONE = 0,
  PBCNF_REFUSED = 1,      /* a text does not follow its grammar: file, line, column, expected; or, without a line, lacks an objective */
  PBCNF_USAGE = 2,        /* the numbers passed choose nothing; reported before any fault of a text */
  PBCNF_LIMIT = 3,        /* a text, or what is to be made of it, passes a limit: limit, and file, line, column where one is to blame */
  PBCNF_UNREAD = 4,
  PBCNF_NO_ROOM = 5,      /* the room is too small; the size needed is reported */
  PBCNF_NO_MEMORY = 6,    /* malloc or realloc gave none */
  PBCNF_REJECTED = 7,     /* check, refute: a step of the derivation is not allowed: line, denied, number */
  PBCNF_NO_SOLUTION = 8,  /* decode: the values violate a statement: number, counted from 1 */
  PBCNF_NO_MODEL = 9,     /* decode: the solver's text says no model */
  PBCNF_NOT_REFUTED = 10  /* refute: a line of the refutation is not one: line, unproved, number */
};

/* ---- what is chosen. A number out of its range: PBCNF_USAGE. */
typedef struct {
  uint32_t amo;     /* at most one literal: 0 by size, 1 pairwise, 2 ladder, 3 product */
  uint32_t card;    /* at most so many literals: 0 by bound, 1 counter, 2 totalizer */
  uint32_t general; /* weighted sums: 0 diagram, 1 tree, 2 adder */
  uint32_t equal;   /* equalities: 0 split, half by half; 1 joint, as one where a number of the literals is asked for */
  uint32_t table;   /* 1: a table of bounds on the objective follows all constraints, as with `--table`; 0: none */
  uint32_t budget;  /* 1 to 10,000,000: the most fresh variables of one constraint, past which it is sent to adders; and of the table */
} pbcnf_options;
#define PBCNF_OPTIONS_DEFAULT {0, 0, 0, 0, 0, 50000}

/* A bound on the objective: one more statement after the others, that the objective is at most this number. The number is in
 * two's complement of 128 bits, as two words of 64: for a 64-bit b, low = (uint64_t)b, high = b < 0 ? UINT64_MAX : 0. */
typedef struct {
  uint64_t set;  /* 0: no bound, and the words are not looked at; any other: there is one */
  uint64_t low;
  uint64_t high;
} pbcnf_bound;
#define PBCNF_NO_BOUND {0, 0, 0}

/* ---- what is reported */
typedef struct {
  uint32_t vars;     /* all variables: 1 to original are the problem's, then come those of its products, then the fresh ones */
  uint32_t original; /* the variables of the problem that have names */
  uint64_t clauses;  /* how many clauses the encoding has (also of a call that puts a derivation) */
  uint64_t length;   /* what is put or is to be put: bytes of a text, integers (each clause's 0 among them), or rows */
} pbcnf_size;

/* A row of a table of bounds on the objective: where the literal is false, the objective is less than the value. */
typedef struct {
  uint64_t low;      /* the value, in two's complement of 128 bits, as two words of 64: that of pbcnf_bound */
  uint64_t high;
  int32_t literal;   /* a variable's number, negative where negated */
  int32_t unused;    /* 0 */
} pbcnf_row;

/* What stands beside soft literals. */
typedef struct {
  uint64_t offset_low;  /* what their weights are added to, in two's complement of 128 bits, as two words of 64 */
  uint64_t offset_high;
  uint64_t length;      /* the soft literals that are put or are to be put */
} pbcnf_costs;

/* Why a call did not do what was asked, in numbers. What does not apply is 0; at PBCNF_DONE all are. */
typedef struct {
  uint64_t line;     /* from 1: of a place in a text, of a step, or of a line of a refutation */
  uint64_t column;   /* from 1, in bytes: of a place in a text. A limit may have no place: both 0 */
  uint64_t number;   /* the violated statement; the constraint to blame; or the variable or id that goes with denied and unproved */
  uint32_t status;   /* what the call returned */
  uint32_t file;     /* which text: PBCNF_FILE_... */
  uint32_t expected; /* what its grammar allows there: PBCNF_EXPECTED_... */
  uint32_t limit;    /* which limit is passed: PBCNF_LIMIT_... */
  uint32_t denied;   /* why a step of a derivation is not allowed: PBCNF_DENIED_... */
  uint32_t unproved; /* why a line of a refutation is none: PBCNF_UNPROVED_... */
} pbcnf_refusal;

/* The numbers below stay as they are; what is new gets the next one. */

enum {
  PBCNF_FILE_NONE = 0,
  PBCNF_FILE_OPB = 1,
  PBCNF_FILE_CNF = 2,
  PBCNF_FILE_PROOF = 3,
  PBCNF_FILE_MODEL = 4,
  PBCNF_FILE_LRAT = 5
};

enum {
  PBCNF_LIMIT_NONE = 0,
  PBCNF_LIMIT_TEXT = 1,       /* bytes of a text: 2^32 of OPB and model, 2^62 of CNF and derivation */
  PBCNF_LIMIT_STATEMENTS = 2, /* 2^24 */
  PBCNF_LIMIT_TERMS = 3,      /* of one statement or of the objective: 2^20 */
  PBCNF_LIMIT_WEIGHT = 4,     /* the absolute values of one statement's numbers, added up: below 2^100 */
  PBCNF_LIMIT_BOUNDS = 5,     /* fresh variables of a table of bounds: the budget */
  PBCNF_LIMIT_VARIABLES = 6,  /* 2^31 - 1 */
  PBCNF_LIMIT_CLAUSES = 7,    /* 2^36 */
  PBCNF_LIMIT_LINE = 8,       /* bytes of a line: 2^28 */
  PBCNF_LIMIT_LINES = 9,      /* 2^40 */
  PBCNF_LIMIT_NUMBER = 10,    /* the absolute value of a number: below 2^126 */
  PBCNF_LIMIT_NAME = 11       /* bytes of a free name: 255 */
};

enum {
  PBCNF_EXPECTED_NONE = 0,
  PBCNF_EXPECTED_START = 1,             /* OPB: min:, a statement or the end */
  PBCNF_EXPECTED_NEXT = 2,              /* OPB: a statement or the end */
  PBCNF_EXPECTED_TERM_OR_RELATION = 3,  /* OPB: a coefficient or a relation */
  PBCNF_EXPECTED_TERM_OR_SEMICOLON = 4, /* OPB: a coefficient or ; */
  PBCNF_EXPECTED_LITERAL = 5,           /* a literal */
  PBCNF_EXPECTED_INTEGER = 6,           /* an integer */
  PBCNF_EXPECTED_SEMICOLON = 7,         /* ; */
  PBCNF_EXPECTED_P_LINE = 8,            /* CNF: p line */
  PBCNF_EXPECTED_CNF_WORD = 9,          /* CNF: cnf word */
  PBCNF_EXPECTED_VAR_COUNT = 10,        /* CNF: var count */
  PBCNF_EXPECTED_CLAUSE_COUNT = 11,     /* CNF: clause count */
  PBCNF_EXPECTED_LINE_END = 12,         /* line end */
  PBCNF_EXPECTED_CLAUSE_WORD = 13,      /* CNF: clause word */
  PBCNF_EXPECTED_CNF_END = 14,          /* CNF: cnf end */
  PBCNF_EXPECTED_MODEL_LINE = 15,       /* model: model line */
  PBCNF_EXPECTED_MODEL_LITERAL = 16,    /* model: model literal */
  PBCNF_EXPECTED_OPPOSITE = 17,         /* model: opposite */
  PBCNF_EXPECTED_MODEL_ZERO = 18,       /* model: model zero */
  PBCNF_EXPECTED_HEAD = 19,             /* derivation: head */
  PBCNF_EXPECTED_LOADED = 20,           /* derivation: loaded */
  PBCNF_EXPECTED_LOADED_COUNT = 21,     /* derivation: loaded count */
  PBCNF_EXPECTED_STEP_WORD = 22,        /* derivation: step word */
  PBCNF_EXPECTED_OPERAND = 23,          /* derivation: operand */
  PBCNF_EXPECTED_FACTOR = 24,           /* derivation: factor */
  PBCNF_EXPECTED_TERM = 25,             /* derivation: term */
  PBCNF_EXPECTED_ID = 26,               /* derivation: id */
  PBCNF_EXPECTED_SET_VAR = 27,          /* derivation: set var */
  PBCNF_EXPECTED_ARROW = 28,            /* derivation: arrow */
  PBCNF_EXPECTED_BIT = 29,              /* derivation: bit */
  PBCNF_EXPECTED_DERIVATION_END = 30,   /* derivation: derivation end */
  PBCNF_EXPECTED_LRAT_ID = 31,          /* LRAT: lrat id */
  PBCNF_EXPECTED_LRAT_LITERAL = 32,     /* LRAT: lrat literal */
  PBCNF_EXPECTED_LRAT_HINT = 33,        /* LRAT: lrat hint */
  PBCNF_EXPECTED_LRAT_END = 34          /* LRAT: lrat end */
};

/* Why a step of a derivation is not allowed. N is the number that is reported with it. */
enum {
  PBCNF_DENIED_NONE = 0,
  PBCNF_DENIED_UNKNOWN_VAR = 1,    /* unknown variable xN */
  PBCNF_DENIED_UNKNOWN_ID = 2,     /* unknown id N */
  PBCNF_DENIED_STACK = 3,          /* stack */
  PBCNF_DENIED_WIDTH = 4,          /* width */
  PBCNF_DENIED_SETS_ORIGINAL = 5,  /* sets original xN */
  PBCNF_DENIED_NOT_PROPAGATED = 6, /* not propagated */
  PBCNF_DENIED_OBLIGATION = 7,     /* obligation N */
  PBCNF_DENIED_NO_CLAUSE = 8,      /* no clause */
  PBCNF_DENIED_NOT_IMPLIED = 9,    /* not implied by N */
  PBCNF_DENIED_OUT_DELETED = 10,   /* deletes output N */
  PBCNF_DENIED_CLAUSES_LEFT = 11   /* clauses left */
};

/* Why a line of a refutation is none; the last, where the text ended before this line. */
enum {
  PBCNF_UNPROVED_NONE = 0,
  PBCNF_UNPROVED_OLD_ID = 1,         /* old id N */
  PBCNF_UNPROVED_UNKNOWN_HINT = 2,   /* unknown hint N */
  PBCNF_UNPROVED_NO_CONFLICT = 3,    /* no conflict */
  PBCNF_UNPROVED_NO_EMPTY_CLAUSE = 4 /* no empty clause */
};

/* ---- a whole problem, as an OPB text
 *
 * The lines that are set in are examples: one after another, they are the body of a program (with assert.h and string.h). Where it adds
 * up integers, `add` is a function that adds an integer to the int64_t at an address; a solver's is called in its place.
 *
 *      const uint8_t opb[] = "min: +3 x1 +2 x2 ;\n+1 x1 +1 x2 >= 1 ;\n";
 *      const size_t opb_len = sizeof opb - 1;
 *      const pbcnf_options options = PBCNF_OPTIONS_DEFAULT;
 *      const pbcnf_bound bound = PBCNF_NO_BOUND;
 *      pbcnf_refusal refusal;
 *      pbcnf_size size;
 *      uint64_t length;
 */

/* The CNF text of a problem, the bytes that `pbcnf encode` writes. Statuses 0, 1, 2, 3, 5, 6.
 *
 *      uint8_t cnf[100];
 *      assert(pbcnf_encode(opb, opb_len, &options, &bound, cnf, sizeof cnf, &size, &refusal) == PBCNF_DONE);
 *      assert(size.vars == 2 && size.length == 16 && memcmp(cnf, "p cnf 2 1\n1 2 0\n", 16) == 0);
 */
uint8_t pbcnf_encode(const uint8_t *opb, size_t opb_len, const pbcnf_options *options, const pbcnf_bound *bound,
                     uint8_t *cnf, size_t room, pbcnf_size *size, pbcnf_refusal *refusal);

/* The same clauses as integers, as IPASIR takes them: the literals of each (a variable's number, negative where negated) and 0.
 * room and size->length count integers. Statuses 0, 1, 2, 3, 5, 6.
 *
 *      int32_t integers[100];
 *      assert(pbcnf_clauses(opb, opb_len, &options, &bound, NULL, 0, &size, &refusal) == PBCNF_NO_ROOM && size.length == 3);
 *      assert(pbcnf_clauses(opb, opb_len, &options, &bound, integers, 100, &size, &refusal) == PBCNF_DONE);
 *      assert(integers[0] == 1 && integers[1] == 2 && integers[2] == 0);
 */
uint8_t pbcnf_clauses(const uint8_t *opb, size_t opb_len, const pbcnf_options *options, const pbcnf_bound *bound,
                      int32_t *integers, size_t room, pbcnf_size *size, pbcnf_refusal *refusal);

/* The derivation of these clauses, the bytes that `pbcnf encode` writes into its third file. Statuses 0, 1, 2, 3, 5, 6.
 *
 *      uint8_t proof[1000];
 *      assert(pbcnf_derive(opb, opb_len, &options, &bound, proof, sizeof proof, &size, &refusal) == PBCNF_DONE);
 *      const uint64_t proof_len = size.length;
 */
uint8_t pbcnf_derive(const uint8_t *opb, size_t opb_len, const pbcnf_options *options, const pbcnf_bound *bound,
                     uint8_t *proof, size_t room, pbcnf_size *size, pbcnf_refusal *refusal);

/* The rows of the table of bounds that follows these clauses if options->table is 1, one for each line `bound W L` of
 * `pbcnf encode --table`, the values ascending. Assume a row's literal false, and the models are just the solutions whose objective
 * is less than its value. Without a table, or an objective that has costs, there are none. room and size->length count rows.
 * Statuses 0, 1, 2, 3, 5, 6.
 *
 *      pbcnf_options tabled = options;
 *      pbcnf_row rows[10];
 *      tabled.table = 1;
 *      assert(pbcnf_bounds(opb, opb_len, &tabled, &bound, rows, 10, &size, &refusal) == PBCNF_DONE);
 *      assert(size.length == 3 && rows[0].low == 2 && rows[1].low == 3 && rows[2].low == 5);
 */
uint8_t pbcnf_bounds(const uint8_t *opb, size_t opb_len, const pbcnf_options *options, const pbcnf_bound *bound,
                     pbcnf_row *rows, size_t room, pbcnf_size *size, pbcnf_refusal *refusal);

/* The weighted CNF text of a problem and its objective, the bytes that `pbcnf wcnf` writes. The size counts hard clauses.
 * Statuses 0, 1, 2, 3, 5, 6.
 *
 *      uint8_t wcnf[100];
 *      assert(pbcnf_wcnf(opb, opb_len, &options, &bound, wcnf, sizeof wcnf, &size, &refusal) == PBCNF_DONE);
 *      assert(size.length == 33 && memcmp(wcnf, "c offset 0\nh 1 2 0\n3 -1 0\n2 -2 0\n", 33) == 0);
 */
uint8_t pbcnf_wcnf(const uint8_t *opb, size_t opb_len, const pbcnf_options *options, const pbcnf_bound *bound,
                   uint8_t *wcnf, size_t room, pbcnf_size *size, pbcnf_refusal *refusal);

/* What the objective costs, for a MaxSAT solver beside the clauses of pbcnf_clauses: each row's literal costs its value where it is false,
 * and in each model the objective is the offset and the values of the rows whose literals are false. The values are above 0, and the rows
 * those of the soft lines of `pbcnf wcnf`; of a problem without an objective there are none, and the offset is 0.
 * Statuses 0, 1, 3, 5, 6.
 *
 *      pbcnf_costs costs;
 *      assert(pbcnf_softs(opb, opb_len, &bound, rows, 10, &costs, &refusal) == PBCNF_DONE);
 *      assert(costs.length == 2 && rows[0].literal == -1 && rows[0].low == 3 && rows[1].literal == -2 && rows[1].low == 2);
 */
uint8_t pbcnf_softs(const uint8_t *opb, size_t opb_len, const pbcnf_bound *bound, pbcnf_row *softs, size_t room, pbcnf_costs *costs,
                    pbcnf_refusal *refusal);

/* What `pbcnf decode` says of a solver's text (its `s` and `v` lines): the values of all variables by their names, once they
 * are tested against each statement, and the bound. *length: its bytes. Statuses 0, 1, 3, 5, 6, 8, 9.
 *
 *      const uint8_t model[] = "s SATISFIABLE\nv -1 2 0\n";
 *      uint8_t said[100];
 *      assert(pbcnf_decode(opb, opb_len, &bound, model, sizeof model - 1, said, sizeof said, &length, &refusal) == PBCNF_DONE);
 *      assert(length == 27 && memcmp(said, "o 2\ns SATISFIABLE\nv -x1 x2\n", 27) == 0);
 */
uint8_t pbcnf_decode(const uint8_t *opb, size_t opb_len, const pbcnf_bound *bound, const uint8_t *model, size_t model_len,
                     uint8_t *said, size_t room, uint64_t *length, pbcnf_refusal *refusal);

/* What `pbcnf map` says: which variables have free names, and which. *length: its bytes. Statuses 0, 1, 3, 5, 6.
 *
 *      const uint8_t named[] = "+1 rain +1 sun >= 1 ;";
 *      assert(pbcnf_map(named, sizeof named - 1, said, sizeof said, &length, &refusal) == PBCNF_DONE);
 *      assert(length == 13 && memcmp(said, "1 rain\n2 sun\n", 13) == 0);
 */
uint8_t pbcnf_map(const uint8_t *opb, size_t opb_len, uint8_t *said, size_t room, uint64_t *length, pbcnf_refusal *refusal);

/* ---- what `pbcnf check` and `pbcnf refute` judge. The texts are copied for the call. */

/* PBCNF_DONE: the derivation shows that each solution of the problem, under the bound, is the front of a model of the CNF.
 * Statuses 0, 1, 3, 6, 7.
 *
 *      assert(pbcnf_check(opb, opb_len, &bound, cnf, 16, proof, proof_len, &refusal) == PBCNF_DONE);
 *      assert(pbcnf_check(opb, opb_len, &bound, cnf, 16, opb, opb_len, &refusal) == PBCNF_REFUSED);
 *      assert(refusal.file == PBCNF_FILE_PROOF && refusal.line == 1 && refusal.column == 1);
 */
uint8_t pbcnf_check(const uint8_t *opb, size_t opb_len, const pbcnf_bound *bound, const uint8_t *cnf, size_t cnf_len,
                    const uint8_t *proof, size_t proof_len, pbcnf_refusal *refusal);

/* PBCNF_DONE: so it does, and the refutation, in the LRAT format, is one of the CNF: the problem has no solution under the bound.
 * Statuses 0, 1, 3, 6, 7, 10.
 *
 *      const uint8_t no[] = "+1 x1 >= 1 ;\n+1 ~x1 >= 1 ;\n", no_cnf[] = "p cnf 1 2\n1 0\n-1 0\n", lrat[] = "3 0 1 2 0\n";
 *      const uint8_t no_proof[] = "pseudo-Boolean derivation profile 1\nf 2\nout 1\nout 2\nend\n";
 *      assert(pbcnf_refute(no, sizeof no - 1, &bound, no_cnf, sizeof no_cnf - 1, no_proof, sizeof no_proof - 1, lrat, sizeof lrat - 1,
 *                          &refusal) == PBCNF_DONE);
 */
uint8_t pbcnf_refute(const uint8_t *opb, size_t opb_len, const pbcnf_bound *bound, const uint8_t *cnf, size_t cnf_len,
                     const uint8_t *proof, size_t proof_len, const uint8_t *lrat, size_t lrat_len, pbcnf_refusal *refusal);

/* ---- one constraint at a time: nothing is kept between calls but the number that the caller keeps */

enum { PBCNF_AT_LEAST = 0, PBCNF_AT_MOST = 1, PBCNF_EQUAL = 2 };

/* The relation and the right side of a sum. */
typedef struct {
  uint32_t relation;   /* PBCNF_AT_LEAST, PBCNF_AT_MOST, PBCNF_EQUAL */
  uint32_t first;      /* 1 to 2^31: the first fresh variable. All variables of the sum are below it */
  uint64_t right_low;  /* the right side, in two's complement of 128 bits, as two words of 64 */
  uint64_t right_high;
} pbcnf_side;

/* The clauses of one constraint as integers, as pbcnf_clauses puts them.
 * literals: a variable's number, negative where negated; a variable may occur more than once.
 * coefficients: one for each literal, in two's complement: either `count` words of 64 bits each (an int64_t array, cast), or
 * twice as many, of 128 bits each, the low word first (an array of __int128 on a little-endian machine, cast).
 * size->original is first - 1, size->vars is the last variable that is taken: vars - original fresh ones, which are the numbers
 * from first to vars. The next constraint's first is vars + 1.
 * PBCNF_USAGE: a bad option, relation or first, another count of coefficients, a literal of 0 or whose variable is first or above.
 * PBCNF_LIMIT: _TERMS, _WEIGHT (with the right side), _VARIABLES, _CLAUSES. Statuses 0, 2, 3, 5, 6.
 *
 *      const uint64_t ones[] = {1, 1, 1, 1};
 *      const int32_t literals[] = {1, 2, 3, -1};
 *      pbcnf_side side = pbcnf_side_of(PBCNF_AT_MOST, 1, 4);
 *      assert(pbcnf_constraint(ones, 3, literals, 3, &side, &options, integers, 100, &size, &refusal) == PBCNF_DONE);
 *      assert(size.vars == 3 && size.length == 9 && integers[0] == -1 && integers[1] == -2 && integers[2] == 0);
 */
uint8_t pbcnf_constraint(const uint64_t *coefficients, size_t coefficient_words, const int32_t *literals, size_t count,
                         const pbcnf_side *side, const pbcnf_options *options, int32_t *integers, size_t room,
                         pbcnf_size *size, pbcnf_refusal *refusal);

/* The derivation of these clauses, as a text for the problem of this one constraint. size->length: its bytes.
 *
 *      assert(pbcnf_constraint_derive(ones, 3, literals, 3, &side, &options, proof, sizeof proof, &size, &refusal) == PBCNF_DONE);
 *      assert(size.clauses == 3 && size.length < sizeof proof && memcmp(proof + size.length - 4, "end\n", 4) == 0);
 */
uint8_t pbcnf_constraint_derive(const uint64_t *coefficients, size_t coefficient_words, const int32_t *literals, size_t count,
                                const pbcnf_side *side, const pbcnf_options *options, uint8_t *proof, size_t room,
                                pbcnf_size *size, pbcnf_refusal *refusal);

/* ---- many constraints in one call: their terms in columns, those of each constraint after those of the one before */

/* The relation and the right side of a sum, whose terms are the next ones. */
typedef struct {
  uint32_t relation;   /* PBCNF_AT_LEAST, PBCNF_AT_MOST, PBCNF_EQUAL */
  int32_t condition;   /* 0; or a literal, and the constraint has to hold only if that is true. Its variable is below first */
  uint64_t terms;      /* how many terms it has */
  uint64_t right_low;  /* the right side, in two's complement of 128 bits, as two words of 64 */
  uint64_t right_high;
} pbcnf_sum;

/* The clauses of `constraints` constraints as integers, one constraint's after another's, and their fresh variables likewise from
 * first on: what pbcnf_constraint puts, constraint after constraint, each with the first variable that is still free. coefficients,
 * literals and first are as there, `count` are all literals, and the sums report how many are each one's.
 * A condition is one more term, its negation, whose coefficient is what the sum may lack: sum + M ~condition >= right, where M is the
 * right side less the least value of the sum, or 0; so it is of the upper half, and an equality is put as its two halves. So unit
 * propagation reaches from the condition all that each half forces, and the condition's negation where that half cannot hold, but for
 * what goes to the adder. Under a condition a constraint has 2^20 - 1 terms at most, and its numbers add up to less than 2^99.
 * At PBCNF_USAGE and PBCNF_LIMIT refusal->number is the constraint to blame, from 1, and 0 where no single one is: a bad option or
 * first, counts that do not fit, more than 2^24 constraints (an equality under a condition is two), more variables or clauses than
 * may be. Statuses 0, 2, 3, 5, 6.
 *
 *      const pbcnf_sum sums[] = {pbcnf_sum_of(PBCNF_AT_LEAST, 1, 2), pbcnf_sum_of(PBCNF_AT_MOST, 1, 2)};
 *      assert(pbcnf_constraints(ones, 4, literals, 4, sums, 2, 4, &options, integers, 100, &size, &refusal) == PBCNF_DONE);
 *      assert(size.length == 6 && integers[0] == 1 && integers[1] == 2 && integers[3] == 1 && integers[4] == -3);
 */
uint8_t pbcnf_constraints(const uint64_t *coefficients, size_t coefficient_words, const int32_t *literals, size_t count,
                          const pbcnf_sum *sums, size_t constraints, uint32_t first, const pbcnf_options *options,
                          int32_t *integers, size_t room, pbcnf_size *size, pbcnf_refusal *refusal);

/* The derivation of these clauses, as a text for the problem of these constraints alone. size->length: its bytes.
 *
 *      assert(pbcnf_constraints_derive(ones, 4, literals, 4, sums, 2, 4, &options, proof, 1000, &size, &refusal) == PBCNF_DONE);
 *      assert(size.clauses == 2 && size.length < sizeof proof);
 */
uint8_t pbcnf_constraints_derive(const uint64_t *coefficients, size_t coefficient_words, const int32_t *literals, size_t count,
                                 const pbcnf_sum *sums, size_t constraints, uint32_t first, const pbcnf_options *options,
                                 uint8_t *proof, size_t room, pbcnf_size *size, pbcnf_refusal *refusal);

/* ---- the words of a refusal, as the program prints them on standard error ("pbcnf: OPB 3:7: expected a literal"), without the
 * line's end; none at PBCNF_DONE. A call has words of its own for PBCNF_USAGE, for PBCNF_NO_ROOM, and where a constraint is to blame
 * ("pbcnf: constraint 3: limit terms"). *length: its bytes (160 are enough). Numbers that no call fills in: PBCNF_USAGE, and
 * *length is 0. Statuses 0, 2, 5, 6.
 *
 *      side.first = 3;
 *      assert(pbcnf_constraint(ones, 3, literals, 3, &side, &options, integers, 100, &size, &refusal) == PBCNF_USAGE);
 *      assert(pbcnf_encode((const uint8_t *)"+1 x1 >= ;", 10, &options, &bound, cnf, sizeof cnf, &size, &refusal) == PBCNF_REFUSED);
 *      assert(pbcnf_words(&refusal, said, sizeof said, &length) == PBCNF_DONE);
 *      assert(length == 36 && memcmp(said, "pbcnf: OPB 1:10: expected an integer", 36) == 0);
 */
uint8_t pbcnf_words(const pbcnf_refusal *refusal, uint8_t *said, size_t room, uint64_t *length);

/* In C alone, over what pbcnf_clauses or pbcnf_constraint put: passes each integer to a solver's add (IPASIR's ipasir_add).
 *
 *      int64_t sum = 0;
 *      pbcnf_add_all(integers, 6, &sum, add);
 *      assert(sum == 1 + 2 + 0 + 1 - 3 + 0);
 */
static inline void pbcnf_add_all(const int32_t *integers, uint64_t length, void *solver, void (*add)(void *, int32_t)) {
  for (uint64_t i = 0; i < length; i++) add(solver, integers[i]);
}

/* In C alone, of numbers of 64 bits: a bound, and relation and right side of a sum, of one constraint and of one of many.
 *
 *      const pbcnf_bound most = pbcnf_bound_of(1);
 *      assert(pbcnf_decode(opb, opb_len, &most, model, sizeof model - 1, said, 100, &length, &refusal) == PBCNF_NO_SOLUTION);
 *      assert(refusal.number == 2 && length == 0);
 */
static inline pbcnf_bound pbcnf_bound_of(int64_t most) {
  const pbcnf_bound bound = {1, (uint64_t)most, most < 0 ? UINT64_MAX : 0};
  return bound;
}
static inline pbcnf_side pbcnf_side_of(uint32_t relation, int64_t right, uint32_t first) {
  const pbcnf_side side = {relation, first, (uint64_t)right, right < 0 ? UINT64_MAX : 0};
  return side;
}
static inline pbcnf_sum pbcnf_sum_of(uint32_t relation, int64_t right, uint64_t terms) {
  const pbcnf_sum sum = {relation, 0, terms, (uint64_t)right, right < 0 ? UINT64_MAX : 0};
  return sum;
}

/* ---- fronts. An empty vector has no address, and a slice of the library always has one: so each call is made by a function
 * of its name in front of it, which passes an address in the place of a pointer whose count is 0. They also say to the
 * compiler what is required of the caller. With PBCNF_EXPORTS defined before this header is included there are none, and the calls
 * are the exports alone. */
#ifndef PBCNF_EXPORTS

/* That the status is to be looked at; at which places, from 1, no pointer is null; and that what is written overlaps nothing else. */
#ifdef __GNUC__
#define PBCNF_NODISCARD __attribute__((warn_unused_result))
#define PBCNF_NONNULL(...) __attribute__((nonnull(__VA_ARGS__)))
#define PBCNF_RESTRICT __restrict
#else
#define PBCNF_NODISCARD
#define PBCNF_NONNULL(...)
#define PBCNF_RESTRICT
#endif

#define PBCNF_FRONT(name, array, item) \
  static inline array *name(array *pointer, size_t count) { \
    static item nothing; \
    return count ? pointer : &nothing; \
  }
PBCNF_FRONT(pbcnf_text_front, const uint8_t, uint8_t)
PBCNF_FRONT(pbcnf_bytes_front, uint8_t, uint8_t)
PBCNF_FRONT(pbcnf_integers_front, int32_t, int32_t)
PBCNF_FRONT(pbcnf_literals_front, const int32_t, int32_t)
PBCNF_FRONT(pbcnf_coefficients_front, const uint64_t, uint64_t)
PBCNF_FRONT(pbcnf_rows_front, pbcnf_row, pbcnf_row)
PBCNF_FRONT(pbcnf_sums_front, const pbcnf_sum, pbcnf_sum)
#undef PBCNF_FRONT

/* A call over a problem. */
#define PBCNF_FRONT(name, item, front) \
  PBCNF_NODISCARD PBCNF_NONNULL(3, 4, 7, 8) \
  static inline uint8_t name##_front(const uint8_t *opb, size_t opb_len, const pbcnf_options *options, \
                                     const pbcnf_bound *bound, item *PBCNF_RESTRICT put, size_t room, \
                                     pbcnf_size *PBCNF_RESTRICT size, pbcnf_refusal *PBCNF_RESTRICT refusal) { \
    return name(pbcnf_text_front(opb, opb_len), opb_len, options, bound, front(put, room), room, size, refusal); \
  }
PBCNF_FRONT(pbcnf_encode, uint8_t, pbcnf_bytes_front)
PBCNF_FRONT(pbcnf_clauses, int32_t, pbcnf_integers_front)
PBCNF_FRONT(pbcnf_derive, uint8_t, pbcnf_bytes_front)
PBCNF_FRONT(pbcnf_bounds, pbcnf_row, pbcnf_rows_front)
PBCNF_FRONT(pbcnf_wcnf, uint8_t, pbcnf_bytes_front)
#undef PBCNF_FRONT

/* A call over one constraint. */
#define PBCNF_FRONT(name, item, front) \
  PBCNF_NODISCARD PBCNF_NONNULL(5, 6, 9, 10) \
  static inline uint8_t name##_front(const uint64_t *coefficients, size_t words, const int32_t *literals, size_t count, \
                                     const pbcnf_side *side, const pbcnf_options *options, item *PBCNF_RESTRICT put, \
                                     size_t room, pbcnf_size *PBCNF_RESTRICT size, pbcnf_refusal *PBCNF_RESTRICT refusal) { \
    return name(pbcnf_coefficients_front(coefficients, words), words, pbcnf_literals_front(literals, count), count, side, options, \
                front(put, room), room, size, refusal); \
  }
PBCNF_FRONT(pbcnf_constraint, int32_t, pbcnf_integers_front)
PBCNF_FRONT(pbcnf_constraint_derive, uint8_t, pbcnf_bytes_front)
#undef PBCNF_FRONT

/* A call over many. */
#define PBCNF_FRONT(name, item, front) \
  PBCNF_NODISCARD PBCNF_NONNULL(8, 11, 12) \
  static inline uint8_t name##_front(const uint64_t *coefficients, size_t words, const int32_t *literals, size_t count, \
                                     const pbcnf_sum *sums, size_t constraints, uint32_t first, const pbcnf_options *options, \
                                     item *PBCNF_RESTRICT put, size_t room, pbcnf_size *PBCNF_RESTRICT size, \
                                     pbcnf_refusal *PBCNF_RESTRICT refusal) { \
    return name(pbcnf_coefficients_front(coefficients, words), words, pbcnf_literals_front(literals, count), count, \
                pbcnf_sums_front(sums, constraints), constraints, first, options, front(put, room), room, size, refusal); \
  }
PBCNF_FRONT(pbcnf_constraints, int32_t, pbcnf_integers_front)
PBCNF_FRONT(pbcnf_constraints_derive, uint8_t, pbcnf_bytes_front)
#undef PBCNF_FRONT

PBCNF_NODISCARD PBCNF_NONNULL(3, 8, 9)
static inline uint8_t pbcnf_decode_front(const uint8_t *opb, size_t opb_len, const pbcnf_bound *bound, const uint8_t *model,
                                         size_t model_len, uint8_t *PBCNF_RESTRICT said, size_t room,
                                         uint64_t *PBCNF_RESTRICT length, pbcnf_refusal *PBCNF_RESTRICT refusal) {
  return pbcnf_decode(pbcnf_text_front(opb, opb_len), opb_len, bound, pbcnf_text_front(model, model_len), model_len,
                      pbcnf_bytes_front(said, room), room, length, refusal);
}
PBCNF_NODISCARD PBCNF_NONNULL(3, 6, 7)
static inline uint8_t pbcnf_softs_front(const uint8_t *opb, size_t opb_len, const pbcnf_bound *bound, pbcnf_row *PBCNF_RESTRICT softs,
                                        size_t room, pbcnf_costs *PBCNF_RESTRICT costs, pbcnf_refusal *PBCNF_RESTRICT refusal) {
  return pbcnf_softs(pbcnf_text_front(opb, opb_len), opb_len, bound, pbcnf_rows_front(softs, room), room, costs, refusal);
}
PBCNF_NODISCARD PBCNF_NONNULL(5, 6)
static inline uint8_t pbcnf_map_front(const uint8_t *opb, size_t opb_len, uint8_t *PBCNF_RESTRICT said, size_t room,
                                      uint64_t *PBCNF_RESTRICT length, pbcnf_refusal *PBCNF_RESTRICT refusal) {
  return pbcnf_map(pbcnf_text_front(opb, opb_len), opb_len, pbcnf_bytes_front(said, room), room, length, refusal);
}
PBCNF_NODISCARD PBCNF_NONNULL(3, 8)
static inline uint8_t pbcnf_check_front(const uint8_t *opb, size_t opb_len, const pbcnf_bound *bound, const uint8_t *cnf,
                                        size_t cnf_len, const uint8_t *proof, size_t proof_len,
                                        pbcnf_refusal *PBCNF_RESTRICT refusal) {
  return pbcnf_check(pbcnf_text_front(opb, opb_len), opb_len, bound, pbcnf_text_front(cnf, cnf_len), cnf_len,
                     pbcnf_text_front(proof, proof_len), proof_len, refusal);
}
PBCNF_NODISCARD PBCNF_NONNULL(3, 10)
static inline uint8_t pbcnf_refute_front(const uint8_t *opb, size_t opb_len, const pbcnf_bound *bound, const uint8_t *cnf,
                                         size_t cnf_len, const uint8_t *proof, size_t proof_len, const uint8_t *lrat,
                                         size_t lrat_len, pbcnf_refusal *PBCNF_RESTRICT refusal) {
  return pbcnf_refute(pbcnf_text_front(opb, opb_len), opb_len, bound, pbcnf_text_front(cnf, cnf_len), cnf_len,
                      pbcnf_text_front(proof, proof_len), proof_len, pbcnf_text_front(lrat, lrat_len), lrat_len, refusal);
}
PBCNF_NONNULL(1, 4)
static inline uint8_t pbcnf_words_front(const pbcnf_refusal *refusal, uint8_t *PBCNF_RESTRICT said, size_t room,
                                        uint64_t *PBCNF_RESTRICT length) {
  return pbcnf_words(refusal, pbcnf_bytes_front(said, room), room, length);
}

#undef PBCNF_NODISCARD
#undef PBCNF_NONNULL
#undef PBCNF_RESTRICT

#define pbcnf_encode pbcnf_encode_front
#define pbcnf_clauses pbcnf_clauses_front
#define pbcnf_derive pbcnf_derive_front
#define pbcnf_bounds pbcnf_bounds_front
#define pbcnf_wcnf pbcnf_wcnf_front
#define pbcnf_decode pbcnf_decode_front
#define pbcnf_softs pbcnf_softs_front
#define pbcnf_map pbcnf_map_front
#define pbcnf_check pbcnf_check_front
#define pbcnf_refute pbcnf_refute_front
#define pbcnf_constraint pbcnf_constraint_front
#define pbcnf_constraint_derive pbcnf_constraint_derive_front
#define pbcnf_constraints pbcnf_constraints_front
#define pbcnf_constraints_derive pbcnf_constraints_derive_front
#define pbcnf_words pbcnf_words_front
#endif
#ifdef __cplusplus
}
#endif
#endif
