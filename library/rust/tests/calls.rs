//! Each call once.
use pbcnf::{
    lit, Constraint, Constraints, Denied, Encoder, Encoding, Equal, Expected, File, General, Kind,
    Limit, Lit, Mistake, Options, Place, Relation, Unproved,
};

const OPB: &[u8] = b"min: +3 rain -2 sun ;\n+2 rain +1 sun +1 x1 x2 >= 2 ;\n+1 rain +1 x1 = 1 ;\n";

#[test]
fn encoding() {
    let options = Options::new().general(General::Tree).equal(Equal::Joint);
    let encoding = &pbcnf::encode(OPB, None, &options).unwrap();
    let text = pbcnf::dimacs(OPB, None, &options).unwrap();
    let words: Vec<i32> = text
        .split_once('\n')
        .unwrap()
        .1
        .split_ascii_whitespace()
        .map(|word| word.parse().unwrap())
        .collect();
    assert_eq!(words, encoding.integers());
    let clauses: Vec<&[Lit]> = encoding.into_iter().collect();
    assert_eq!(encoding.clauses().len(), clauses.len());
    let head = format!("p cnf {} {}\n", encoding.variables(), clauses.len());
    assert!(text.starts_with(&head));
    let integers = clauses
        .iter()
        .flat_map(|clause| clause.iter().map(|l| l.get()).chain([0]));
    assert_eq!(integers.collect::<Vec<i32>>(), words);
    assert_eq!(encoding.original(), 4);
    assert_eq!(encoding.clone().into_integers(), words);
    let proof = pbcnf::derive(OPB, None, &options).unwrap();
    assert!(proof.ends_with("end\n"));
}

#[test]
fn models() {
    let names = [(3, "rain".to_owned()), (4, "sun".to_owned())];
    assert_eq!(pbcnf::names(OPB).unwrap(), names);
    let solution = pbcnf::decode_literals(OPB, None, [-1, -2, 3, 4].map(lit)).unwrap();
    assert_eq!(solution.text(), "o 1\ns SATISFIABLE\nv -x1 -x2 rain sun\n");
    let values = [("x1", false), ("x2", false), ("rain", true), ("sun", true)];
    assert_eq!(
        solution.values(),
        values.map(|(name, value)| (name.to_owned(), value))
    );
    assert_eq!(solution.objective(), Some(1));
    let none = pbcnf::decode(b"", None, b"s SATISFIABLE\n").unwrap();
    assert_eq!((none.objective(), none.values()), (None, &[][..]));
    let violated = pbcnf::decode_literals(OPB, Some(0), [3, 4].map(lit)).unwrap_err();
    assert_eq!(violated.kind(), Kind::NotASolution { statement: 3 });
    let none = pbcnf::decode(OPB, None, b"s UNSATISFIABLE\n").unwrap_err();
    assert_eq!((none.kind(), none.status()), (Kind::NoModel, 9));
}

#[test]
fn judgements() {
    let unsolved = b"+1 x1 >= 1 ;\n+1 ~x1 >= 1 ;\n";
    let cnf = pbcnf::dimacs(unsolved, None, &Options::new()).unwrap();
    let proof = pbcnf::derive(unsolved, None, &Options::new()).unwrap();
    pbcnf::check(unsolved, None, cnf.as_bytes(), proof.as_bytes()).unwrap();
    let twice = b"p cnf 1 2\n1 0\n1 0\n";
    let rejected = pbcnf::check(unsolved, None, twice, proof.as_bytes()).unwrap_err();
    assert_eq!(
        (rejected.kind(), rejected.to_string().as_str()),
        (
            Kind::Rejected {
                line: 6,
                why: Denied::NotImplied,
                number: 4
            },
            "pbcnf: PROOF line 6: not implied by 4"
        )
    );
    let refuted =
        |lrat: &[u8]| pbcnf::refute(unsolved, None, cnf.as_bytes(), proof.as_bytes(), lrat);
    refuted(b"3 0 1 2 0\n").unwrap();
    let why = Unproved::NoEmptyClause;
    assert_eq!(
        refuted(b"").unwrap_err().kind(),
        Kind::NotRefuted {
            line: 1,
            why,
            number: 0
        }
    );
}

#[test]
fn weights() {
    let text = b"min: +3 x1 -2 x2 ;\n+1 x1 +1 x2 >= 1 ;\n";
    let said = pbcnf::wcnf(text, None, &Options::new()).unwrap();
    assert_eq!(said, "c offset -2\nh 1 2 0\n3 -1 0\n2 2 0\n");
}

#[test]
fn bounds() {
    let text = b"min: +3 x1 -2 x2 ;\n";
    let rows = pbcnf::bounds(text, None, &Options::new()).unwrap();
    assert_eq!(rows, [(0, lit(3)), (1, lit(4)), (3, lit(5))]);
    let options = Options::new().table(true);
    assert_eq!(pbcnf::encode(text, None, &options).unwrap().variables(), 5);
}

#[test]
fn refusals() {
    let refused = pbcnf::encode(b"+1 x1 >= ;", None, &Options::new()).unwrap_err();
    let place = Place {
        line: 1,
        column: 10,
    };
    assert_eq!(
        refused.kind(),
        Kind::Refused {
            file: File::Opb,
            place,
            expected: Expected::Integer
        }
    );
    assert_eq!(refused.to_string(), "pbcnf: OPB 1:10: expected an integer");
    let over = pbcnf::encode(b"+1 x2147483648 >= 1 ;", None, &Options::new()).unwrap_err();
    assert_eq!(
        over.kind(),
        Kind::Limit {
            limit: Limit::Variables,
            file: Some(File::Opb),
            place: Some(Place { line: 1, column: 4 })
        }
    );
}

#[test]
fn usage() {
    let mistaken = |budget, literal, first| {
        let terms = [(1, lit(1)), (1, lit(literal))];
        let one = Constraint {
            terms: &terms,
            relation: Relation::AtLeast,
            right: 1,
        };
        let error = pbcnf::constraint(one, first, &Options::new().budget(budget)).unwrap_err();
        assert_eq!(error.status(), 2);
        (error.kind(), error.to_string())
    };
    let due = |mistake, words: &str| (Kind::Usage(mistake), format!("pbcnf: usage: {words}"));
    assert_eq!(
        mistaken(0, 9, 9),
        due(
            Mistake::Budget(0),
            "the budget is 0, and not from 1 to 10000000"
        )
    );
    assert_eq!(
        mistaken(9, 9, 0),
        due(
            Mistake::First(0),
            "the first fresh variable is 0, and not from 1 to 2147483648"
        )
    );
    let (term, literal, first) = (1, lit(-9), 9);
    assert_eq!(
        mistaken(9, -9, 9),
        due(
            Mistake::Literal {
                term,
                literal,
                first
            },
            "the literal of term 2 is -9, and not of a variable from 1 to 8"
        )
    );
    let none = pbcnf::encode(b"", None, &Options::new().budget(10_000_001)).unwrap_err();
    assert_eq!(none.kind(), Kind::Usage(Mistake::Budget(10_000_001)));
}

#[test]
fn literals() {
    assert_eq!([lit(3), !lit(3)].map(i32::from), [3, -3]);
    assert_eq!(
        (lit(-3).var(), lit(-3).is_negated(), lit(3).is_negated()),
        (3, true, false)
    );
    assert_eq!((Lit::new(0), Lit::new(i32::MIN)), (None, None));
    assert_eq!(
        Lit::try_from(0).unwrap_err().to_string(),
        "no literal has the number 0"
    );
    assert_eq!(Lit::try_from(-i32::MAX).unwrap().get(), -i32::MAX);
    assert_eq!(format!("{:?} {}", [lit(1), lit(-2)], lit(-2)), "[1, -2] -2");
}

#[test]
fn one_constraint_after_another() {
    let (mut encoder, mut first) = (Encoder::new(Options::new()), 31);
    let terms: Vec<(i128, Lit)> = (1..31)
        .map(|var| (var % 9 + 1).into())
        .zip((1..31).map(lit))
        .collect();
    for right in [1, 30, 7, 60, 200, 2] {
        let one = Constraint {
            terms: &terms,
            relation: Relation::AtMost,
            right,
        };
        let alone = pbcnf::constraint(one, first, &Options::new()).unwrap();
        let made = encoder.constraint(one, first).unwrap();
        assert_eq!(Encoding::from(made), alone);
        assert!(made.clauses().eq(&alone));
        first = made.next_free();
        assert!(encoder.constraint(one, 30).is_err());
    }
}

#[test]
fn one_constraint() {
    let terms = [(1, lit(1)), (1, lit(-2)), (1, lit(3))];
    let one = Constraint {
        terms: &terms,
        relation: Relation::AtMost,
        right: 1,
    };
    let encoding = pbcnf::constraint(one, 10, &Options::new()).unwrap();
    assert_eq!(encoding.integers(), [-1, 2, 0, -1, -3, 0, 2, -3, 0]);
    assert_eq!((encoding.original(), encoding.next_free()), (9, 10));
    let proof = pbcnf::derive_constraint(one, 10, &Options::new()).unwrap();
    assert!(proof.contains("\nend"));
    let high = Constraint {
        terms: &terms,
        relation: Relation::Equal,
        right: 1 << 99,
    };
    let encoding = pbcnf::constraint(high, 4, &Options::new()).unwrap();
    assert_eq!(encoding.clauses().next(), Some(&[][..]));
}

#[test]
fn many_constraints() {
    let options = Options::new();
    let first_terms = [(1, lit(1)), (1, !lit(2)), (1, lit(3))];
    let second_terms = [(2, lit(4)), (3, lit(5)), (-4, !lit(6))];
    let first = Constraint {
        terms: &first_terms,
        relation: Relation::AtMost,
        right: 1,
    };
    let second = Constraint {
        terms: &second_terms,
        relation: Relation::Equal,
        right: 1,
    };
    let mut both = Constraints::new();
    assert!(both.is_empty() && both.encode(9, &options).unwrap().integers().is_empty());
    both.extend([first, second]);
    assert_eq!(both.len(), 2);
    let made = both.encode(9, &options).unwrap();
    let one = pbcnf::constraint(first, 9, &options).unwrap();
    let other = pbcnf::constraint(second, one.next_free(), &options).unwrap();
    assert_eq!(made.integers(), [one.integers(), other.integers()].concat());
    assert_eq!((made.original(), made.next_free()), (8, other.next_free()));
    let mut encoder = Encoder::new(options);
    let collected: Constraints = [first, second].into_iter().collect();
    let lent = encoder.constraints(&collected, 9).unwrap();
    assert_eq!(lent.integers(), made.integers());
    let text =
        b"* #variable= 8 #constraint= 2\n+1 x1 +1 ~x2 +1 x3 <= 1 ;\n+2 x4 +3 x5 -4 ~x6 = 1 ;\n";
    let derived = pbcnf::derive(text, None, &options).unwrap();
    assert_eq!(both.derive(9, &options).unwrap(), derived);
    let low = both.encode(5, &options).unwrap_err();
    let mistake = Mistake::LiteralOf {
        constraint: 1,
        term: 1,
        literal: lit(5),
        first: 5,
    };
    assert_eq!(
        (low.kind(), low.constraint()),
        (Kind::Usage(mistake), Some(1))
    );
    assert_eq!(
        low.to_string(),
        "pbcnf: usage: the literal of term 2 of constraint 2 is 5, and not of a variable from 1 to 4"
    );
    let heavy = [(1 << 101, lit(1))];
    both.push(Constraint {
        terms: &heavy,
        relation: Relation::AtLeast,
        right: 1,
    });
    let refused = both.encode(9, &options).unwrap_err();
    assert_eq!(refused.constraint(), Some(2));
    assert_eq!(refused.to_string(), "pbcnf: constraint 3: limit weight");
    both.clear();
    assert!(both.is_empty());
}

#[test]
fn softs() {
    let text = b"min: +3 x1 -2 x2 +1 x1 x3 ;";
    let due = (-2, vec![(3, lit(-1)), (2, lit(2)), (1, lit(-4))]);
    assert_eq!(pbcnf::softs(text, None).unwrap(), due);
    assert_eq!(pbcnf::softs(b"", None).unwrap(), (0, vec![]));
    let far = pbcnf::softs(b"min: -1180591620717411303424 x1 ;", Some(0)).unwrap();
    assert_eq!(far, (-(1 << 70), vec![(1 << 70, lit(1))]));
    assert!(pbcnf::softs(b"min: ;\n+1 x1 >= ;", None).is_err());
}

#[test]
fn conditions() {
    let (two, one) = ([(1, lit(1)), (1, lit(2))], [(1, lit(2))]);
    let either = Constraint {
        terms: &two,
        relation: Relation::AtLeast,
        right: 1,
    };
    let none = Constraint {
        terms: &one,
        relation: Relation::AtMost,
        right: 0,
    };
    let (mut asked, options) = (Constraints::new(), Options::new());
    asked.push_under(lit(3), either);
    asked.push_under(!lit(3), none);
    let made = asked.encode(4, &options).unwrap();
    assert_eq!(made.integers(), [1, 2, -3, 0, -2, 3, 0]);
    asked.push_under(!lit(4), none);
    let refused = asked.encode(4, &options).unwrap_err();
    let mistake = Mistake::Condition {
        constraint: 2,
        condition: !lit(4),
        first: 4,
    };
    assert_eq!(
        (refused.kind(), refused.constraint()),
        (Kind::Usage(mistake), Some(2))
    );
    assert_eq!(
        refused.to_string(),
        "pbcnf: usage: the condition of constraint 3 is -4, and not of a variable from 1 to 3"
    );
}
