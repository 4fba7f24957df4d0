//! What the crate passes on, and how it reports what comes back: each option, numbers of any sign and size, each text, and long texts.
use pbcnf::{
    lit, Amo, Card, Constraint, Equal, Expected, File, General, Kind, Limit, Lit, Options, Place,
    Relation,
};
use std::ops::Range;
use std::process::Command;

#[test]
fn each_option_is_passed_on() {
    let text = b"+1 x1 +1 x2 +1 x3 +1 x4 +1 x5 +1 x6 +1 x7 +1 x8 = 4 ;\n-1 x1 -1 x2 -1 x3 -1 x4 -1 x5 -1 x6 -1 x7 -1 x8 >= -1 ;\n+5 x1 +4 x2 +3 x3 +3 x4 >= 8 ;\n";
    let usual = Options::default();
    assert_eq!(usual, Options::new().budget(50_000).table(false));
    let made = |options: Options| {
        let encoding = pbcnf::encode(text, None, &options).unwrap();
        encoding.into_integers()
    };
    let plain = made(usual);
    assert_eq!(plain, made(usual.card(Card::Counter)));
    // Of each option another choice than the usual one makes other clauses, and no two of these are the same.
    let others = [
        usual.amo(Amo::Pairwise),
        usual.amo(Amo::Product),
        usual.card(Card::Totalizer),
        usual.general(General::Tree),
        usual.general(General::Adder),
        usual.equal(Equal::Joint),
        usual.budget(1),
    ]
    .map(made);
    for (place, other) in others.iter().enumerate() {
        assert!(
            *other != plain && !others[place + 1..].contains(other),
            "{place}"
        );
    }
}

#[test]
fn numbers_have_any_sign_and_size() {
    let text = b"min: -1180591620717411303424 x1 -1 x2 ;\n";
    let great = 1_i128 << 70;
    let rows = pbcnf::bounds(text, None, &Options::new()).unwrap();
    assert_eq!(rows, [(-great, lit(3)), (-1, lit(4)), (0, lit(5))]);
    for bound in [-1, -great, -great - 1, great, 0] {
        let stated = format!(
            "{}-1180591620717411303424 x1 -1 x2 <= {bound} ;\n",
            std::str::from_utf8(text).unwrap()
        );
        assert_eq!(
            pbcnf::encode(text, Some(bound), &Options::new()),
            pbcnf::encode(stated.as_bytes(), None, &Options::new())
        );
    }
}

#[test]
fn each_relation_is_passed_on() {
    let terms = [1, 2, 3].map(|var| (1, lit(var)));
    let clauses = |relation, right| {
        let one = Constraint {
            terms: &terms,
            relation,
            right,
        };
        let encoding = pbcnf::constraint(one, 4, &Options::new()).unwrap();
        encoding.clauses().map(<[Lit]>::to_vec).collect::<Vec<_>>()
    };
    assert_eq!(clauses(Relation::AtLeast, 1), [[1, 2, 3].map(lit)]);
    assert_eq!(
        clauses(Relation::AtMost, 0),
        [-1, -2, -3].map(|var| [lit(var)])
    );
    assert_eq!(clauses(Relation::Equal, 3), [1, 2, 3].map(|var| [lit(var)]));
}

/// A text that is refused at this place.
fn refused(file: File, place: (u64, u64), expected: Expected) -> Kind {
    let (line, column) = place;
    Kind::Refused {
        file,
        place: Place { line, column },
        expected,
    }
}

#[test]
fn each_text_is_told_apart() {
    let (opb, usual) = (b"+1 x1 >= 1 ;\n+1 ~x1 >= 1 ;\n", Options::new());
    let cnf = pbcnf::dimacs(opb, None, &usual).unwrap();
    let proof = pbcnf::derive(opb, None, &usual).unwrap();
    let (cnf, proof) = (cnf.as_bytes(), proof.as_bytes());
    let of_refute = |cnf, proof, lrat| pbcnf::refute(opb, None, cnf, proof, lrat).unwrap_err();
    for (error, file, expected) in [
        (
            pbcnf::encode(b"x", None, &usual).unwrap_err(),
            File::Opb,
            Expected::Start,
        ),
        (of_refute(b"x", proof, b""), File::Cnf, Expected::PLine),
        (of_refute(cnf, b"x", b""), File::Proof, Expected::StepWord),
        (
            pbcnf::decode(opb, None, b"x").unwrap_err(),
            File::Model,
            Expected::ModelLine,
        ),
        (of_refute(cnf, proof, b"x"), File::Lrat, Expected::LratId),
    ] {
        assert_eq!(error.kind(), refused(file, (1, 1), expected));
    }
}

#[test]
fn a_limit_may_have_no_place() {
    let options = Options::new().table(true).budget(2);
    let over = pbcnf::encode(b"min: +1 x1 +2 x2 +4 x3 ;", None, &options).unwrap_err();
    let (limit, file, place) = (Limit::Bounds, None, None);
    assert_eq!(over.kind(), Kind::Limit { limit, file, place });
    assert_eq!(
        (over.status(), over.to_string().as_str()),
        (3, "pbcnf: totals: limit bounds")
    );
}

#[test]
fn literals_stand_in_any_order_but_not_beside_their_negations() {
    let opb = b"+1 x1 +1 x2 >= 1 ;\n+1 x2 +1 x3 >= 1 ;\n";
    let decoded = |model: &[i32]| {
        let literals = model.iter().map(|&number| lit(number));
        pbcnf::decode_literals(opb, None, literals)
    };
    let solution = decoded(&[2]).unwrap();
    assert_eq!(solution.text(), "s SATISFIABLE\nv -x1 x2 -x3\n");
    assert_eq!(decoded(&[-3, 2, 900, -1, 2]).unwrap(), solution);
    let none = decoded(&[]).unwrap_err();
    assert_eq!(none.kind(), Kind::NotASolution { statement: 1 });
    assert_eq!(
        decoded(&[2, -2]).unwrap_err().kind(),
        refused(File::Model, (2, 5), Expected::Opposite)
    );
}

#[test]
fn long_texts_are_whole() {
    let count = 100_000;
    let opb: String = (1..=count)
        .map(|var| format!("+1 x{var} +1 x{} >= 1 ;\n", var + 1))
        .collect();
    let clauses: String = (1..=count)
        .map(|var| format!("{var} {} 0\n", var + 1))
        .collect();
    let cnf = pbcnf::dimacs(opb.as_bytes(), None, &Options::new()).unwrap();
    assert!(cnf.len() > 1 << 20 && cnf == format!("p cnf {} {count}\n{clauses}", count + 1));
}

#[test]
fn what_is_much_longer_than_its_text_is_whole() {
    // At most one of 40 variables each, by all pairs.
    let groups: Vec<_> = (0..1200)
        .map(|k| 10_000_001 + 40 * k..10_000_041 + 40 * k)
        .collect();
    let statement = |group: &Range<i32>| {
        group
            .clone()
            .map(|var| format!("-1 x{var} "))
            .collect::<String>()
            + ">= -1 ;\n"
    };
    let opb: String = groups.iter().map(statement).collect();
    let options = Options::new().amo(Amo::Pairwise);
    let encoding = pbcnf::encode(opb.as_bytes(), None, &options).unwrap();
    assert!(encoding.integers().len() > 4 * opb.len() && opb.len() > 1 << 19);
    let pairs = |group: Range<i32>| {
        group
            .clone()
            .flat_map(move |i| (i + 1..group.end).map(move |j| [lit(-i), lit(-j)]))
    };
    assert!(encoding.clauses().eq(groups.into_iter().flat_map(pairs)));
}

#[test]
fn want_of_memory_is_told() {
    let few = "ulimit -v 60000 && exec \"$0\" --exact starved --ignored --test-threads=1";
    let test = std::env::current_exe().unwrap();
    let run = Command::new("sh")
        .arg("-c")
        .arg(few)
        .arg(test)
        .output()
        .unwrap();
    let said = String::from_utf8_lossy(&run.stdout);
    assert!(run.status.success() && said.contains("1 passed"), "{run:?}");
}

/// The texts have room in so few addresses, and what is kept of them while they are judged has none.
#[test]
#[ignore = "want_of_memory_is_told runs it, in few addresses"]
fn starved() {
    let count = 1_000_000;
    let opb = "+1 x1 +1 x2 >= 1 ;\n".repeat(count);
    let cnf = format!("p cnf 2 {count}\n1 2 0\n");
    let wanting = pbcnf::check(opb.as_bytes(), None, cnf.as_bytes(), b"").unwrap_err();
    assert_eq!((wanting.kind(), wanting.status()), (Kind::NoMemory, 6));
}
