//! The causes of refusals that the library reports by numbers: those of pbcnf.h, which stay.

/// An enum whose variants have the numbers of the header.
macro_rules! numbered {
    ($(#[$about:meta])* $name:ident { $($(#[$doc:meta])* $variant:ident = $number:literal,)* }) => {
        $(#[$about])*
        #[derive(Clone, Copy, PartialEq, Eq, Hash, PartialOrd, Ord, Debug)]
        #[non_exhaustive]
        pub enum $name {
            $($(#[$doc])* $variant = $number,)*
        }

        impl $name {
            pub(crate) fn of(number: u32) -> Option<$name> {
                match number {
                    $($number => Some($name::$variant),)*
                    _ => None,
                }
            }
        }
    };
}

numbered! {
    /// Which text is meant.
    File {
        /// The problem.
        Opb = 1,
        /// The clauses.
        Cnf = 2,
        /// The derivation.
        Proof = 3,
        /// The solver's text.
        Model = 4,
        /// The refutation.
        Lrat = 5,
    }
}

numbered! {
    /// Which limit is passed.
    Limit {
        /// Bytes of a text.
        Text = 1,
        /// Statements of a problem.
        Statements = 2,
        /// Terms of a statement or of the objective.
        Terms = 3,
        /// The absolute values of one statement's numbers, added up.
        Weight = 4,
        /// Fresh variables of a table of bounds.
        Bounds = 5,
        /// Variables.
        Variables = 6,
        /// Clauses.
        Clauses = 7,
        /// Bytes of a line.
        Line = 8,
        /// Lines of a text.
        Lines = 9,
        /// The absolute value of a number.
        Number = 10,
        /// Bytes of a free name.
        Name = 11,
    }
}

numbered! {
    /// What a grammar allows where a text leaves it.
    Expected {
        /// OPB: `min:`, a statement or the end.
        Start = 1,
        /// OPB: a statement or the end.
        Next = 2,
        /// OPB: a coefficient or a relation.
        TermOrRelation = 3,
        /// OPB: a coefficient or `;`.
        TermOrSemicolon = 4,
        /// A literal.
        Literal = 5,
        /// An integer.
        Integer = 6,
        /// `;`.
        Semicolon = 7,
        /// CNF: the line `p`.
        PLine = 8,
        /// CNF: the word `cnf`.
        CnfWord = 9,
        /// CNF: the number of variables.
        VarCount = 10,
        /// CNF: the number of clauses.
        ClauseCount = 11,
        /// The end of a line.
        LineEnd = 12,
        /// CNF: a literal or 0.
        ClauseWord = 13,
        /// CNF: the end.
        CnfEnd = 14,
        /// Model: a line `s` or `v`.
        ModelLine = 15,
        /// Model: a literal.
        ModelLiteral = 16,
        /// Model: not the negation of a literal that was listed.
        Opposite = 17,
        /// Model: the 0 after the literals.
        ModelZero = 18,
        /// Derivation: its first line.
        Head = 19,
        /// Derivation: the line of the loaded constraints.
        Loaded = 20,
        /// Derivation: how many constraints are loaded.
        LoadedCount = 21,
        /// Derivation: the word of a step.
        StepWord = 22,
        /// Derivation: an operand.
        Operand = 23,
        /// Derivation: a factor.
        Factor = 24,
        /// Derivation: a term.
        Term = 25,
        /// Derivation: an id.
        Id = 26,
        /// Derivation: a variable that is set.
        SetVar = 27,
        /// Derivation: `->`.
        Arrow = 28,
        /// Derivation: 0 or 1.
        Bit = 29,
        /// Derivation: the end.
        DerivationEnd = 30,
        /// LRAT: an id.
        LratId = 31,
        /// LRAT: a literal or 0.
        LratLiteral = 32,
        /// LRAT: a hint or 0.
        LratHint = 33,
        /// LRAT: the end.
        LratEnd = 34,
    }
}

numbered! {
    /// Why a step of a derivation is not allowed.
    Denied {
        /// It names a variable that is unknown.
        UnknownVar = 1,
        /// It names an id that is unknown.
        UnknownId = 2,
        /// An operation lacks operands, too many are on the stack, or other than one is left.
        Stack = 3,
        /// Coefficients or a degree add up to 2^126 or more.
        Width = 4,
        /// It sets a variable of the problem.
        SetsOriginal = 5,
        /// Propagation finds no conflict.
        NotPropagated = 6,
        /// An obligation is not met.
        Obligation = 7,
        /// No clause of the CNF is left.
        NoClause = 8,
        /// The constraint does not imply the clause.
        NotImplied = 9,
        /// It deletes a constraint that was put out.
        OutDeleted = 10,
        /// Clauses of the CNF are left.
        ClausesLeft = 11,
    }
}

numbered! {
    /// Why a line of a refutation is none.
    Unproved {
        /// Its id is not above those before it.
        OldId = 1,
        /// A hint names no clause.
        UnknownHint = 2,
        /// Its hints reach no conflict.
        NoConflict = 3,
        /// The text ended before this line, without an empty clause.
        NoEmptyClause = 4,
    }
}
