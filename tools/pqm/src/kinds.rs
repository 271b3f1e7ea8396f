//! The kind bytes, and how many parts follow each.

// Label section and type section.
pub const BIT: u8 = 0;
pub const QUBIT: u8 = 1;

// Type section.
pub const PAIR_TYPE: u8 = 2;
pub const FUNCTION: u8 = 3;
pub const REUSABLE: u8 = 4;
pub const CIRCUIT: u8 = 5;
pub const UNIT: u8 = 6;

// Term section.
pub const VARIABLE: u8 = 16;
pub const LABEL: u8 = 17;
pub const ABSTRACTION: u8 = 18;
pub const APPLICATION: u8 = 19;
pub const PAIR: u8 = 20;
pub const LET: u8 = 21;
pub const LIFT: u8 = 22;
pub const FORCE: u8 = 23;
pub const BOX: u8 = 24;
pub const APPLY: u8 = 25;
pub const GATE: u8 = 26;
pub const UNIT_VALUE: u8 = 27;

/// The kinds of types that have parts.
pub const TYPES_WITH_PARTS: [u8; 4] = [PAIR_TYPE, FUNCTION, REUSABLE, CIRCUIT];

/// The kinds of terms that have parts.
pub const TERMS_WITH_PARTS: [u8; 8] =
    [ABSTRACTION, APPLICATION, PAIR, LET, LIFT, FORCE, BOX, APPLY];

/// Whether the kind is one of the label section.
pub fn is_label_kind(kind: u8) -> bool {
    kind == BIT || kind == QUBIT
}

/// Whether a wire type may have an entry of this kind of the type section.
pub fn is_in_wire_types(kind: u8) -> bool {
    matches!(kind, BIT | QUBIT | PAIR_TYPE | UNIT)
}

/// How many parts a kind of the type section has; none for any other byte.
pub fn type_parts(kind: u8) -> Option<usize> {
    match kind {
        BIT | QUBIT | UNIT => Some(0),
        REUSABLE => Some(1),
        PAIR_TYPE | FUNCTION | CIRCUIT => Some(2),
        _ => None,
    }
}

/// How many parts a kind of the term section has; none for any other byte.
pub fn term_parts(kind: u8) -> Option<usize> {
    match kind {
        VARIABLE | LABEL | GATE | UNIT_VALUE => Some(0),
        ABSTRACTION | LIFT | FORCE | BOX => Some(1),
        APPLICATION | PAIR | LET | APPLY => Some(2),
        _ => None,
    }
}

/// The word of 01 or 02 for a kind of the type section.
pub fn type_word(kind: u8) -> Option<&'static str> {
    Some(match kind {
        BIT => "Bit",
        QUBIT => "Qubit",
        PAIR_TYPE => "pair",
        FUNCTION => "function",
        REUSABLE => "reusable",
        CIRCUIT => "circuit",
        UNIT => "unit",
        _ => return None,
    })
}

/// The word of 01 or 02 for a kind of the term section.
pub fn term_word(kind: u8) -> Option<&'static str> {
    Some(match kind {
        VARIABLE => "variable",
        LABEL => "label",
        ABSTRACTION => "abstraction",
        APPLICATION => "application",
        PAIR => "pair",
        LET => "let",
        LIFT => "lift",
        FORCE => "force",
        BOX => "box",
        APPLY => "apply",
        GATE => "gate",
        UNIT_VALUE => "unit value",
        _ => return None,
    })
}
