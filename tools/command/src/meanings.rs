//! What each refusal means, in a line.

/// The numbers that there are, and what each means.
pub const MEANINGS: [(u8, &str); 21] = [
    (1, "a file with under 6 bytes"),
    (2, "a size out of its range"),
    (3, "a length that does not fit the sizes"),
    (4, "a kind that its section does not have"),
    (5, "an argument that is not allowed"),
    (6, "a type that runs out"),
    (7, "a Circ or a box without wire types"),
    (8, "a term section that is not one whole term"),
    (9, "a variable without a binder"),
    (16, "a typing rule that fails"),
    (
        17,
        "a linear variable or label that is not used exactly once",
    ),
    (18, "a linear use inside a lift of what is bound outside"),
    (19, "a lent buffer that is too short"),
    (20, "a program whose type is no wire type"),
    (
        21,
        "a run that is unfinished when the limit's steps are done",
    ),
    (22, "a run whose next step exceeds a size"),
    (
        24,
        "a listing with sizes out of range, or of another length than they give",
    ),
    (
        25,
        "an entry of a listing with a kind or a slot that is not allowed",
    ),
    (
        26,
        "a wire not made before it is taken, of another type, gone already, or left over",
    ),
    (27, "a text that is the export of no listing"),
    (28, "the export of a listing with Init or Discard"),
];

/// What a number means.
pub fn meaning(number: u8) -> &'static str {
    let found = MEANINGS.iter().find(|(other, _)| *other == number);
    found.map_or("no operation refuses with this number", |(_, words)| words)
}
