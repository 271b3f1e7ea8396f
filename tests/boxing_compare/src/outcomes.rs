//! What became of the pairs.

use comparing::tally::Seen;

#[derive(Clone, Copy, PartialEq, Eq, PartialOrd, Ord, Debug)]
pub enum Outcome {
    Compared,
    Finished,
    Run,
    AtLimits,
    NoWireType,
    OnlyWithFewer,
    OnlyWithMore,
    OnlyOne,
    BothTooLarge,
    OnlyUnboxedPasses,
}

impl Seen for Outcome {
    fn words(self) -> String {
        let words = match self {
            Outcome::Compared => "pairs compared",
            Outcome::Finished => "both finished, with equal listings",
            Outcome::Run => "of these with a spot that is run and differs",
            Outcome::AtLimits => "of these also run with their steps as limits",
            Outcome::NoWireType => "both refused with 20",
            Outcome::OnlyWithFewer => "finished with fewer boxes, 22 with more",
            Outcome::OnlyWithMore => "finished with more boxes, 22 with fewer",
            Outcome::OnlyOne => "finished with some boxes, 22 with others",
            Outcome::BothTooLarge => "both refused with 22",
            Outcome::OnlyUnboxedPasses => "finished without the box, 18 with it",
        };
        words.to_string()
    }

    fn wanted() -> Vec<(Outcome, usize)> {
        vec![
            (Outcome::Compared, 0),
            (Outcome::Finished, 30_000),
            (Outcome::Run, 30_000),
            (Outcome::AtLimits, 1_000),
            (Outcome::NoWireType, 500),
            (Outcome::OnlyWithFewer, 100),
            (Outcome::OnlyWithMore, 20),
            (Outcome::OnlyOne, 0),
            (Outcome::BothTooLarge, 0),
            (Outcome::OnlyUnboxedPasses, 500),
        ]
    }
}
