//! Whether a listing is that of a sound circuit of the program's type.

use evaluator::circuits::wires;
use evaluator::listing::{NO_WIRE, SLOTS};
use evaluator::Prepared;
use program_files::{Wire, GATES};

/// Each gate takes wires made before it, of its types, and no others; each wire goes
/// exactly once, to a gate or to an output; the outputs have the program's type.
pub fn check(listing: &[u8], prepared: &Prepared) -> Result<(), String> {
    let number = |at: usize| usize::from(listing[at]) + 256 * usize::from(listing[at + 1]);
    let (labels, gates, outputs) = (number(0), number(2), number(4));
    let slots = 6 + labels + gates;
    let ends = slots + 2 * SLOTS * (labels + gates);
    if listing.len() != ends + 2 * outputs || labels != prepared.labels.len() {
        return Err("a listing of the wrong length".to_string());
    }
    // The wires made so far, each until it is taken.
    let mut made: Vec<Option<Wire>> = prepared.labels.iter().copied().map(Some).collect();
    let take = |made: &mut Vec<Option<Wire>>, wire: usize, of: Wire| match made
        .get_mut(wire)
        .map(Option::take)
    {
        Some(Some(there)) if there == of => Ok(()),
        other => Err(format!("wire {wire} taken as a {of:?}: {other:?}")),
    };
    for entry in labels..labels + gates {
        let gate = &GATES[usize::from(listing[6 + entry])];
        for slot in 0..SLOTS {
            let wire = number(slots + 2 * (SLOTS * entry + slot));
            match gate.takes.get(slot) {
                Some(&of) => take(&mut made, wire, of)?,
                None if wire == usize::from(NO_WIRE) => {}
                None => return Err(format!("wire {wire} in a slot that is not used")),
            }
        }
        made.extend(gate.makes.iter().copied().map(Some));
    }
    let types = wires(&prepared.of);
    if types.len() != outputs {
        return Err(format!("{outputs} outputs for {} wires", types.len()));
    }
    for (at, &of) in types.iter().enumerate() {
        take(&mut made, number(ends + 2 * at), of)?;
    }
    match made.iter().position(Option::is_some) {
        Some(wire) => Err(format!("wire {wire} left over")),
        None => Ok(()),
    }
}
