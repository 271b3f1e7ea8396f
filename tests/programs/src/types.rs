//! Types from a seed.

pub use pqm::types::{circuit, copyable, function, pair, qubit, qubits, reusable, unit};
use program_files::{Random, Type, Wire};
use std::rc::Rc;

pub fn any_wire(random: &mut Random) -> Wire {
    random.pick(&[Wire::Bit, Wire::Qubit])
}

pub fn any_wires(random: &mut Random, count: usize) -> Vec<Wire> {
    (0..count).map(|_| any_wire(random)).collect()
}

pub fn shuffle<T>(random: &mut Random, list: &mut [T]) {
    for at in (1..list.len()).rev() {
        list.swap(at, random.between(0, at));
    }
}

/// How many pairs stand in each other, from the outermost on. Those inside
/// another type do not count.
pub fn pairs_deep(of: &Type) -> usize {
    match of {
        Type::Pair(first, second) => 1 + pairs_deep(first).max(pairs_deep(second)),
        _ => 0,
    }
}

/// A wire type with these wires, left to right.
pub fn wire_type(random: &mut Random, wires: &[Wire]) -> Rc<Type> {
    wire_type_with_units(random, wires, 0)
}

/// The same with so many units among the wires.
pub fn wire_type_with_units(random: &mut Random, wires: &[Wire], units: usize) -> Rc<Type> {
    let mut leaves: Vec<Rc<Type>> = wires.iter().map(|wire| wire.as_type()).collect();
    for _ in 0..units {
        leaves.insert(random.between(0, leaves.len()), unit());
    }
    paired(random, &leaves)
}

/// Any wire type of so many wires and units.
pub fn any_wire_type(random: &mut Random, leaves: usize) -> Rc<Type> {
    let units = some_units(random, leaves);
    let wires = any_wires(random, leaves - units);
    wire_type_with_units(random, &wires, units)
}

/// How many of so many leaves are units.
fn some_units(random: &mut Random, leaves: usize) -> usize {
    (0..leaves).filter(|_| random.one_in(6)).count()
}

/// These types in pairs, left to right; unit if there is none.
pub fn paired(random: &mut Random, leaves: &[Rc<Type>]) -> Rc<Type> {
    match leaves {
        [] => unit(),
        [only] => only.clone(),
        _ => {
            let (first, second) = leaves.split_at(random.between(1, leaves.len() - 1));
            pair(paired(random, first), paired(random, second))
        }
    }
}

/// What these wires can become: in another order, Qubits measured once in so
/// many times.
pub fn changed_wires(random: &mut Random, wires: &[Wire], measured: usize) -> Vec<Wire> {
    let mut changed = wires.to_vec();
    for wire in &mut changed {
        if random.one_in(measured) {
            *wire = Wire::Bit;
        }
    }
    if random.one_in(2) {
        shuffle(random, &mut changed);
    }
    changed
}

/// Any type of so many entries.
pub fn any_type(random: &mut Random, size: usize) -> Rc<Type> {
    match size {
        1 => any_wire_type(random, 1),
        2 => reusable(any_type(random, 1)),
        _ => match random.below(5) {
            0 => reusable(any_type(random, size - 1)),
            1 if size % 2 == 1 => {
                let leaves = size.div_ceil(2);
                let first = random.between(1, leaves - 1);
                let second = any_wire_type(random, leaves - first);
                circuit(any_wire_type(random, first), second)
            }
            choice => {
                let first = random.between(1, size - 2);
                let second = any_type(random, size - 1 - first);
                let first = any_type(random, first);
                if choice < 3 {
                    pair(first, second)
                } else {
                    function(first, second)
                }
            }
        },
    }
}

/// Sources and sinks: with variables of these four types in scope, any wire
/// can be made and any can be dropped.
pub fn sources_and_sinks() -> [Rc<Type>; 4] {
    let source = |wire: Wire| reusable(wire.as_type());
    let sink = |wire: Wire| reusable(function(wire.as_type(), reusable(wire.as_type())));
    [
        source(Wire::Bit),
        source(Wire::Qubit),
        sink(Wire::Bit),
        sink(Wire::Qubit),
    ]
}

/// How many entries sources and sinks add to a type.
pub const OPEN: usize = 18;

/// The function from sources and sinks, in any order, to a type.
pub fn open_type(random: &mut Random, to: Rc<Type>) -> Rc<Type> {
    let mut from = sources_and_sinks();
    shuffle(random, &mut from);
    from.into_iter().fold(to, |to, from| function(from, to))
}

/// A type of so many entries that may be copied and dropped and that some closed
/// term without labels has.
pub fn parameter_type(random: &mut Random, size: usize) -> Rc<Type> {
    if size == 1 {
        unit()
    } else if (size >= 7 && random.one_in(3)) || (size >= 3 && random.one_in(8)) {
        let first = random.between(1, size - 2);
        pair(
            parameter_type(random, first),
            parameter_type(random, size - 1 - first),
        )
    } else if size == 3 || (size % 4 == 3 && random.one_in(2)) {
        let (from, to) = as_many_wires(random, size.div_ceil(4));
        circuit(from, to)
    } else {
        reusable(closed_type(random, size - 1))
    }
}

/// A type of so many entries that some closed term without labels has.
pub fn closed_type(random: &mut Random, size: usize) -> Rc<Type> {
    match random.below(8) {
        0 | 1 if size >= 7 => {
            let first = random.between(1, size - 2);
            pair(
                closed_type(random, first),
                closed_type(random, size - 1 - first),
            )
        }
        2 if size >= 7 => {
            let first = random.between(1, size - 2);
            function(
                parameter_type(random, first),
                closed_type(random, size - 1 - first),
            )
        }
        3 if size % 4 == 3 => {
            let (from, to) = as_many_wires(random, size.div_ceil(4));
            function(from, to)
        }
        4 if size >= 4 && size.is_multiple_of(2) => {
            let of = any_type(random, size / 2 - 1);
            function(reusable(of.clone()), of)
        }
        4 if size >= 3 && size % 2 == 1 => {
            let of = any_type(random, size / 2);
            function(of.clone(), of)
        }
        5 if size > OPEN => {
            let to = any_type(random, size - OPEN);
            open_type(random, to)
        }
        _ => parameter_type(random, size),
    }
}

/// Two wire types with so many wires and units each, the first of which can
/// become the second.
pub fn as_many_wires(random: &mut Random, count: usize) -> (Rc<Type>, Rc<Type>) {
    let units = some_units(random, count);
    let from = any_wires(random, count - units);
    let to = changed_wires(random, &from, 4);
    let from = wire_type_with_units(random, &from, units);
    (from, wire_type_with_units(random, &to, units))
}

/// The wires and functions of a type, left to right. What may be copied and
/// dropped is left out.
pub fn pieces(of: &Rc<Type>) -> Vec<Rc<Type>> {
    let mut list = Vec::new();
    add_pieces(of, &mut list);
    list
}

fn add_pieces(of: &Rc<Type>, list: &mut Vec<Rc<Type>>) {
    match &**of {
        Type::Pair(first, second) => {
            add_pieces(first, list);
            add_pieces(second, list);
        }
        other if copyable(other) => {}
        _ => list.push(of.clone()),
    }
}

/// A type that these wires and functions can become, with some room for other
/// entries.
pub fn made_of(random: &mut Random, parts: &[Rc<Type>], room: usize) -> Rc<Type> {
    if parts.is_empty() {
        let size = some_size(random, room);
        return match random.below(3) {
            0 => closed_type(random, size),
            _ => parameter_type(random, size),
        };
    }
    match random.below(10) {
        0 if room > 8 => {
            let from = domain(random, room / 2);
            let mut all = parts.to_vec();
            all.extend(pieces(&from));
            function(from, made_of(random, &all, room / 2))
        }
        1 if room > 8 => {
            let more = made_of(random, &[], room / 2);
            let rest = made_of(random, parts, room / 2);
            if random.one_in(2) {
                pair(more, rest)
            } else {
                pair(rest, more)
            }
        }
        choice if parts.len() == 1 => match &*parts[0] {
            Type::Qubit if choice < 4 => Rc::new(Type::Bit),
            Type::Function(from, to) if choice < 5 => {
                function(from.clone(), made_of(random, &pieces(to), room / 2))
            }
            _ => parts[0].clone(),
        },
        _ => {
            let mut parts = parts.to_vec();
            if random.one_in(2) {
                shuffle(random, &mut parts);
            }
            let (first, second) = parts.split_at(random.between(1, parts.len() - 1));
            let first = made_of(random, first, room / 2);
            pair(first, made_of(random, second, room / 2))
        }
    }
}

/// So many entries, seldom so few that the type is unit.
fn some_size(random: &mut Random, room: usize) -> usize {
    match random.below(6) {
        0 => random.between(1, 2),
        _ => random.between(3, room.max(4)),
    }
}

/// The type of an argument: wires, or something reusable, or a function.
fn domain(random: &mut Random, room: usize) -> Rc<Type> {
    let wires = random.between(1, 2);
    match random.below(4) {
        0 => {
            let size = some_size(random, room);
            parameter_type(random, size)
        }
        1 => {
            let (from, to) = as_many_wires(random, wires);
            function(from, to)
        }
        _ => any_wire_type(random, wires),
    }
}

/// The type with one entry changed: another kind of as many parts, its parts
/// swapped, or a reusable left out. A Circ whose parts are then no wire types
/// becomes a function.
pub fn one_entry_changed(random: &mut Random, of: &Rc<Type>) -> Rc<Type> {
    let at = random.below(of.size());
    change_entry(random, of, at)
}

/// Another of the types without parts.
fn other_leaf(random: &mut Random, of: &Rc<Type>) -> Rc<Type> {
    let leaves = [Wire::Bit.as_type(), Wire::Qubit.as_type(), unit()];
    let others: Vec<&Rc<Type>> = leaves.iter().filter(|leaf| *leaf != of).collect();
    others[random.below(others.len())].clone()
}

fn change_entry(random: &mut Random, of: &Rc<Type>, at: usize) -> Rc<Type> {
    if at == 0 {
        return Rc::new(match &**of {
            Type::Bit | Type::Qubit | Type::Unit => return other_leaf(random, of),
            Type::Reusable(part) => return part.clone(),
            Type::Pair(first, second) if random.one_in(2) => {
                Type::Pair(second.clone(), first.clone())
            }
            Type::Pair(first, second) | Type::Circuit(first, second) => {
                Type::Function(first.clone(), second.clone())
            }
            Type::Function(first, second) => Type::Pair(first.clone(), second.clone()),
        });
    }
    let at = at - 1;
    Rc::new(match &**of {
        Type::Bit | Type::Qubit | Type::Unit => unreachable!("no parts"),
        Type::Reusable(part) => Type::Reusable(change_entry(random, part, at)),
        Type::Pair(first, second)
        | Type::Function(first, second)
        | Type::Circuit(first, second) => {
            let size = first.size();
            let (first, second) = if at < size {
                (change_entry(random, first, at), second.clone())
            } else {
                (first.clone(), change_entry(random, second, at - size))
            };
            match &**of {
                Type::Pair(..) => Type::Pair(first, second),
                Type::Circuit(..) if first.is_wire_type() && second.is_wire_type() => {
                    Type::Circuit(first, second)
                }
                _ => Type::Function(first, second),
            }
        }
    })
}
