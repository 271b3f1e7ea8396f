//! The faults that are planted, each as edits of the evaluator's source. The
//! first four are those that 01 names as seen in other machines.

/// The file of the evaluator, a piece of its text, and what takes its place.
pub type Edit = (&'static str, &'static str, &'static str);

pub const FAULTS: &[(&str, &[Edit])] = &[
    (
        "one counter of wires for all open boxes",
        &[
            (
                "configurations",
                "let circuit = Circuit::empty(&wires(at));",
                "let mut circuit = Circuit::empty(&wires(at));
                let first = self.innermost().circuit.next;
                for (wire, _) in &mut circuit.inputs {
                    *wire += first;
                }
                circuit.next += first;",
            ),
            (
                "configurations",
                r#"let below = self.frames.last_mut().expect("a frame below");"#,
                r#"let below = self.frames.last_mut().expect("a frame below");
                below.circuit.next = top.circuit.next;"#,
            ),
        ],
    ),
    (
        "an abstraction that holds a wire is lifted",
        &[(
            "run",
            "let of = check_read(&read).0?;",
            r#"let of = match check_read(&read) {
                (Err(Refusal { number: 18, .. }), survey) => {
                    survey.nodes[0].of.clone().expect("a type")
                }
                (answer, _) => answer?,
            };"#,
        )],
    ),
    (
        "evaluation under a lift that is bound to a variable",
        &[
            (
                "contexts",
                "} else if !second.is_value {",
                "} else if !second.is_value
                || matches!(
                    (&term.form, &second.form),
                    (Form::Application(..), Form::Lift(inside)) if !inside.is_value
                )
            {",
            ),
            (
                "contexts",
                "Form::Let(part, _) | Form::Force(part) | Form::Box(_, part) => {",
                "Form::Let(part, _) | Form::Force(part) | Form::Box(_, part) | Form::Lift(part) => {",
            ),
        ],
    ),
    (
        "a wire lost that passes through untouched",
        &[(
            "circuits",
            "relabelled(&|wire| renamed[&wire])",
            "relabelled(&|wire| match constant.inputs.contains(&wire) {
                true => wire,
                false => renamed[&wire],
            })",
        )],
    ),
    (
        "a wire that passes through gets a new number",
        &[(
            "circuits",
            "relabelled(&|wire| renamed[&wire])",
            "relabelled(&|wire| match constant.inputs.contains(&wire) {
                true => self.next,
                false => renamed[&wire],
            })",
        )],
    ),
    (
        "inputs matched right to left",
        &[(
            "circuits",
            "zip(argument.labels())",
            "zip(argument.labels().into_iter().rev())",
        )],
    ),
    (
        "a gate's outputs numbered right to left",
        &[(
            "circuits",
            "for &wire in &placed.makes {",
            "for &wire in placed.makes.iter().rev() {",
        )],
    ),
    (
        "right part first",
        &[(
            "contexts",
            "if !first.is_value {
                Some((0, first))
            } else if !second.is_value {
                Some((1, second))
            } else {",
            "if !second.is_value {
                Some((1, second))
            } else if !first.is_value {
                Some((0, first))
            } else {",
        )],
    ),
    (
        "let's halves swapped",
        &[(
            "configurations",
            "let values = [second.clone(), first.clone()];",
            "let values = [first.clone(), second.clone()];",
        )],
    ),
    (
        "22 before 21",
        &[(
            "run",
            "if steps == limit {",
            "if steps == limit && now.clone().next().fits() {",
        )],
    ),
    (
        "21 before the finish",
        &[(
            "run",
            "if now.is_finished() {",
            "if now.is_finished() && steps < limit {",
        )],
    ),
    (
        "box exit not counted as a step",
        &[(
            "run",
            "now = now.next();",
            "let frames = now.frames.len();
            now = now.next();
            if now.frames.len() < frames {
                continue;
            }",
        )],
    ),
    (
        "box entry not counted as a step",
        &[(
            "run",
            "now = now.next();",
            "let frames = now.frames.len();
            now = now.next();
            if now.frames.len() > frames {
                continue;
            }",
        )],
    ),
    (
        "at most 4,095 nodes",
        &[(
            "configurations",
            "MOST_NODES: usize = 4_096",
            "MOST_NODES: usize = 4_095",
        )],
    ),
    (
        "at most 4,097 nodes",
        &[(
            "configurations",
            "MOST_NODES: usize = 4_096",
            "MOST_NODES: usize = 4_097",
        )],
    ),
    (
        "at most 2,047 gates",
        &[(
            "configurations",
            "MOST_GATES: usize = 2_048",
            "MOST_GATES: usize = 2_047",
        )],
    ),
    (
        "at most 2,049 gates",
        &[(
            "configurations",
            "MOST_GATES: usize = 2_048",
            "MOST_GATES: usize = 2_049",
        )],
    ),
    (
        "at most 255 boxes",
        &[(
            "configurations",
            "MOST_BOXES: usize = 256",
            "MOST_BOXES: usize = 255",
        )],
    ),
    (
        "at most 257 boxes",
        &[(
            "configurations",
            "MOST_BOXES: usize = 256",
            "MOST_BOXES: usize = 257",
        )],
    ),
    (
        "nodes of the innermost frame alone",
        &[(
            "configurations",
            "self.frames.iter().map(|frame| frame.term.nodes).sum()",
            "self.innermost().term.nodes",
        )],
    ),
    (
        "a circuit constant counts its gates as nodes",
        &[(
            "terms",
            "let nodes = 1 + parts().map(|part| part.nodes).sum::<usize>();",
            "let nodes = match &form {
                Form::Constant(constant) => 1 + constant.gates.len(),
                _ => 1 + parts().map(|part| part.nodes).sum::<usize>(),
            };",
        )],
    ),
    (
        "gates of closed circuits not counted",
        &[(
            "configurations",
            "open.sum::<usize>() + closed.sum::<usize>()",
            "open.sum::<usize>() + 0 * closed.sum::<usize>()",
        )],
    ),
    (
        "gates of open circuits not counted",
        &[(
            "configurations",
            "open.sum::<usize>() + closed.sum::<usize>()",
            "0 * open.sum::<usize>() + closed.sum::<usize>()",
        )],
    ),
    (
        "the size before the step is tested",
        &[(
            "run",
            "now = now.next();
            if !now.fits() {
                return refused(22);
            }",
            "if !now.fits() {
                return refused(22);
            }
            now = now.next();",
        )],
    ),
    (
        "the gates of all circuits answered",
        &[(
            "run",
            "gates: frame.circuit.gates.len(),",
            "gates: configuration.gates(),",
        )],
    ),
    (
        "outputs right to left",
        &[(
            "run",
            "&frame.term.labels())",
            "&frame.term.labels().into_iter().rev().collect::<Vec<_>>())",
        )],
    ),
    (
        "slots right to left",
        &[(
            "listing",
            "placed.takes.get(slot)",
            "placed.takes.get(SLOTS - 1 - slot)",
        )],
    ),
    (
        "0 in a slot that takes no wire",
        &[("listing", "NO_WIRE: u16 = listing::NO_WIRE", "NO_WIRE: u16 = 0")],
    ),
    (
        "a Bit input listed as a Qubit",
        &[("listing", "BIT_INPUT: u8 = listing::BIT_INPUT", "BIT_INPUT: u8 = 129")],
    ),
    (
        "two slots in each entry",
        &[("listing", "SLOTS: usize = listing::SLOTS", "SLOTS: usize = 2")],
    ),
    (
        "four slots in each entry",
        &[("listing", "SLOTS: usize = listing::SLOTS", "SLOTS: usize = 4")],
    ),
    (
        "65,535 in the third slot of CCX",
        &[(
            "listing",
            "placed.takes.get(slot)",
            "placed.takes.iter().take(2).nth(slot)",
        )],
    ),
    (
        "all first slots, then all second ones",
        &[(
            "listing",
            "    for _ in &circuit.inputs {
        bytes.extend([NO_WIRE.to_le_bytes(); SLOTS].concat());
    }
    for placed in &circuit.gates {
        for slot in 0..SLOTS {
            bytes.extend(",
            "    for slot in 0..SLOTS {
        for _ in &circuit.inputs {
            bytes.extend(NO_WIRE.to_le_bytes());
        }
        for placed in &circuit.gates {
            bytes.extend(",
        )],
    ),
    (
        "CCX listed as CNOT",
        &[(
            "listing",
            "u8::try_from(placed.gate)",
            "u8::try_from(if placed.gate == 11 { 5 } else { placed.gate })",
        )],
    ),
    (
        "the first and the second wire of CCX exchanged",
        &[(
            "circuits",
            "let takes = placed.takes.iter().map(|wire| renamed[wire]).collect();",
            "let mut takes: Vec<usize> = placed.takes.iter().map(|wire| renamed[wire]).collect();
            if placed.gate == 11 {
                takes.swap(0, 1);
            }",
        )],
    ),
    (
        "the second and the third wire of CCX exchanged",
        &[(
            "circuits",
            "let takes = placed.takes.iter().map(|wire| renamed[wire]).collect();",
            "let mut takes: Vec<usize> = placed.takes.iter().map(|wire| renamed[wire]).collect();
            if placed.gate == 11 {
                takes.swap(1, 2);
            }",
        )],
    ),
    (
        "the first and the third wire of CCX exchanged",
        &[(
            "circuits",
            "let takes = placed.takes.iter().map(|wire| renamed[wire]).collect();",
            "let mut takes: Vec<usize> = placed.takes.iter().map(|wire| renamed[wire]).collect();
            if placed.gate == 11 {
                takes.swap(0, 2);
            }",
        )],
    ),
    (
        "the third wire of a gate not renamed in a copy",
        &[(
            "circuits",
            "let takes = placed.takes.iter().map(|wire| renamed[wire]).collect();",
            "let mut takes: Vec<usize> = placed.takes.iter().map(|wire| renamed[wire]).collect();
            if takes.len() == 3 {
                takes[2] = placed.takes[2];
            }",
        )],
    ),
    (
        "the third wire of a gate taken for the second in a copy",
        &[(
            "circuits",
            "let takes = placed.takes.iter().map(|wire| renamed[wire]).collect();",
            "let mut takes: Vec<usize> = placed.takes.iter().map(|wire| renamed[wire]).collect();
            if takes.len() == 3 {
                takes[2] = takes[1];
            }",
        )],
    ),
    (
        "CCX makes two wires, and its third passes",
        &[
            (
                "circuits",
                "let makes: Vec<usize> = (first..first + GATES[gate].makes.len()).collect();",
                "let makes: Vec<usize> = (first..first + GATES[gate].makes.len().min(2)).collect();",
            ),
            (
                "circuits",
                "Term::tuple(to, &mut makes.iter().copied())",
                "Term::tuple(to, &mut makes.iter().copied().chain([2]))",
            ),
        ],
    ),
    (
        "the third wire that CCX makes not counted",
        &[(
            "circuits",
            "let gate = placed.gate;",
            "let gate = placed.gate;
            if gate == 11 {
                self.next -= 1;
            }",
        )],
    ),
    (
        "the wires that CCX makes nested to the left",
        &[(
            "circuits",
            "result: Term::tuple(to, &mut makes.iter().copied()),",
            "result: match makes[..] {
                [first, second, third] => {
                    use super::terms::Form;
                    let [first, second, third] =
                        [first, second, third].map(|wire| Term::new(Form::Label(wire)));
                    let both = Term::new(Form::Pair(first, second));
                    Term::new(Form::Pair(both, third))
                }
                _ => Term::tuple(to, &mut makes.iter().copied()),
            },",
        )],
    ),
    (
        "unit takes a label at box entry",
        &[(
            "configurations",
            "let circuit = Circuit::empty(&wires(at));",
            "fn with_bits(of: &Type) -> Rc<Type> {
                Rc::new(match of {
                    Type::Unit => Type::Bit,
                    Type::Pair(first, second) => Type::Pair(with_bits(first), with_bits(second)),
                    other => other.clone(),
                })
            }
            let at = &*with_bits(at);
            let circuit = Circuit::empty(&wires(at));",
        )],
    ),
    (
        "the leaves counted at box entry, the wires at apply",
        &[
            (
                "configurations",
                "let circuit = Circuit::empty(&wires(at));",
                "let mut circuit = Circuit::empty(&wires(at));
            circuit.next = at.size().div_ceil(2);",
            ),
            (
                "circuits",
                "let mut renamed: HashMap<usize, usize> = matched.collect();",
                "let mut renamed: HashMap<usize, usize> = matched.collect();
        let base = self.next;",
            ),
            (
                "circuits",
                "renamed.insert(wire, self.next);",
                "renamed.insert(wire, base + wire - constant.inputs.len());",
            ),
        ],
    ),
    (
        "unit saved as a label at box exit",
        &[(
            "circuits",
            "result: result.clone(),",
            "result: {
                fn saved(term: &Rc<Term>) -> Rc<Term> {
                    use super::terms::Form;
                    match &term.form {
                        Form::UnitValue => Term::new(Form::Label(0)),
                        Form::Pair(first, second) => {
                            Term::new(Form::Pair(saved(first), saved(second)))
                        }
                        _ => term.clone(),
                    }
                }
                saved(result)
            },",
        )],
    ),
    (
        "unit loaded as a label at apply",
        &[(
            "terms",
            "Form::UnitValue => Term::new(Form::UnitValue),",
            "Form::UnitValue => Term::new(Form::Label(0)),",
        )],
    ),
    (
        "Init takes the newest wire",
        &[(
            "circuits",
            "let takes = placed.takes.iter().map(|wire| renamed[wire]).collect();",
            "let mut takes: Vec<usize> = placed.takes.iter().map(|wire| renamed[wire]).collect();
            if placed.gate == 9 && self.next > 0 {
                takes.push(self.next - 1);
            }",
        )],
    ),
    (
        "the wire that Init makes not counted",
        &[(
            "circuits",
            "let gate = placed.gate;",
            "let gate = placed.gate;
            if gate == 9 {
                self.next -= 1;
            }",
        )],
    ),
    (
        "Discard makes a wire",
        &[(
            "circuits",
            "let gate = placed.gate;",
            "let gate = placed.gate;
            if gate == 10 {
                self.next += 1;
            }",
        )],
    ),
    (
        "Discard takes no wire",
        &[(
            "circuits",
            "let takes = placed.takes.iter().map(|wire| renamed[wire]).collect();",
            "let takes = match placed.gate {
                10 => Vec::new(),
                _ => placed.takes.iter().map(|wire| renamed[wire]).collect(),
            };",
        )],
    ),
    (
        "unfinished with a unit in the result",
        &[(
            "configurations",
            "self.frames.len() == 1 && self.innermost().term.is_value",
            "fn has_unit(term: &Term) -> bool {
                match &term.form {
                    Form::UnitValue => true,
                    Form::Pair(first, second) => has_unit(first) || has_unit(second),
                    _ => false,
                }
            }
            let term = &self.innermost().term;
            self.frames.len() == 1 && term.is_value && !has_unit(term)",
        )],
    ),
    (
        "unit in the result listed as an output",
        &[(
            "run",
            "let frame = configuration.innermost();",
            "fn outputs(term: &Term) -> Vec<usize> {
                use super::terms::Form;
                match &term.form {
                    Form::UnitValue => vec![65_535],
                    Form::Pair(first, second) => [outputs(first), outputs(second)].concat(),
                    _ => term.labels(),
                }
            }
            let frame = configuration.innermost();",
        ), ("run", "&frame.term.labels())", "&outputs(&frame.term))")],
    ),
    (
        "a program without inputs refused",
        &[(
            "run",
            "if !of.is_wire_type() {",
            "if !of.is_wire_type() || read.labels.is_empty() {",
        )],
    ),
    (
        "a result without a wire refused",
        &[(
            "run",
            "if !of.is_wire_type() {",
            "if !of.is_wire_type() || super::circuits::wires(&of).is_empty() {",
        )],
    ),
    (
        "unit's value counts no node",
        &[(
            "terms",
            "let nodes = 1 + parts().map(|part| part.nodes).sum::<usize>();",
            "let nodes = match &form {
                Form::UnitValue => 0,
                _ => 1 + parts().map(|part| part.nodes).sum::<usize>(),
            };",
        )],
    ),
];
