//! The faults that are planted in what the evaluator does with boxes alone, so that
//! a program with a box and one without it must tell them.

use crate::faults::Edit;

/// The circuit of a box is changed where it is applied: `constant` is a copy of it.
macro_rules! of_a_box {
    ($change:literal) => {
        &[(
            "configurations",
            "Form::Constant(constant) => constant.clone(),",
            concat!(
                "Form::Constant(constant) => {
                let mut constant = (**constant).clone();
                ",
                $change,
                "
                Rc::new(constant)
            }"
            ),
        )]
    };
}

pub const BOXING: &[(&str, &[Edit])] = &[
    (
        "a circuit's gates listed before those of its argument",
        &[
            (
                "circuits",
                "pub result: Rc<Term>,",
                "pub result: Rc<Term>,
                pub before: Option<usize>,",
            ),
            (
                "circuits",
                "result: result.clone(),",
                "result: result.clone(),
                before: None,",
            ),
            (
                "circuits",
                "gates: vec![Placed { gate, takes, makes }],",
                "gates: vec![Placed { gate, takes, makes }],
                before: None,",
            ),
            (
                "circuits",
                "for placed in &constant.gates {",
                "for (number, placed) in constant.gates.iter().enumerate() {",
            ),
            (
                "circuits",
                "self.gates.push(Placed { gate, takes, makes });",
                "let last = self.gates.len();
                let at = constant.before.map_or(last, |before| last.min(before + number));
                self.gates.insert(at, Placed { gate, takes, makes });",
            ),
            (
                "configurations",
                "let constant = Rc::new(top.circuit.close(&top.term));",
                "let mut constant = top.circuit.close(&top.term);
                constant.before = Some(below.circuit.gates.len());
                let constant = Rc::new(constant);",
            ),
        ],
    ),
    (
        "the wires made in a box counted in the circuit around",
        &[(
            "configurations",
            r#"let below = self.frames.last_mut().expect("a frame below");"#,
            r#"let below = self.frames.last_mut().expect("a frame below");
            below.circuit.next += top.circuit.next - top.circuit.inputs.len();"#,
        )],
    ),
    (
        "the inputs of a box's circuit matched right to left",
        of_a_box!("constant.inputs.reverse();"),
    ),
    (
        "the inputs of a box's circuit matched in the order of their wires",
        of_a_box!(
            "let labels = argument.labels();
            let before = |label: &usize| labels.iter().filter(|&other| other < label).count();
            let inputs = labels.iter().map(|label| constant.inputs[before(label)]);
            constant.inputs = inputs.collect();"
        ),
    ),
    (
        "the result of a box's circuit in the order of its wires",
        of_a_box!(
            "let labels = constant.result.labels();
            let mut sorted = labels.clone();
            sorted.sort_unstable();
            constant.result = constant.result.relabelled(&|wire| {
                let at = labels.iter().position(|&label| label == wire);
                at.map_or(wire, |at| sorted[at])
            });"
        ),
    ),
    (
        "Init first in a box's circuit",
        of_a_box!("constant.gates.sort_by_key(|placed| placed.gate != 9);"),
    ),
    (
        "Discard lost in a box's circuit",
        of_a_box!("constant.gates.retain(|placed| placed.gate != 10);"),
    ),
    (
        "the wires of a gate numbered right to left in a box's circuit",
        of_a_box!(
            "for placed in &mut constant.gates {
                placed.makes.reverse();
            }"
        ),
    ),
    (
        "the last two wires of CCX exchanged in a box's circuit",
        of_a_box!(
            "for placed in &mut constant.gates {
                if placed.gate == 11 {
                    placed.takes.swap(1, 2);
                }
            }"
        ),
    ),
    (
        "a box gives the circuit of an earlier one of its type and size",
        &[
            (
                "configurations",
                "pub closed: Vec<Rc<Boxed>>,",
                "pub closed: Vec<Rc<Boxed>>,
                pub known: Vec<(Type, usize, Rc<Boxed>)>,",
            ),
            (
                "configurations",
                "closed: Vec::new(),",
                "closed: Vec::new(),
                known: Vec::new(),",
            ),
            (
                "configurations",
                "return self.box_entry(at, function);",
                "let mut known = self.known.iter();
                let known = known.find(|(of, nodes, _)| *of == **at && *nodes == function.nodes);
                if let Some((_, _, constant)) = known {
                    frame.term = context.plug(Term::new(Form::Constant(constant.clone())));
                    return self;
                }
                return self.box_entry(at, function);",
            ),
            (
                "configurations",
                r#"let (context, _) = redex(&below.term).expect("a box that was entered");"#,
                r#"let (context, entered) = redex(&below.term).expect("a box that was entered");
                if let Form::Box(at, lift) = &entered.form {
                    self.known.push(((**at).clone(), lift.nodes - 1, constant.clone()));
                }"#,
            ),
        ],
    ),
    (
        "an argument evaluated where the abstraction uses it",
        &[(
            "contexts",
            "} else if !second.is_value {",
            "} else if !second.is_value && !matches!(term.form, Form::Application(..)) {",
        )],
    ),
];
