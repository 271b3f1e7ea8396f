//! A reader of OpenQASM 2.0 by the language's own grammar, as far as texts of
//! listings use it: tokens and comments, the version, an include, declarations
//! of registers, gates of qelib1.inc, measurements and conditions. Spaces and
//! line ends part tokens and mean nothing else.

use std::collections::BTreeMap;

/// What a program declares and does, in order.
#[derive(Clone, PartialEq, Eq, Default, Debug)]
pub struct Program {
    pub registers: Vec<Register>,
    pub operations: Vec<Operation>,
}

#[derive(Clone, PartialEq, Eq, Debug)]
pub struct Register {
    pub name: String,
    pub of: Of,
    pub size: u64,
}

/// What a register holds.
#[derive(Clone, Copy, PartialEq, Eq, Debug)]
pub enum Of {
    Qubits,
    Bits,
}

/// An element of a register.
#[derive(Clone, PartialEq, Eq, Debug)]
pub struct Element {
    pub register: String,
    pub index: u64,
}

/// A gate or a measurement, under a condition or under none.
#[derive(Clone, PartialEq, Eq, Debug)]
pub struct Operation {
    pub condition: Option<Condition>,
    pub action: Action,
}

/// A whole register of bits has this value.
#[derive(Clone, PartialEq, Eq, Debug)]
pub struct Condition {
    pub register: String,
    pub value: u64,
}

#[derive(Clone, PartialEq, Eq, Debug)]
pub enum Action {
    Gate(String, Vec<Element>),
    Measure(Element, Element),
}

/// The gates of qelib1.inc that are used, and on how many qubits each is.
const LIBRARY: [(&str, usize); 7] = [
    ("h", 1),
    ("x", 1),
    ("z", 1),
    ("s", 1),
    ("t", 1),
    ("cx", 2),
    ("ccx", 3),
];

/// Names that no register can have, those of the gates beside.
const KEYWORDS: [&str; 16] = [
    "barrier", "cos", "creg", "exp", "gate", "if", "include", "ln", "measure", "opaque", "pi",
    "qreg", "reset", "sin", "sqrt", "tan",
];

/// The program of a text, or what is wrong with it.
pub fn read(text: &[u8]) -> Result<Program, String> {
    let mut reader = Reader {
        tokens: tokens(text)?,
        at: 0,
        program: Program::default(),
        known: BTreeMap::new(),
        gates: BTreeMap::new(),
    };
    reader.program()?;
    Ok(reader.program)
}

#[derive(Clone, PartialEq, Eq, Debug)]
enum Token {
    Word(String),
    Integer(u64),
    /// As it is written.
    Real(String),
    Text(String),
    Sign(&'static str),
}

/// Signs, each before those that it starts with.
const SIGNS: [&str; 8] = ["->", "==", ";", ",", "[", "]", "(", ")"];

fn tokens(text: &[u8]) -> Result<Vec<Token>, String> {
    let text = std::str::from_utf8(text).map_err(|error| error.to_string())?;
    let mut rest = text;
    let mut tokens = Vec::new();
    loop {
        rest = rest.trim_start_matches([' ', '\t', '\r', '\n']);
        let Some(first) = rest.chars().next() else {
            return Ok(tokens);
        };
        if rest.starts_with("//") {
            rest = rest.find('\n').map_or("", |end| &rest[end..]);
            continue;
        }
        let (token, length) = match first {
            'a'..='z' | 'A'..='Z' => word(rest),
            '0'..='9' => number(rest)?,
            '"' => quoted(rest)?,
            _ => sign(rest)?,
        };
        tokens.push(token);
        rest = &rest[length..];
    }
}

/// The length of the characters with which a text starts that are so.
fn span(text: &str, so: impl Fn(char) -> bool) -> usize {
    text.find(|character| !so(character)).unwrap_or(text.len())
}

fn word(text: &str) -> (Token, usize) {
    let length = span(text, |character| {
        character.is_ascii_alphanumeric() || character == '_'
    });
    (Token::Word(text[..length].to_string()), length)
}

/// A real has a point, an integer none and no leading zero.
fn number(text: &str) -> Result<(Token, usize), String> {
    let digits = |text: &str| span(text, |character| character.is_ascii_digit());
    let length = digits(text);
    if let Some(behind) = text[length..].strip_prefix('.') {
        let length = length + 1 + digits(behind);
        return Ok((Token::Real(text[..length].to_string()), length));
    }
    let written = &text[..length];
    let value = written
        .parse()
        .map_err(|_| format!("the number {written}"))?;
    match length > 1 && written.starts_with('0') {
        true => Err(format!("the leading zero of {written}")),
        false => Ok((Token::Integer(value), length)),
    }
}

fn quoted(text: &str) -> Result<(Token, usize), String> {
    let inside = &text[1..];
    let length = inside.find('"').ok_or("a quoted text without end")?;
    Ok((Token::Text(inside[..length].to_string()), length + 2))
}

fn sign(text: &str) -> Result<(Token, usize), String> {
    let sign = SIGNS.into_iter().find(|sign| text.starts_with(sign));
    let sign = sign.ok_or_else(|| format!("the character {:?}", text.chars().next()))?;
    Ok((Token::Sign(sign), sign.len()))
}

struct Reader {
    tokens: Vec<Token>,
    at: usize,
    program: Program,
    /// The registers by their names.
    known: BTreeMap<String, (Of, u64)>,
    /// The gates that an include has defined.
    gates: BTreeMap<&'static str, usize>,
}

impl Reader {
    /// `mainprogram`: the version, then statements.
    fn program(&mut self) -> Result<(), String> {
        self.keyword("OPENQASM")?;
        match self.next()? {
            Token::Real(version) if version == "2.0" => self.sign(";")?,
            other => return Err(format!("{other:?} as the version")),
        }
        while self.at < self.tokens.len() {
            self.statement()?;
        }
        Ok(())
    }

    fn next(&mut self) -> Result<Token, String> {
        let token = self.tokens.get(self.at).ok_or("the end in a statement")?;
        self.at += 1;
        Ok(token.clone())
    }

    fn sign(&mut self, sign: &str) -> Result<(), String> {
        match self.next()? {
            Token::Sign(other) if other == sign => Ok(()),
            other => Err(format!("{other:?} in place of {sign}")),
        }
    }

    /// Whether this sign comes next; it is read if so.
    fn has_sign(&mut self, sign: &str) -> bool {
        let has = matches!(self.tokens.get(self.at), Some(Token::Sign(other)) if *other == sign);
        self.at += usize::from(has);
        has
    }

    fn word(&mut self) -> Result<String, String> {
        match self.next()? {
            Token::Word(word) => Ok(word),
            other => Err(format!("{other:?} in place of a word")),
        }
    }

    fn keyword(&mut self, keyword: &str) -> Result<(), String> {
        match self.word()? {
            word if word == keyword => Ok(()),
            word => Err(format!("{word} in place of {keyword}")),
        }
    }

    fn integer(&mut self) -> Result<u64, String> {
        match self.next()? {
            Token::Integer(value) => Ok(value),
            other => Err(format!("{other:?} in place of a number")),
        }
    }

    /// `id`: it starts with a small letter.
    fn id(&mut self) -> Result<String, String> {
        match self.word()? {
            word if KEYWORDS.contains(&word.as_str()) => Err(format!("{word} as a name")),
            word if word.starts_with(|first: char| first.is_ascii_lowercase()) => Ok(word),
            word => Err(format!("the name {word}")),
        }
    }

    fn statement(&mut self) -> Result<(), String> {
        let word = self.word()?;
        match word.as_str() {
            "include" => self.include(),
            "qreg" => self.declaration(Of::Qubits),
            "creg" => self.declaration(Of::Bits),
            "if" => {
                let condition = self.condition()?;
                let word = self.word()?;
                self.operation(Some(condition), word)
            }
            _ => self.operation(None, word),
        }
    }

    fn include(&mut self) -> Result<(), String> {
        match self.next()? {
            Token::Text(file) if file == "qelib1.inc" => {
                for (name, _) in LIBRARY {
                    let free = !self.known.contains_key(name) && !self.gates.contains_key(name);
                    free.then_some(()).ok_or(format!("{name} defined again"))?;
                }
                self.gates.extend(LIBRARY);
                self.sign(";")
            }
            other => Err(format!("{other:?} included")),
        }
    }

    /// `decl`: a name that nothing else has, and a size.
    fn declaration(&mut self, of: Of) -> Result<(), String> {
        let name = self.id()?;
        self.sign("[")?;
        let size = self.integer()?;
        self.sign("]")?;
        self.sign(";")?;
        if size == 0 || self.gates.contains_key(name.as_str()) {
            return Err(format!("the register {name} of size {size}"));
        }
        if self.known.insert(name.clone(), (of, size)).is_some() {
            return Err(format!("{name} declared twice"));
        }
        self.program.registers.push(Register { name, of, size });
        Ok(())
    }

    /// `if ( id == nninteger )`, of a whole register of bits.
    fn condition(&mut self) -> Result<Condition, String> {
        self.sign("(")?;
        let register = self.id()?;
        self.sign("==")?;
        let value = self.integer()?;
        self.sign(")")?;
        match self.known.get(&register) {
            Some((Of::Bits, size)) if *size >= 64 || value >> size == 0 => {
                Ok(Condition { register, value })
            }
            other => Err(format!("a condition {register} == {value} on {other:?}")),
        }
    }

    /// `qop`: a measurement or a gate.
    fn operation(&mut self, condition: Option<Condition>, word: String) -> Result<(), String> {
        let action = match word.as_str() {
            "measure" => {
                let from = self.element(Of::Qubits)?;
                self.sign("->")?;
                Action::Measure(from, self.element(Of::Bits)?)
            }
            _ => self.gate(word)?,
        };
        self.sign(";")?;
        self.program
            .operations
            .push(Operation { condition, action });
        Ok(())
    }

    /// As many qubits as the gate is on, no two of them the same.
    fn gate(&mut self, name: String) -> Result<Action, String> {
        let Some(&count) = self.gates.get(name.as_str()) else {
            return Err(format!("the gate {name}"));
        };
        let mut qubits = vec![self.element(Of::Qubits)?];
        while self.has_sign(",") {
            let qubit = self.element(Of::Qubits)?;
            if qubits.contains(&qubit) {
                return Err(format!("{qubit:?} twice in {name}"));
            }
            qubits.push(qubit);
        }
        match qubits.len() == count {
            true => Ok(Action::Gate(name, qubits)),
            false => Err(format!("{name} on {} qubits", qubits.len())),
        }
    }

    /// `argument`: an element of a register of this kind, or the whole of one
    /// that has one.
    fn element(&mut self, needs: Of) -> Result<Element, String> {
        let register = self.id()?;
        let Some(&(of, size)) = self.known.get(&register) else {
            return Err(format!("{register} is not declared"));
        };
        let index = match self.has_sign("[") {
            true => {
                let index = self.integer()?;
                self.sign("]")?;
                index
            }
            false if size == 1 => 0,
            false => return Err(format!("the whole of {register}")),
        };
        match of == needs && index < size {
            true => Ok(Element { register, index }),
            false => Err(format!("{register}[{index}] of {size} {of:?}")),
        }
    }
}
