//! Operations that answer as they should, with one fault each in their use of
//! memory. The comparison must find every one of them.

use comparing::packed::{number, SHORT};
use comparing::Lent;
use qasm::answer::{self, Answer};
use qasm::lengths;

/// What an operation answers, and the least lengths of its buffers, the output
/// buffer first.
pub struct Operation<const N: usize> {
    answer: fn(&[u8]) -> Answer,
    pub least: [usize; N],
}

pub const EXPORT: Operation<2> = Operation {
    answer: qasm::export,
    least: lengths::EXPORT,
};

pub const IMPORT: Operation<5> = Operation {
    answer: qasm::import,
    least: lengths::IMPORT,
};

/// A fault, most of them in one of the buffers.
#[derive(Clone, Copy)]
pub enum Fault {
    /// Left as it was.
    Left(usize),
    /// The same after this answer alone.
    LeftBy(u8, usize),
    /// Cleared in its least length alone.
    LeastCleared(usize),
    /// The last byte of its least length not cleared.
    ByteLeft(usize),
    OneLessTaken(usize),
    OneMoreWanted(usize),
    TouchedOn19(usize),
    Beside(usize),
    Input,
    LateShort,
    OutOnRefusal,
    OutBehind,
    OutCleared,
    LastNotWritten,
}

/// Every fault, for buffers of these names and for these refusals.
pub fn faults(names: &[&str], refusals: &[u8]) -> Vec<(String, Fault)> {
    let mut faults = Vec::new();
    let mut plant = |name: String, fault: Fault| faults.push((name, fault));
    for (at, name) in names.iter().enumerate() {
        plant(
            format!("{name} of one byte less taken"),
            Fault::OneLessTaken(at),
        );
        plant(
            format!("{name} of one byte more wanted"),
            Fault::OneMoreWanted(at),
        );
        plant(format!("{name} touched on 19"), Fault::TouchedOn19(at));
        plant(format!("a byte beside {name} touched"), Fault::Beside(at));
        if at > 0 {
            plant(format!("{name} left as it was"), Fault::Left(at));
            plant(
                format!("{name} cleared in its least length"),
                Fault::LeastCleared(at),
            );
            plant(format!("one byte of {name} left"), Fault::ByteLeft(at));
            plant(format!("{name} left after a success"), Fault::LeftBy(0, at));
            for &number in refusals {
                plant(
                    format!("{name} left by {number}"),
                    Fault::LeftBy(number, at),
                );
            }
        }
    }
    plant("a byte of the input touched".to_string(), Fault::Input);
    plant("other refusals before 19".to_string(), Fault::LateShort);
    plant(
        "a refusal changes the output buffer".to_string(),
        Fault::OutOnRefusal,
    );
    plant(
        "a byte behind the output changed".to_string(),
        Fault::OutBehind,
    );
    plant(
        "the output buffer cleared behind".to_string(),
        Fault::OutCleared,
    );
    plant(
        "the last byte not written".to_string(),
        Fault::LastNotWritten,
    );
    faults
}

/// The operation with this fault.
pub fn perform<const N: usize>(of: &Operation<N>, fault: Fault, lent: &mut Lent<N>) -> u64 {
    let mut least = of.least;
    match fault {
        Fault::OneLessTaken(at) => least[at] -= 1,
        Fault::OneMoreWanted(at) => least[at] += 1,
        _ => {}
    }
    let mut answer = (of.answer)(lent.file());
    let mut both = lent.lengths().into_iter().zip(least);
    let late = matches!(fault, Fault::LateShort) && answer.is_err();
    if both.any(|(length, least)| length < least) && !late {
        answer = Err(SHORT);
    }
    let packed = answer::pack(&answer);
    let number = number(packed);
    match fault {
        Fault::Beside(at) => lent.touch_beside(at),
        Fault::Input => lent.touch_file(),
        _ => {}
    }
    let (_, mut buffers) = lent.parts();
    if number == 19 {
        if let Fault::TouchedOn19(at) = fault {
            buffers[at].iter_mut().take(1).for_each(|byte| *byte ^= 1);
        }
        return packed;
    }
    for (at, buffer) in buffers.iter_mut().enumerate().skip(1) {
        match fault {
            Fault::Left(of) if of == at => {}
            Fault::LeftBy(by, of) if of == at && by == number => {}
            Fault::LeastCleared(of) if of == at => buffer[..least[at]].fill(0),
            Fault::ByteLeft(of) if of == at => {
                buffer.fill(0);
                buffer[least[at] - 1] = 1;
            }
            _ => buffer.fill(0),
        }
    }
    let out = &mut buffers[0];
    let written = answer.unwrap_or_default();
    let count = match fault {
        Fault::LastNotWritten => written.len().saturating_sub(1),
        _ => written.len(),
    };
    // Where one byte less is taken, what is written may not fit.
    let count = count.min(out.len());
    out[..count].copy_from_slice(&written[..count]);
    match fault {
        Fault::OutOnRefusal if number > 0 && !out.is_empty() => out[0] ^= 1,
        Fault::OutBehind if number == 0 && count < out.len() => out[count] ^= 1,
        Fault::OutCleared if number == 0 => out[count..].fill(0),
        _ => {}
    }
    packed
}
