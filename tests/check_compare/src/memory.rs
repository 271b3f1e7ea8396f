//! Checks that answer as they should, with one fault each in their use of
//! memory. The comparison must find every one of them.

use check_compare::library::{length, number, pack, LEAST_OUT, LEAST_WORK, SHORT};
use comparing::Lent;
use programs::check;

/// A check that is lent buffers; its answer is one number.
pub type Check = fn(&mut Lent<2>) -> u64;

pub const MEMORY: [(&str, Check); 16] = [
    ("working memory left as it was", |lent| {
        with(lent, LEAST_OUT, LEAST_WORK, Clears::Nothing)
    }),
    ("working memory left after a refusal", |lent| {
        with(lent, LEAST_OUT, LEAST_WORK, Clears::Accepted)
    }),
    ("working memory left after a refusal by read", |lent| {
        with(lent, LEAST_OUT, LEAST_WORK, Clears::Read)
    }),
    ("working memory cleared in its least length", |lent| {
        with(lent, LEAST_OUT, LEAST_WORK, Clears::Least)
    }),
    ("working memory of one byte less taken", |lent| {
        with(lent, LEAST_OUT, LEAST_WORK - 1, Clears::All)
    }),
    ("working memory of one byte more wanted", |lent| {
        with(lent, LEAST_OUT, LEAST_WORK + 1, Clears::All)
    }),
    ("output buffer of one byte less taken", |lent| {
        with(lent, LEAST_OUT - 1, LEAST_WORK, Clears::All)
    }),
    ("output buffer of one byte more wanted", |lent| {
        with(lent, LEAST_OUT + 1, LEAST_WORK, Clears::All)
    }),
    ("any buffer taken by read", after_read),
    ("a buffer touched on 19", |lent| {
        after(lent, |lent, packed| {
            if number(packed) == 19 {
                let (_, [out, work]) = lent.parts();
                if let Some(byte) = out.first_mut().or(work.first_mut()) {
                    *byte ^= 1;
                }
            }
        })
    }),
    ("output buffer touched on a refusal", |lent| {
        after(lent, |lent, packed| {
            if number(packed) >= 16 && number(packed) != 19 {
                lent.parts().1[0][0] ^= 1;
            }
        })
    }),
    ("output buffer cleared behind the type", |lent| {
        after(lent, |lent, packed| {
            if number(packed) == 0 {
                lent.parts().1[0][length(packed)..].fill(0);
            }
        })
    }),
    ("one byte of the type missing", |lent| {
        after(lent, |lent, packed| {
            if number(packed) == 0 {
                lent.parts().1[0][length(packed) - 1] ^= 8;
            }
        })
    }),
    ("a byte beside the output buffer touched", |lent| {
        after(lent, |lent, _| lent.touch_beside(0))
    }),
    ("a byte beside the working memory touched", |lent| {
        after(lent, |lent, _| lent.touch_beside(1))
    }),
    ("a byte of the file touched", |lent| {
        after(lent, |lent, _| lent.touch_file())
    }),
];

/// After which answers working memory is cleared.
#[derive(Clone, Copy, PartialEq, Eq)]
enum Clears {
    All,
    Nothing,
    Accepted,
    Read,
    Least,
}

/// The check with these least lengths.
fn with(lent: &mut Lent<2>, least_out: usize, least_work: usize, clears: Clears) -> u64 {
    let (file, [out, work]) = lent.parts();
    if out.len() < least_out || work.len() < least_work {
        return pack(&Err(SHORT));
    }
    let answer = check(file);
    let number = answer.as_ref().err().map(|refusal| refusal.number);
    if let Ok(of) = &answer {
        let bytes = of.preorder();
        if bytes.len() <= out.len() {
            out[..bytes.len()].copy_from_slice(&bytes);
        }
    }
    let least = work.len().min(LEAST_WORK);
    match clears {
        Clears::Nothing => {}
        Clears::Accepted if number.is_some() => {}
        Clears::Read if number.is_some_and(|number| number < 10) => {}
        Clears::Least => work[..least].fill(0),
        _ => work.fill(0),
    }
    pack(&answer)
}

/// The check as it should be, and then something more.
fn after(lent: &mut Lent<2>, more: fn(&mut Lent<2>, u64)) -> u64 {
    let packed = with(lent, LEAST_OUT, LEAST_WORK, Clears::All);
    more(lent, packed);
    packed
}

/// 19 only for a file that is read.
fn after_read(lent: &mut Lent<2>) -> u64 {
    match program_files::read(lent.file()) {
        Err(refusal) => {
            lent.parts().1[1].fill(0);
            pack(&Err(refusal))
        }
        Ok(_) => with(lent, LEAST_OUT, LEAST_WORK, Clears::All),
    }
}
