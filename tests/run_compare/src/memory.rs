//! Runs that answer as they should, with one fault each in their use of
//! memory. The comparison must find every one of them.

use evaluator::Answer;
use run_compare::interface::{is_short, name, number, pack, Lent, LEAST, LEAST_OUT, SHORT};

/// A run that is lent buffers, on a program that has this answer; its answer is
/// one number.
pub type Fault = Box<dyn Fn(&mut Lent, &Answer) -> u64>;

pub fn faults() -> Vec<(String, Fault)> {
    let mut faults: Vec<(String, Fault)> = Vec::new();
    let mut add = |name: &str, fault: Fault| faults.push((name.to_string(), fault));
    add("memory left as it was", left(|_| true));
    add("memory left after a refusal", left(|number| number > 0));
    add(
        "memory left by read",
        left(|number| (1..10).contains(&number)),
    );
    add(
        "memory left by the check",
        left(|number| (16..19).contains(&number)),
    );
    add("memory left by 20", left(|number| number == 20));
    add("memory left by 21", left(|number| number == 21));
    add("memory left by 22", left(|number| number == 22));
    add("memory left by the finish", left(|number| number == 0));
    add(
        "19 only where the file is read",
        Box::new(|lent, answer| match number(pack(answer)) {
            1..=9 => as_long(lent, answer),
            _ => as_lent(lent, answer),
        }),
    );
    add(
        "19 only where the program can be run",
        Box::new(|lent, answer| match number(pack(answer)) {
            1..=20 => as_long(lent, answer),
            _ => as_lent(lent, answer),
        }),
    );
    add(
        "output buffer touched on a refusal",
        after(|lent, number| {
            if number > 0 && number != 19 {
                lent.parts().1[0][0] ^= 1;
            }
        }),
    );
    add(
        "output buffer touched by 21",
        after(|lent, number| {
            if number == 21 {
                lent.parts().1[0][LEAST_OUT - 1] ^= 1;
            }
        }),
    );
    add(
        "output buffer cleared behind the listing",
        after_finish(|out, length| out[length..].fill(0)),
    );
    add(
        "last byte of the listing wrong",
        after_finish(|out, length| out[length - 1] ^= 1),
    );
    for (buffer, least) in LEAST.into_iter().enumerate() {
        let name = name(buffer);
        add(
            &format!("{name} of one byte less taken"),
            with_least(buffer, least - 1),
        );
        add(
            &format!("{name} of one byte more wanted"),
            with_least(buffer, least + 1),
        );
        add(
            &format!("{name} touched on 19"),
            after(move |lent, number| {
                let (bytes, place) = lent.region(buffer);
                if number == 19 && !place.is_empty() {
                    bytes[place.start] ^= 1;
                }
            }),
        );
        add(
            &format!("a byte beside {name} touched"),
            after(move |lent, _| lent.touch_beside(buffer)),
        );
        if buffer > 0 {
            add(
                &format!("{name} cleared in its least length"),
                after(move |lent, number| {
                    let (bytes, place) = lent.region(buffer);
                    if number != 19 && place.len() > least {
                        bytes[place.end - 1] = 1;
                    }
                }),
            );
            add(
                &format!("one byte of {name} left"),
                after(move |lent, number| {
                    let (bytes, place) = lent.region(buffer);
                    if number != 19 {
                        bytes[place.start + place.len() / 2] = 255;
                    }
                }),
            );
        }
    }
    faults
}

/// The buffers as they should be after this answer, and the answer as one
/// number.
fn as_lent(lent: &mut Lent, answer: &Answer) -> u64 {
    match is_short(&lent.lengths()) {
        true => pack(&SHORT),
        false => as_long(lent, answer),
    }
}

/// The same whatever the lengths.
fn as_long(lent: &mut Lent, answer: &Answer) -> u64 {
    let (_, [out, working @ ..]) = lent.parts();
    if let Answer::Finished { listing, .. } = answer {
        if let Some(start) = out.get_mut(..listing.len()) {
            start.copy_from_slice(listing);
        }
    }
    for buffer in working {
        buffer.fill(0);
    }
    pack(answer)
}

/// Working memory is left after some answers.
fn left(after: fn(u8) -> bool) -> Fault {
    Box::new(move |lent, answer| {
        if is_short(&lent.lengths()) {
            return pack(&SHORT);
        }
        if after(number(pack(answer))) {
            if let Answer::Finished { listing, .. } = answer {
                lent.parts().1[0][..listing.len()].copy_from_slice(listing);
            }
            return pack(answer);
        }
        as_lent(lent, answer)
    })
}

/// A buffer has another least length.
fn with_least(buffer: usize, least: usize) -> Fault {
    Box::new(move |lent, answer| {
        let mut lengths = lent.lengths();
        let length = &mut lengths[buffer];
        *length = match *length >= least {
            true => LEAST[buffer],
            false => 0,
        };
        match is_short(&lengths) {
            true => pack(&SHORT),
            false => as_long(lent, answer),
        }
    })
}

/// The run as it should be, and then something more.
fn after(more: impl Fn(&mut Lent, u8) + 'static) -> Fault {
    Box::new(move |lent, answer| {
        let packed = as_lent(lent, answer);
        more(lent, number(packed));
        packed
    })
}

/// The run as it should be, and then a change of the output buffer, which has
/// a listing of this length.
fn after_finish(change: fn(&mut [u8], usize)) -> Fault {
    Box::new(move |lent, answer| {
        let packed = as_lent(lent, answer);
        if let Answer::Finished { listing, .. } = answer {
            if number(packed) == 0 {
                change(lent.parts().1[0], listing.len());
            }
        }
        packed
    })
}
