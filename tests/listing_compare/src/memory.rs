//! Checks that answer as they should, with one fault each in their use of
//! memory. The comparison must find every one of them.

use comparing::packed::{number, SHORT};
use comparing::Lent;
use listing_compare::under_test::LEAST_WORK;
use listings::{answer, counting};

/// A check that is lent working memory; its answer is one number.
pub type Check = fn(&mut Lent<1>) -> u64;

pub const MEMORY: [(&str, Check); 14] = [
    ("working memory left as it was", |lent| left(lent, |_| true)),
    ("working memory left after a refusal", |lent| {
        left(lent, |number| number > 0)
    }),
    ("working memory left by 24", |lent| {
        left(lent, |number| number == 24)
    }),
    ("working memory left by 25", |lent| {
        left(lent, |number| number == 25)
    }),
    ("working memory left by 26", |lent| {
        left(lent, |number| number == 26)
    }),
    ("working memory left if accepted", |lent| {
        left(lent, |number| number == 0)
    }),
    ("working memory cleared in its least length", |lent| {
        after(lent, |lent, number| {
            let (bytes, place) = lent.region(0);
            if number != 19 && place.len() > LEAST_WORK {
                bytes[place.end - 1] = 1;
            }
        })
    }),
    ("one byte of the working memory left", |lent| {
        after(lent, |lent, number| {
            if number != 19 {
                lent.parts().1[0][LEAST_WORK - 1] = 255;
            }
        })
    }),
    ("working memory of one byte less taken", |lent| {
        with_least(lent, LEAST_WORK - 1)
    }),
    ("working memory of one byte more wanted", |lent| {
        with_least(lent, LEAST_WORK + 1)
    }),
    ("19 only where the sizes are right", after_sizes),
    ("working memory touched on 19", |lent| {
        after(lent, |lent, number| {
            if let (19, Some(byte)) = (number, lent.parts().1[0].last_mut()) {
                *byte ^= 1;
            }
        })
    }),
    ("a byte beside the working memory touched", |lent| {
        after(lent, |lent, _| lent.touch_beside(0))
    }),
    ("a byte of the listing touched", |lent| {
        after(lent, |lent, _| lent.touch_file())
    }),
];

/// The check with this least length.
fn with_least(lent: &mut Lent<1>, least: usize) -> u64 {
    let (listing, [work]) = lent.parts();
    if work.len() < least {
        return answer::pack(&Err(SHORT));
    }
    work.fill(0);
    answer::pack(&counting::check(listing))
}

/// The check as it should be, and then something more.
fn after(lent: &mut Lent<1>, more: fn(&mut Lent<1>, u8)) -> u64 {
    let packed = with_least(lent, LEAST_WORK);
    more(lent, number(packed));
    packed
}

/// Working memory is left after some answers.
fn left(lent: &mut Lent<1>, after: fn(u8) -> bool) -> u64 {
    let packed = answer::pack(&counting::check(lent.file()));
    match after(number(packed)) && lent.lengths()[0] >= LEAST_WORK {
        true => packed,
        false => with_least(lent, LEAST_WORK),
    }
}

/// 24 before 19.
fn after_sizes(lent: &mut Lent<1>) -> u64 {
    let packed = answer::pack(&counting::check(lent.file()));
    match number(packed) {
        24 => with_least(lent, 0),
        _ => with_least(lent, LEAST_WORK),
    }
}
