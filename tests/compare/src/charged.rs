//! Answers with p and q: the library's operation, and what differs from what is expected of it.

use crate::answers::{lent, numbers};
use crate::dice::Dice;
use crate::difference::difference;
use crate::{answer, NO_ROOM, PLACES};
use second::made_up_charges::Case;
use second::{tables, Answer, Prices};

/// Both lent tables, and the places of the numbers.
#[derive(Clone)]
struct Lent {
    first: Vec<u32>,
    second: Vec<u32>,
    out: Vec<usize>,
}

impl Lent {
    /// Tables of these lengths, and so many places, filled with anything.
    fn new(lengths: (usize, usize), places: usize, dice: &mut Dice) -> Lent {
        Lent {
            first: lent(lengths.0, dice),
            second: lent(lengths.1, dice),
            out: vec![usize::MAX - dice.below(2); places],
        }
    }

    /// The same after this answer.
    fn after(&self, answer: &Answer) -> Lent {
        let mut after = self.clone();
        tables(answer, &mut after.first, &mut after.second);
        after.out[..PLACES].copy_from_slice(&numbers(answer));
        after
    }

    /// What differs from what is expected.
    fn differences(&self, what: &str, expected: &Lent) -> Vec<String> {
        vec![
            difference(&format!("{what}, numbers"), &self.out, &expected.out),
            difference(
                &format!("{what}, first table"),
                &self.first,
                &expected.first,
            ),
            difference(
                &format!("{what}, second table"),
                &self.second,
                &expected.second,
            ),
        ]
    }
}

/// The library's answer to a case: its number.
fn answer_charged(case: &Case, lent: &mut Lent) -> u32 {
    let Prices { p, q } = case.prices;
    let (p, q) = (p as usize, q as usize);
    let Lent { first, second, out } = lent;
    crate::answer_charged(&case.sheet, &case.words, p, q, first, second, out)
}

/// What differs in the answer with tables of these lengths: every number, and every word of both
/// tables. Places behind the last stay as they came. With it goes the second program's answer.
pub fn answers(case: &Case, lengths: (usize, usize), dice: &mut Dice) -> (Vec<String>, Answer) {
    let before = Lent::new(lengths, PLACES + dice.below(3), dice);
    let theirs =
        second::answer_charged(&case.sheet, &case.words, case.prices, lengths.0, lengths.1);
    let expected = before.after(&theirs);
    let mut ours = before.clone();
    let number = answer_charged(case, &mut ours);
    let mut found = vec![difference("number", &[number], &[theirs.number])];
    found.extend(ours.differences("charged", &expected));
    // where calls alone are charged it is the answer without p and q
    if case.prices == Prices::CALLS {
        let Lent {
            mut first,
            mut second,
            mut out,
        } = before;
        let number = answer(&case.sheet, &case.words, &mut first, &mut second, &mut out);
        found.push(difference("without p and q", &[number], &[theirs.number]));
        let plain = Lent { first, second, out };
        found.extend(plain.differences("without p and q", &expected));
    }
    (found, theirs)
}

/// Too few places are told before all else, and nothing is written.
pub fn without_room(case: &Case, lengths: (usize, usize), dice: &mut Dice) -> Vec<String> {
    let few = [dice.below(PLACES), PLACES - 1][dice.below(2)];
    let before = Lent::new(lengths, few, dice);
    let mut ours = before.clone();
    let number = answer_charged(case, &mut ours);
    let mut found = vec![difference("without room", &[number], &[NO_ROOM])];
    found.extend(ours.differences("without room", &before));
    found
}
