//! How often each refusal number was given in each call.

use super::{Answer, Asks, Call, Question, Reply};
use crate::model::refusal::LAST;
use crate::model::walk::is_final;

/// The columns of the table.
pub const CALLS: [Call; 9] = [
    Call::Find,
    Call::Lookup,
    Call::Index,
    Call::Count,
    Call::Copy,
    Call::Walk,
    Call::Examine,
    Call::Open,
    Call::List,
];

#[derive(Default)]
pub struct Refusals {
    given: [[u64; CALLS.len()]; LAST as usize + 1],
}

impl Refusals {
    /// An answer that a walk's state brought along and is given again was not reached here.
    pub fn count(&mut self, question: &Question, reply: &Reply) {
        let again = matches!(&question.asks, Asks::Walk { state, .. } if is_final(state.last));
        let column = column(question.call()).filter(|_| !again);
        if let (Some(column), Some(number)) = (column, refused(&reply.answer)) {
            self.given[number as usize][column] += 1;
        }
    }

    fn of(&self, number: u8, call: Call) -> u64 {
        column(call).map_or(0, |column| self.given[number as usize][column])
    }

    /// Prints the columns of these calls; false if a refusal that can occur was never reached, or
    /// one that cannot occur was.
    pub fn print(&self, calls: &[Call]) -> bool {
        let names = calls.iter().map(|call| format!("{:>9}", call.name()));
        println!("refusal{}", names.collect::<String>());
        let mut good = true;
        for number in 1..=LAST {
            let mut row = format!("{number:>7}");
            for &call in calls {
                let (can, reached) = (can_occur(number, call), self.of(number, call));
                good &= can == (reached > 0);
                row += &cell(can, reached);
            }
            println!("{row}");
        }
        good
    }
}

/// The number of a refusal; a listing says it in words.
fn refused(answer: &Answer) -> Option<u8> {
    match answer {
        Answer::Refused(refusal) => Some(refusal.0),
        Answer::Text(text) => {
            let number = text.strip_prefix("refused ")?.trim_end().parse().ok()?;
            (1..=LAST).contains(&number).then_some(number)
        }
        _ => None,
    }
}

fn column(call: Call) -> Option<usize> {
    CALLS.iter().position(|&c| c == call)
}

/// `-` where the refusal cannot occur and did not; `EMPTY` where it can and did not.
fn cell(can_occur: bool, reached: u64) -> String {
    match (can_occur, reached) {
        (false, 0) => format!("{:>9}", "-"),
        (true, 0) => format!("{:>9}", "EMPTY"),
        _ => format!("{reached:>9}"),
    }
}

/// Whether a call can be refused with a number.
///
/// Opening alone takes an edition and reads no page: 1 to 4. Every other call reads metadata
/// pages, to find an id or a root, so 5 to 11 occur in each: the count's own page is at depth 1,
/// but the metadata that holds its root may be too deep. 12 belongs to examination and walk. Only
/// finding a name asks for one: 13. An id that is no number meets the finding, a root that is no
/// number all calls that take an id: 14. 15 is the index's, 16 the copy's. The listing's edition,
/// name and kind are fixed and its id is one that was found: all of 2 to 14.
fn can_occur(number: u8, call: Call) -> bool {
    match number {
        2..=4 => true,
        1 => call != Call::List,
        5..=11 | 14 => call != Call::Open,
        12 => matches!(call, Call::Walk | Call::Examine | Call::List),
        13 => matches!(call, Call::Find | Call::List),
        15 => call == Call::Index,
        16 => call == Call::Copy,
        _ => false,
    }
}
