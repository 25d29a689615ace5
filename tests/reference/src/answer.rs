//! What a call gives back.

use crate::boxes::MathBox;
use crate::reasons::{Decided, Reasons};

/// A refusal has its number and place; its sizes and count are 0.
#[derive(Clone, Copy, Debug, Default, PartialEq, Eq)]
pub struct Answer {
    pub number: u8,
    pub place: u64,
    pub width: i64,
    pub height: i64,
    pub depth: i64,
    pub count: u64,
}

impl Answer {
    pub(crate) fn accepted(formula_box: &MathBox, count: usize) -> Answer {
        Answer {
            number: 0,
            place: 0,
            width: formula_box.width,
            height: formula_box.height,
            depth: formula_box.depth,
            count: count as u64,
        }
    }
}

/// Why a formula is refused, in the order tested; a place counts the formula's bytes from 0.
#[derive(Clone, Copy, Debug, PartialEq, Eq)]
pub(crate) enum Refusal {
    Style,
    Table,
    Client,
    Index,
    Unreadable(usize),
    TooDeep(usize),
    Absent(usize),
    Size,
    Room,
    Unexplained,
}

impl From<Refusal> for Answer {
    fn from(refusal: Refusal) -> Answer {
        let (number, place) = match refusal {
            Refusal::Style => (1, 0),
            Refusal::Table => (2, 0),
            Refusal::Client => (8, 0),
            Refusal::Index => (19, 0),
            Refusal::Unreadable(place) => (3, place),
            Refusal::TooDeep(place) => (4, place),
            Refusal::Absent(place) => (5, place),
            Refusal::Size => (6, 0),
            Refusal::Room => (7, 0),
            Refusal::Unexplained => (9, 0),
        };
        Answer {
            number,
            place: place as u64,
            ..Answer::default()
        }
    }
}

/// What a call gives back that converts bytes: a refusal has its number and
/// place, and writes no bytes.
#[derive(Clone, Copy, Debug, Default, PartialEq, Eq)]
pub struct Converted {
    pub number: u8,
    pub place: u64,
    pub bytes: u64,
}

impl Converted {
    pub(crate) fn refused(number: u8, place: usize) -> Converted {
        Converted {
            number,
            place: place as u64,
            bytes: 0,
        }
    }

    /// Writes the result to the front of the room, or refuses with the number
    /// if there is too little.
    pub(crate) fn put(result: &[u8], room: &mut [u8], no_room: u8) -> Converted {
        let Some(front) = room.get_mut(..result.len()) else {
            return Converted::refused(no_room, 0);
        };
        front.copy_from_slice(result);
        Converted {
            bytes: result.len() as u64,
            ..Converted::default()
        }
    }
}

/// What the call gives back that asks for an item's reasons; a refusal has no
/// shifts.
#[derive(Clone, Copy, Debug, PartialEq, Eq)]
pub struct Explanation {
    pub number: u8,
    pub place: u64,
    pub up: Option<Decided>,
    pub down: Option<Decided>,
}

impl From<Result<Reasons, Refusal>> for Explanation {
    fn from(found: Result<Reasons, Refusal>) -> Explanation {
        let (answer, reasons) = match found {
            Ok(reasons) => (Answer::default(), reasons),
            Err(refusal) => (refusal.into(), Reasons::default()),
        };
        Explanation {
            number: answer.number,
            place: answer.place,
            up: reasons.up,
            down: reasons.down,
        }
    }
}
