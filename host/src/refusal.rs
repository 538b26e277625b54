//! The causes of refusals.

use std::fmt;

/// Why a call refuses, by the specification's numbers.
#[derive(Clone, Copy, Debug, PartialEq, Eq)]
pub enum Refusal {
    Form = 1,
    Name = 2,
    Range = 3,
    Levels = 11,
    Shape = 4,
    Date = 12,
    Horizon = 5,
    Segments = 6,
    Length = 7,
    Scratch = 8,
    NoSchedule = 9,
    NotKept = 10,
}

impl Refusal {
    /// In the order in which causes are given.
    pub const ALL: [Refusal; 12] = [
        Refusal::Form,
        Refusal::Name,
        Refusal::Range,
        Refusal::Levels,
        Refusal::Shape,
        Refusal::Date,
        Refusal::Horizon,
        Refusal::Segments,
        Refusal::Length,
        Refusal::Scratch,
        Refusal::NoSchedule,
        Refusal::NotKept,
    ];

    pub fn number(self) -> u64 {
        self as u64
    }

    /// Whether this cause is given where both hold.
    pub fn precedes(self, other: Refusal) -> bool {
        let place = |refusal| Refusal::ALL.iter().position(|r| *r == refusal);
        place(self) < place(other)
    }

    pub(crate) fn from_number(number: u64) -> Refusal {
        *Refusal::ALL
            .iter()
            .find(|refusal| refusal.number() == number)
            .expect("the library gives numbers from 1 to 12")
    }

    pub fn meaning(self) -> &'static str {
        match self {
            Refusal::Form => "the text is too long, or a line is not of the form",
            Refusal::Name => "a name is unknown, repeated or missing",
            Refusal::Range => "a value or a count of entries is outside its range",
            Refusal::Levels => "the levels do not rise strictly",
            Refusal::Shape => "pmin is over pmax, or pmax times block is over 500 MW",
            Refusal::Date => "the date does not exist",
            Refusal::Horizon => "there are no prices, or more than a case may have",
            Refusal::Segments => "the segments' MW do not add up",
            Refusal::Length => "a slice is too short, or lists are of unequal length",
            Refusal::Scratch => "the scratch is shorter than the case needs",
            Refusal::NoSchedule => "no schedule keeps the case",
            Refusal::NotKept => "the schedule handed in does not keep the case",
        }
    }
}

impl fmt::Display for Refusal {
    fn fmt(&self, f: &mut fmt::Formatter) -> fmt::Result {
        write!(f, "refused, {}: {}", self.number(), self.meaning())
    }
}

impl std::error::Error for Refusal {}
