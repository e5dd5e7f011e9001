//! Room and calls for a program: what it needs, found by search, and budgets around that.

use super::chance::Chance;
use crate::meaning::{frame, run, Ending, Outcome};
use crate::units::{Unit, Word};

pub const MOST_ROOM: Word = 65_536;
pub const MOST_CALLS: Word = 20_000;

/// A program: units that fit together, and a tape.
#[derive(Clone)]
pub struct Program {
    pub units: Vec<Unit>,
    pub tape: Vec<Word>,
}

impl Program {
    pub fn run(&self, room: Word, calls: Word) -> Outcome {
        let units: Vec<&Unit> = self.units.iter().collect();
        run(&units, &self.tape, room, calls)
    }

    fn is_done(&self, room: Word, calls: Word) -> bool {
        self.run(room, calls).ending == Ending::Done
    }

    fn first_frame(&self) -> Word {
        frame(&self.units[0].procedures[0]) as Word
    }
}

/// The least room and the least calls with which a program is done.
#[derive(Clone, Copy, Debug)]
pub struct Needs {
    pub room: Word,
    pub calls: Word,
}

/// What a program needs, if it is done within the most room and calls.
pub fn needs(program: &Program) -> Option<Needs> {
    if !program.is_done(MOST_ROOM, MOST_CALLS) {
        return None;
    }
    let room = least(MOST_ROOM, |room| program.is_done(room, MOST_CALLS));
    let calls = least(MOST_CALLS, |calls| program.is_done(MOST_ROOM, calls));
    assert!(program.is_done(room, calls));
    assert!(program.run(room - 1, calls).ending == Ending::NoRoom);
    assert!(program.run(room, calls - 1).ending == Ending::NoCalls);
    Some(Needs { room, calls })
}

/// The least number that is enough, where the given one is.
fn least(enough: Word, is_enough: impl Fn(Word) -> bool) -> Word {
    let (mut low, mut high) = (0, enough);
    while low < high {
        let middle = low + (high - low) / 2;
        if is_enough(middle) {
            high = middle;
        } else {
            low = middle + 1;
        }
    }
    high
}

#[derive(Clone, Copy, Debug, PartialEq, Eq)]
pub enum Budget {
    Ample,
    MostCalls,
    Exact,
    OneMore,
    OneCallLess,
    OneRoomLess,
    OneOfBothLess,
    CallsCut,
    RoomCut,
    /// At one call there are no calls left, and no room either.
    BothAtOneCall,
    /// The same room, and one call more.
    RoomAtLastCall,
}

pub const BUDGETS: [(Budget, usize); 11] = [
    (Budget::Ample, 20),
    (Budget::MostCalls, 3),
    (Budget::Exact, 14),
    (Budget::OneMore, 8),
    (Budget::OneCallLess, 11),
    (Budget::OneRoomLess, 11),
    (Budget::OneOfBothLess, 5),
    (Budget::CallsCut, 8),
    (Budget::RoomCut, 8),
    (Budget::BothAtOneCall, 6),
    (Budget::RoomAtLastCall, 6),
];

impl Budget {
    pub fn text(self) -> &'static str {
        match self {
            Budget::Ample => "ample room and calls",
            Budget::MostCalls => "ample room, 2^32 - 1 calls",
            Budget::Exact => "room and calls as needed",
            Budget::OneMore => "one of room and calls more than needed",
            Budget::OneCallLess => "one call less than needed",
            Budget::OneRoomLess => "one word of room less than needed",
            Budget::OneOfBothLess => "one of room and calls less than needed",
            Budget::CallsCut => "calls run out",
            Budget::RoomCut => "room runs out",
            Budget::BothAtOneCall => "calls and room run out at the same call",
            Budget::RoomAtLastCall => "room runs out at the last call",
        }
    }

    /// Room and calls for a program. None where this budget says nothing for it.
    pub fn choose(self, program: &Program, chance: &mut Chance) -> Option<(Word, Word)> {
        match needs(program) {
            Some(needs) => self.around(program, needs, chance),
            None => self.endless(program, chance),
        }
    }

    fn around(self, program: &Program, needs: Needs, chance: &mut Chance) -> Option<(Word, Word)> {
        let Needs { room, calls } = needs;
        let more_room = match chance.below(6) {
            0 => MOST_ROOM,
            _ => (room + chance.below(200) as Word).min(MOST_ROOM),
        };
        let more_calls = calls + chance.below(500) as Word;
        let first = program.first_frame();
        Some(match self {
            Budget::Ample => (more_room, more_calls),
            Budget::MostCalls => (more_room, Word::MAX),
            Budget::Exact => (room, calls),
            Budget::OneMore => (room + 1, calls + 1),
            Budget::OneCallLess => (more_room, calls - 1),
            Budget::OneRoomLess => (room - 1, more_calls),
            Budget::OneOfBothLess => (room - 1, calls - 1),
            Budget::CallsCut if calls > 3 => {
                (more_room, chance.between(2, calls as usize - 1) as Word)
            }
            Budget::RoomCut if room > first => {
                (chance.between(first as usize, room as usize - 1) as Word, more_calls)
            }
            Budget::BothAtOneCall | Budget::RoomAtLastCall if room > first => {
                let room = chance.between(first as usize, room as usize - 1) as Word;
                return self.at_last_call(program, room);
            }
            _ => return None,
        })
    }

    fn endless(self, program: &Program, chance: &mut Chance) -> Option<(Word, Word)> {
        let room = program.first_frame() + chance.below(1500) as Word;
        match self {
            Budget::CallsCut => {
                let most = chance.pick(&[20, 200, 2000, MOST_CALLS as usize]);
                Some((MOST_ROOM, chance.between(3, most) as Word))
            }
            Budget::RoomCut => Some((room, MOST_CALLS)),
            Budget::BothAtOneCall | Budget::RoomAtLastCall => self.at_last_call(program, room),
            _ => None,
        }
    }

    /// The call at which the room runs out takes one of the calls too.
    fn at_last_call(self, program: &Program, room: Word) -> Option<(Word, Word)> {
        let outcome = program.run(room, MOST_CALLS);
        if outcome.ending != Ending::NoRoom {
            return None;
        }
        let before = outcome.counts.calls as Word;
        let calls = if self == Budget::BothAtOneCall { before } else { before + 1 };
        let expected = if self == Budget::BothAtOneCall { Ending::NoCalls } else { Ending::NoRoom };
        assert!(program.run(room, calls).ending == expected);
        Some((room, calls))
    }
}
