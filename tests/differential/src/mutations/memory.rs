//! The slips in what ONCE remembers, and in when it answers 14.

use super::{Mutated, Slip::*};
use crate::answers::*;
use crate::inputs::mark;
use crate::model::start;
use crate::report::HEAD;

/// The first eight bytes of the section that a step worked on: from the pointer's target on, or those in the buffer.
pub fn worked<'a>(step: usize, packet: &'a [u8], buffer: &'a [u8]) -> Option<&'a [u8]> {
    let section = match step {
        HEAD => start(packet)?,
        _ => buffer,
    };
    section.get(..8)
}

// their bits in the first word
const TABLE_ID: u64 = 0xFF;
const ID: u64 = 0xFFFF << 8;
const CURRENT: u64 = 1 << 24;
const VERSION: u64 = 31 << 25;

/// Table id, id, current bit and version of it, as the first word has them: the last two stand in the section as they do there.
fn four(section: &[u8]) -> u64 {
    let bytes = [section[0], section[4], section[3], section[5] & 63];
    u32::from_le_bytes(bytes).into()
}

/// The memory after a delivered section, but with the mark of this number.
fn with_mark(before: &[u64], section: &[u8], number: u8) -> Vec<u64> {
    let mut memory = vec![four(section)];
    memory.extend(match memory[0] == before[0] {
        true => &before[1..],
        false => &NONE[1..],
    });
    mark(&mut memory, number);
    memory
}

impl Mutated<'_> {
    /// The memory that a section is compared with.
    fn compared(&self, memory: &[u64], section: &[u8]) -> Vec<u64> {
        let (mut memory, four) = (memory.to_vec(), four(section));
        let none = memory == NONE;
        let numbers = memory[0];
        let with_its = |number: u64| numbers & !number | four & number;
        match self.slip {
            NoneIsTableZero if none => mark(&mut memory, 0),
            TableIdNotLookedAt => memory[0] = with_its(TABLE_ID),
            IdNotLookedAt => memory[0] = with_its(ID),
            VersionNotLookedAt => memory[0] = with_its(VERSION),
            CurrentNotLookedAt => memory[0] = with_its(CURRENT),
            MarkNotLookedAt if !none => memory[1..].fill(u64::MAX),
            _ => {}
        }
        memory
    }

    /// The words as they are from a side that lays them out otherwise, and for it.
    pub fn turn(&self, memory: &mut [u64]) {
        let [numbers, marks @ ..] = memory else {
            return;
        };
        match self.slip {
            IdTurned => {
                let id = (*numbers >> 8) as u16;
                *numbers = *numbers & !ID | u64::from(id.swap_bytes()) << 8;
            }
            MarkWordsTurned => marks.reverse(),
            MarkBitsTurned => marks
                .iter_mut()
                .for_each(|word| *word = word.reverse_bits()),
            _ => {}
        }
    }

    /// The head step, where it answers 14 to the section with the memory that it is compared with.
    pub fn repeated(
        &self,
        state: State,
        memory: &[u64],
        packet: &[u8],
        buffer: &[u8],
    ) -> Option<Step> {
        let section = worked(HEAD, packet, buffer)?;
        if state.form != ONCE || self.side.is_sound(state, memory) == 0 {
            return None;
        }
        let mut compared = self.compared(memory, section);
        if compared == memory {
            return None;
        }
        let buffer = &mut buffer.to_vec();
        let step = self.side.head(state, &mut compared, packet, buffer);
        (step.answer == 14).then_some(step)
    }

    /// The slips in what is remembered after a step on this section.
    pub fn remember(
        &self,
        step: usize,
        mut answered: Step,
        before: &[u64],
        memory: &mut [u64],
        section: Option<&[u8]>,
    ) -> Step {
        let (slip, answer) = (self.slip, answered.answer);
        if matches!(
            (slip, answer),
            (UnsoundForgets, 25) | (RefusedForgets, 3..=8)
        ) {
            memory.fill(0);
        }
        if answered.state.form != ONCE || matches!(answer, 3..=8 | 25) {
            return answered;
        }
        self.forget(step, answer, before, memory);
        let Some(section) = section else {
            return answered;
        };
        if let Some(number) = self.marked(step, answer, section) {
            memory.copy_from_slice(&with_mark(before, section, number));
        }
        match (slip, answer) {
            (MarksKept, 2) => (1..5).for_each(|word| memory[word] |= before[word]),
            (KnownTableUnchecked, 17) if before[0] == four(section) => answered.answer = 2,
            _ => {}
        }
        answered
    }

    fn forget(&self, step: usize, answer: u8, before: &[u64], memory: &mut [u64]) {
        match (self.slip, answer) {
            (PointerKeepsMemory, 9) | (Under3KeepsMemory, 10) => memory.copy_from_slice(before),
            (SyntaxForgets, 11)
            | (Under8Forgets, 12)
            | (LimitForgets, 13)
            | (RepeatedForgets, 14)
            | (Under12Forgets, 16)
            | (WrongCrcForgets, 17) => memory.fill(0),
            (OpeningForgets, 1) if step == HEAD => memory.fill(0),
            _ => {}
        }
    }

    /// The number that is marked and is not to be.
    fn marked(&self, step: usize, answer: u8, section: &[u8]) -> Option<u8> {
        let number = section[6];
        match (self.slip, answer) {
            (RememberedAtStart, 1 | 16 | 17) if step == HEAD => Some(number),
            (Under12Marked, 16) | (WrongCrcMarked, 17) => Some(number),
            (MarkOneMore, 2) => Some(number.wrapping_add(1)),
            (Mark64More, 2) => Some(number.wrapping_add(64)),
            (LastNumberMarked, 2) => Some(section[7]),
            _ => None,
        }
    }
}
