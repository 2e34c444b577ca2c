//! The programs of a PAT.
use crate::{
    calls,
    refusal::{given_or_told, Told},
    Refusal,
};

/// An entry of a PAT.
#[derive(Clone, Copy, Debug, PartialEq, Eq, Hash)]
pub enum ProgramDescriptor {
    /// Where the network's table is found.
    Network { pid: u16 },
    /// A program, and where its PMT is found.
    Program {
        /// Never 0.
        program_number: u16,
        pid: u16,
    },
}

/// The entry at a position of a PAT's body, and the position behind it. Refused with 23, 24, 26; 24 tells the position.
pub fn program_at(body: &[u8], position: usize) -> Result<(ProgramDescriptor, usize), Refusal> {
    let read = calls::program_at(body, position);
    let pid = read.pid;
    let program = match read.program_number {
        0 => ProgramDescriptor::Network { pid },
        program_number => ProgramDescriptor::Program {
            program_number,
            pid,
        },
    };
    let told = Told {
        offset: read.offset,
        ..Told::default()
    };
    given_or_told(read.answer, (program, read.next), told)
}

/// The entries of a PAT's body in order; where bytes are left over that are no entry, 24 is the last item and tells where.
pub fn programs(body: &[u8]) -> Programs<'_> {
    Programs {
        body,
        position: Some(0),
    }
}

/// A walk over the entries of a PAT's body: see [`programs`].
#[derive(Clone, Debug)]
pub struct Programs<'a> {
    body: &'a [u8],
    /// Where the walk goes on, if it does.
    position: Option<usize>,
}

impl Iterator for Programs<'_> {
    type Item = Result<ProgramDescriptor, Refusal>;

    fn next(&mut self) -> Option<Self::Item> {
        let found = program_at(self.body, self.position?);
        self.position = found.ok().map(|(_, next)| next);
        match found {
            Err(Refusal::WalkAtEnd) => None,
            found => Some(found.map(|(program, _)| program)),
        }
    }
}

#[cfg(test)]
mod tests {
    use super::*;

    const PROGRAM: ProgramDescriptor = ProgramDescriptor::Program {
        program_number: 1,
        pid: 256,
    };
    const NETWORK: ProgramDescriptor = ProgramDescriptor::Network { pid: 16 };

    #[test]
    fn case_14() {
        assert_eq!(program_at(&[0, 1, 0xe1, 0], 0), Ok((PROGRAM, 4)));
        assert_eq!(program_at(&[0, 0, 0xe0, 0x10], 0), Ok((NETWORK, 4)));
    }

    #[test]
    fn refused() {
        assert_eq!(program_at(&[], 0), Err(Refusal::WalkAtEnd));
        assert_eq!(program_at(&[0; 4], 4), Err(Refusal::WalkAtEnd));
        assert_eq!(program_at(&[], 1), Err(Refusal::PositionAboveLength));
        assert_eq!(
            program_at(&[0; 4], usize::MAX),
            Err(Refusal::PositionAboveLength)
        );
    }

    #[test]
    fn tails() {
        let tail = |offset| Err(Refusal::PatTail { offset });
        assert_eq!(program_at(&[0, 1, 0xe1], 0), tail(0));
        assert_eq!(program_at(&[0, 1, 0xe1, 0, 0], 4), tail(4));
        // within an entry
        assert_eq!(program_at(&[0, 1, 0xe1, 0], 1), tail(1));
        assert_eq!(program_at(&[0, 1, 0xe1, 0], 3), tail(3));
    }

    #[test]
    fn a_walk_to_the_end() {
        let walk: Vec<_> = programs(&[0, 0, 0xe0, 0x10, 0, 1, 0xe1, 0]).collect();
        assert_eq!(walk, [Ok(NETWORK), Ok(PROGRAM)]);
    }

    #[test]
    fn a_walk_that_breaks_off() {
        let mut walk = programs(&[0, 1, 0xe1, 0, 0]);
        assert_eq!(walk.next(), Some(Ok(PROGRAM)));
        assert_eq!(walk.next(), Some(Err(Refusal::PatTail { offset: 4 })));
        assert_eq!(walk.next(), None);
        assert_eq!(walk.next(), None);
    }
}
