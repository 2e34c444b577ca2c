//! Does the comparison see? Small slips, each laid over the answers of one side, and each must be noticed by a shortened run.

mod memory;

use crate::answers::*;
use crate::compare::{Comparison, MODEL, PORT};
use crate::report::{Difference, HEAD, TAIL};
use crate::run::{run, Amount};
use memory::worked;

#[derive(Clone, Copy, Debug, PartialEq, Eq)]
enum Slip {
    // steps
    TailPlaceOneLate,
    HeadPlaceOneLate,
    LengthOneShort,
    HolderSwapped,
    RepeatedIs15,
    RepeatedStaysOpen,
    PointerKeepsMemory,
    Under3KeepsMemory,
    SyntaxForgets,
    Under8Forgets,
    LimitForgets,
    RepeatedForgets,
    Under12Forgets,
    WrongCrcForgets,
    OpeningForgets,
    RememberedAtStart,
    Under12Marked,
    WrongCrcMarked,
    MarksKept,
    MarkOneMore,
    Mark64More,
    LastNumberMarked,
    TableIdNotLookedAt,
    IdNotLookedAt,
    VersionNotLookedAt,
    CurrentNotLookedAt,
    MarkNotLookedAt,
    NoneIsTableZero,
    KnownTableUnchecked,
    HeldOneMore,
    WantedOneMore,
    ByteBehindSection,
    ByteOnWrongCrc,
    ByteKeptWrong,
    NoSectionOpenIs0,
    LimitStaysOpen,
    Under12IsWrongCrc,
    CrcNotTested,
    EmptyPayloadIs8,
    BufferBeforeSyncByte,
    UnmarkedTaken,
    VersionAboveTaken,
    HighHalfTaken,
    SixthWordTaken,
    IdTurned,
    MarkWordsTurned,
    MarkBitsTurned,
    WordsInFullTaken,
    FormAboveTaken,
    FlagAboveTaken,
    ReservedTaken,
    UnsoundMadeFresh,
    UnsoundForgets,
    RefusedForgets,
    PayloadBeforeState,
    DeliveredUnchecked,
    // packets
    ExtensionMasked,
    BaseLowestBit,
    CountdownSevenBits,
    PrivateDataOneEarly,
    FieldLengthIsAbsence,
    LengthByteOneLess,
    FlagsSwapped,
    FlagAsItStands,
    PidTwelveBits,
    ErrorIsPriority,
    ScramblingIsControl,
    RefusedNotZero,
    CounterAbove15,
    // sections and walks
    CrcOfNothing,
    CurrentTurned,
    VersionFourBits,
    SyntaxIsPrivate,
    BodyKeepsCrc,
    BodyOfTwelveRefused,
    ProgramPidTwelveBits,
    PatTailIsEnd,
    PatOffsetInSection,
    PatOffsetOfLastEntry,
    PatEndTellsOffset,
    NextOneShort,
    NeededWithoutHeader,
    InfoLengthEightBits,
    DescriptorsOneLate,
    StreamUnder5IsEnd,
    StreamRefusalsSwapped,
    InfoToTheEndRefused,
    StreamOffsetInSection,
    StreamOffsetOfLastEntry,
    StreamEndTellsOffset,
    PositionAboveIsEnd,
}
use Slip::*;

/// Every slip, and whether the Rust crate shows enough to notice it without comparing the model, which is asked only where ONCE's two rules part.
const SLIPS: [(Slip, bool); 91] = [
    (TailPlaceOneLate, true),
    (HeadPlaceOneLate, true),
    (LengthOneShort, true),
    (HolderSwapped, true),
    (RepeatedIs15, true),
    (RepeatedStaysOpen, true),
    (PointerKeepsMemory, true),
    (Under3KeepsMemory, true),
    (SyntaxForgets, true),
    (Under8Forgets, true),
    (LimitForgets, true),
    (RepeatedForgets, true),
    (Under12Forgets, true),
    (WrongCrcForgets, true),
    (OpeningForgets, true),
    (RememberedAtStart, true),
    (Under12Marked, true),
    (WrongCrcMarked, true),
    (MarksKept, true),
    (MarkOneMore, true),
    (Mark64More, true),
    (LastNumberMarked, true),
    (TableIdNotLookedAt, true),
    (IdNotLookedAt, true),
    (VersionNotLookedAt, true),
    (CurrentNotLookedAt, true),
    (MarkNotLookedAt, true),
    (NoneIsTableZero, true),
    (KnownTableUnchecked, true),
    (HeldOneMore, true),
    (WantedOneMore, true),
    (ByteBehindSection, false),
    (ByteOnWrongCrc, false),
    (ByteKeptWrong, true),
    (NoSectionOpenIs0, true),
    (LimitStaysOpen, true),
    (Under12IsWrongCrc, true),
    (CrcNotTested, true),
    (EmptyPayloadIs8, true),
    (BufferBeforeSyncByte, false),
    (UnmarkedTaken, false),
    (VersionAboveTaken, false),
    (HighHalfTaken, false),
    (SixthWordTaken, false),
    (IdTurned, false),
    (MarkWordsTurned, false),
    (MarkBitsTurned, false),
    (WordsInFullTaken, false),
    (FormAboveTaken, false),
    (FlagAboveTaken, false),
    (ReservedTaken, false),
    (UnsoundMadeFresh, false),
    (UnsoundForgets, false),
    (RefusedForgets, true),
    (PayloadBeforeState, false),
    (DeliveredUnchecked, false),
    (ExtensionMasked, true),
    (BaseLowestBit, true),
    (CountdownSevenBits, true),
    (PrivateDataOneEarly, true),
    (FieldLengthIsAbsence, true),
    (LengthByteOneLess, true),
    (FlagsSwapped, true),
    (FlagAsItStands, true),
    (PidTwelveBits, true),
    (ErrorIsPriority, true),
    (ScramblingIsControl, true),
    (RefusedNotZero, false),
    (CounterAbove15, false),
    (CrcOfNothing, true),
    (CurrentTurned, true),
    (VersionFourBits, true),
    (SyntaxIsPrivate, true),
    (BodyKeepsCrc, false),
    (BodyOfTwelveRefused, false),
    (ProgramPidTwelveBits, true),
    (PatTailIsEnd, true),
    (PatOffsetInSection, true),
    (PatOffsetOfLastEntry, true),
    (PatEndTellsOffset, true),
    (NextOneShort, true),
    (NeededWithoutHeader, true),
    (InfoLengthEightBits, true),
    (DescriptorsOneLate, true),
    (StreamUnder5IsEnd, true),
    (StreamRefusalsSwapped, true),
    (InfoToTheEndRefused, true),
    (StreamOffsetInSection, true),
    (StreamOffsetOfLastEntry, true),
    (StreamEndTellsOffset, true),
    (PositionAboveIsEnd, false),
];

const SHORTENED: Amount = Amount {
    seed: 7,
    packets: 20_000,
    cases: 20_000,
    depth: 3,
    whole: false,
};

/// A side whose answers have one slip in them.
struct Mutated<'a> {
    side: &'a dyn Calls,
    slip: Slip,
}

impl Mutated<'_> {
    /// What state and words are taken for.
    fn taken(&self, mut state: State, memory: &[u64]) -> (State, Vec<u64>) {
        let mut memory = memory.to_vec();
        let whole = memory.len() == NONE.len();
        let unmarked = whole && memory[1..].iter().all(|word| *word == 0);
        match self.slip {
            UnmarkedTaken if unmarked => memory.fill(0),
            VersionAboveTaken if whole => memory[0] &= !(1 << 30),
            HighHalfTaken if whole => memory[0] &= 0xFFFF_FFFF,
            SixthWordTaken => memory.truncate(NONE.len()),
            WordsInFullTaken if state.form == FULL => memory.clear(),
            FormAboveTaken => {
                state.form = state.form.min(ONCE);
                memory.resize(words(state.form), 0);
            }
            FlagAboveTaken => state.is_open = state.is_open.min(1),
            ReservedTaken => state.reserved = 0,
            _ => self.turn(&mut memory),
        }
        (state, memory)
    }

    /// The step of what is taken, and what the words are after it.
    fn work(
        &self,
        step: usize,
        state: State,
        memory: &mut [u64],
        packet: &[u8],
        buffer: &mut [u8],
    ) -> Step {
        let before = memory.to_vec();
        let (taken, mut words) = self.taken(state, memory);
        let answered = if step == TAIL {
            self.side.tail(taken, &mut words, packet, buffer)
        } else {
            self.side.head(taken, &mut words, packet, buffer)
        };
        self.turn(&mut words);
        memory
            .iter_mut()
            .zip(words)
            .for_each(|(to, word)| *to = word);
        let answered = self.step(state, packet, buffer, answered);
        self.remember(
            step,
            answered,
            &before,
            memory,
            worked(step, packet, buffer),
        )
    }

    /// The slips that do not ask which of the two steps it is.
    fn step(&self, before: State, packet: &[u8], buffer: &mut [u8], mut step: Step) -> Step {
        match (self.slip, step.answer) {
            (HolderSwapped, 2) => step.place.holder = 3 - step.place.holder,
            (ByteOnWrongCrc, 17) => buffer[0] ^= 1,
            (NoSectionOpenIs0, 15) => step.answer = 0,
            (Under12IsWrongCrc, 16) => step.answer = 17,
            (CrcNotTested, 17) => step.answer = 2,
            (EmptyPayloadIs8, 7) => step.answer = 8,
            (BufferBeforeSyncByte, 4) if buffer.len() != BUFFER_BYTES => step.answer = 5,
            (PayloadBeforeState, 25) if self.side.payload(packet).answer != 0 => {
                step.answer = self.side.payload(packet).answer;
            }
            (UnsoundMadeFresh, 25) => step.state = self.side.fresh(before.form),
            (RefusedNotZero, 4) => step.place.start = u16::from(packet[1]),
            _ => {}
        }
        step
    }

    fn clock(&self, mut clock: Clock) -> Clock {
        match self.slip {
            ExtensionMasked => clock.extension &= 0xFF,
            BaseLowestBit => clock.base &= !1,
            _ => {}
        }
        clock
    }
}

impl Calls for Mutated<'_> {
    fn header(&self, packet: &[u8]) -> Header {
        let mut header = self.side.header(packet);
        match self.slip {
            PidTwelveBits => header.pid &= 0xFFF,
            ErrorIsPriority => header.error = header.priority,
            ScramblingIsControl => header.scrambling = header.control,
            FlagAsItStands => header.unit_start <<= 6,
            RefusedNotZero if header.answer == 4 => header.counter = packet[3] & 15,
            _ => {}
        }
        header
    }

    fn payload(&self, packet: &[u8]) -> Payload {
        let mut payload = self.side.payload(packet);
        if self.slip == EmptyPayloadIs8 && payload.answer == 7 {
            payload.answer = 8;
        }
        payload
    }

    fn follows(&self, counter: u8, other: u8) -> u8 {
        if self.slip == CounterAbove15 {
            return self.side.follows(counter & 15, other & 15);
        }
        self.side.follows(counter, other)
    }

    fn adaptation(&self, packet: &[u8]) -> Adaptation {
        let mut field = self.side.adaptation(packet);
        match self.slip {
            FieldLengthIsAbsence if field.answer == 19 => field.answer = 18,
            LengthByteOneLess => field.length = field.length.saturating_sub(1),
            FlagsSwapped => field.flags.swap(5, 6),
            _ => {}
        }
        field
    }

    fn pcr(&self, packet: &[u8]) -> Clock {
        self.clock(self.side.pcr(packet))
    }

    fn opcr(&self, packet: &[u8]) -> Clock {
        self.clock(self.side.opcr(packet))
    }

    fn splice(&self, packet: &[u8]) -> Splice {
        let mut splice = self.side.splice(packet);
        if self.slip == CountdownSevenBits {
            splice.countdown &= 0x7F;
        }
        splice
    }

    fn private_data(&self, packet: &[u8]) -> Part {
        let mut part = self.side.private_data(packet);
        if self.slip == PrivateDataOneEarly {
            part.start = part.start.saturating_sub(1);
        }
        part
    }

    fn section_header(&self, section: &[u8]) -> SectionHeader {
        let mut header = self.side.section_header(section);
        if self.slip == SyntaxIsPrivate {
            header.syntax = header.private;
        }
        header
    }

    fn table_header(&self, section: &[u8]) -> TableHeader {
        let mut header = self.side.table_header(section);
        match self.slip {
            CurrentTurned if header.answer == 0 => header.current ^= 1,
            VersionFourBits => header.version &= 15,
            _ => {}
        }
        header
    }

    fn body(&self, section: &[u8]) -> Part {
        let mut body = self.side.body(section);
        match self.slip {
            BodyKeepsCrc if body.answer == 0 => body.length += 4,
            BodyOfTwelveRefused if section.len() == 12 => {
                body = Part {
                    answer: 16,
                    ..Part::default()
                };
            }
            _ => {}
        }
        body
    }

    fn crc(&self, bytes: &[u8]) -> u32 {
        if self.slip == CrcOfNothing && bytes.is_empty() {
            return 0;
        }
        self.side.crc(bytes)
    }

    fn program_at(&self, body: &[u8], position: usize) -> Program {
        let mut program = self.side.program_at(body, position);
        match (self.slip, program.answer) {
            (ProgramPidTwelveBits, 0) => program.pid &= 0xFFF,
            (PatTailIsEnd, 24) | (PositionAboveIsEnd, 26) => {
                program = Program {
                    answer: 23,
                    ..Program::default()
                };
            }
            (PatOffsetInSection, 24) => program.offset += 8,
            (PatOffsetOfLastEntry, 24) => program.offset = program.offset.saturating_sub(4),
            (PatEndTellsOffset, 23) => program.offset = position,
            _ => {}
        }
        program
    }

    fn pmt_start(&self, body: &[u8]) -> Pmt {
        let mut pmt = self.side.pmt_start(body);
        match (self.slip, pmt.answer) {
            (NeededWithoutHeader, 22) => pmt.needed -= 4,
            (DescriptorsOneLate, 0) => pmt.descriptors_start += 1,
            _ => {}
        }
        pmt
    }

    fn stream_at(&self, body: &[u8], position: usize) -> Stream {
        let mut stream = self.side.stream_at(body, position);
        match (self.slip, stream.answer) {
            (NextOneShort, 0) => stream.next -= 1,
            (InfoLengthEightBits, 0) => stream.info_length &= 0xFF,
            (StreamUnder5IsEnd, 27) | (PositionAboveIsEnd, 26) => {
                stream = Stream {
                    answer: 23,
                    ..Stream::default()
                };
            }
            (StreamRefusalsSwapped, 27 | 28) => stream.answer = 27 + 28 - stream.answer,
            (InfoToTheEndRefused, 0) if stream.next == body.len() => {
                stream = Stream {
                    answer: 28,
                    offset: position,
                    ..Stream::default()
                };
            }
            (StreamOffsetInSection, 27 | 28) => stream.offset += 8,
            // as if that entry had no info
            (StreamOffsetOfLastEntry, 27 | 28) => stream.offset = stream.offset.saturating_sub(5),
            (StreamEndTellsOffset, 23) => stream.offset = position,
            _ => {}
        }
        stream
    }

    fn fresh(&self, form: u8) -> State {
        self.side.fresh(form)
    }

    fn is_sound(&self, state: State, memory: &[u64]) -> u8 {
        let (state, memory) = self.taken(state, memory);
        self.side.is_sound(state, &memory)
    }

    fn tail(&self, state: State, memory: &mut [u64], packet: &[u8], buffer: &mut [u8]) -> Step {
        let mut step = self.work(TAIL, state, memory, packet, buffer);
        match (self.slip, step.answer) {
            (TailPlaceOneLate, 2) => step.place.start += 1,
            (HeldOneMore, 1) => step.state.held += 1,
            (ByteBehindSection, 2) => {
                if let Some(byte) = buffer.get_mut(usize::from(step.place.length)) {
                    *byte ^= 1;
                }
            }
            _ => {}
        }
        step
    }

    fn head(&self, state: State, memory: &mut [u64], packet: &[u8], buffer: &mut [u8]) -> Step {
        if let Some(repeated) = self.repeated(state, memory, packet, buffer) {
            return repeated;
        }
        let mut step = self.work(HEAD, state, memory, packet, buffer);
        match (self.slip, step.answer) {
            (HeadPlaceOneLate, 2) => step.place.start += 1,
            (LengthOneShort, 2) => step.place.length -= 1,
            (RepeatedIs15, 14) => step.answer = 15,
            (RepeatedStaysOpen, 14) | (LimitStaysOpen, 13) => step.state = state,
            (WantedOneMore, 1) => step.state.wanted += 1,
            (ByteKeptWrong, 1) => buffer[usize::from(step.state.held) - 1] ^= 0x80,
            _ => {}
        }
        step
    }

    fn section(&self, packet: &[u8], buffer: &[u8], answer: u8, place: Place) -> Place {
        if self.slip == DeliveredUnchecked && answer == 2 {
            return place;
        }
        self.side.section(packet, buffer, answer, place)
    }
}

/// A run that ends at the first difference; `None` where it finds none.
fn notices(
    port: &dyn Calls,
    model: &dyn Calls,
    beside_crate: bool,
    beside_model: bool,
) -> Option<Box<Difference>> {
    let mut comparison = Comparison::new(port, model);
    comparison.beside_crate = beside_crate;
    comparison.beside_model = beside_model;
    run(&mut comparison, SHORTENED, &|_| {}).err()
}

/// Lays one slip over the port and tells the difference as any other is told.
pub fn show(port: &dyn Calls, model: &dyn Calls, name: &str) -> bool {
    let mut slips = SLIPS.iter().map(|(slip, _)| *slip);
    let Some(slip) = slips.find(|slip| format!("{slip:?}") == name) else {
        println!("no slip is called {name}; --mutations names them");
        return false;
    };
    let slipped = Mutated { side: port, slip };
    let found = notices(&slipped, model, cfg!(feature = "rust-crate"), true);
    if let Some(difference) = &found {
        println!("{}", difference.print(SHORTENED.seed));
    }
    found.is_some()
}

/// Lays every slip over the port beside the model, over the model beside the port, and, where the crate shows it, over the port beside the
/// crate alone. True where each is noticed, and nothing where there is no slip.
pub fn all_noticed(port: &dyn Calls, model: &dyn Calls) -> bool {
    let with_crate = cfg!(feature = "rust-crate");
    let mut good = true;
    if let Some(difference) = notices(port, model, with_crate, true) {
        println!("without a slip:\n{}", difference.print(SHORTENED.seed));
        good = false;
    }
    for (slip, shown) in SLIPS {
        let slipped_port = Mutated { side: port, slip };
        let slipped_model = Mutated { side: model, slip };
        let mut tries = vec![
            (PORT, MODEL, notices(&slipped_port, model, false, true)),
            (MODEL, PORT, notices(port, &slipped_model, false, true)),
        ];
        if with_crate && shown {
            let found = notices(&slipped_port, model, true, false);
            tries.push((PORT, "crate", found));
        }
        for (side, beside, found) in tries {
            good &= found.is_some();
            let found = match found {
                Some(difference) => format!("noticed in {}", difference.what),
                None => "NOT NOTICED".to_string(),
            };
            println!("{slip:?} in the {side}, beside the {beside}: {found}");
        }
    }
    let verdict = if good {
        "each was noticed"
    } else {
        "NOT all were noticed"
    };
    println!("{} slips: {verdict}", SLIPS.len());
    good
}
