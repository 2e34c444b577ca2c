//! Gathering sections from the packets of one PID.
use crate::{
    calls,
    ffi::{JambpepperPlace, JambpepperReader, JambpepperStep},
    refusal::given,
    Refusal,
};

/// What sections a reader takes.
#[derive(Clone, Copy, Debug, PartialEq, Eq, Hash)]
pub enum Form {
    /// Those without the table header; no CRC.
    Compact,
    /// Those with it, the CRC tested.
    Full,
    /// As `Full`, each section once.
    Once,
}

/// What [`Form::Once`] remembers of the sections that it delivered last: the four numbers that they have in common, and a
/// mark for the section number of each. The other forms remember [`Memory::NONE`].
#[derive(Clone, Copy, Debug, PartialEq, Eq, Hash)]
pub struct Memory {
    pub table_id: u8,
    pub id: u16,
    pub version: u8,
    pub current_next_indicator: bool,
    /// Of section number n the bit n % 64, from the lowest, of word n / 64.
    pub marks: [u64; 4],
}

/// The state of a reader: idle, or open with bytes held and bytes wanted.
///
/// [`Reader::fresh`] and the steps give sound ones. Another may be put together, and kept or sent anywhere; where it is not
/// sound, the steps refuse with 25.
#[derive(Clone, Copy, Debug, PartialEq, Eq, Hash)]
pub struct Reader {
    pub form: Form,
    pub memory: Memory,
    /// Whether a section is open.
    pub is_open: bool,
    /// The bytes of it that the buffer holds, else 0.
    pub held: u16,
    /// The bytes that it has, else 0.
    pub wanted: u16,
}

/// What a step did that refuses nothing.
#[derive(Clone, Copy, Debug, PartialEq, Eq, Hash)]
pub enum Gathered {
    /// 0: nothing for this step.
    NothingForThisStep,
    /// 1: bytes kept, of a section that is not whole yet.
    BytesKept,
    /// 2: a section was delivered; [`Step::section`] reads it.
    Delivered,
}

/// Which bytes hold a delivered section.
#[derive(Clone, Copy, Debug, PartialEq, Eq, Hash)]
pub enum Holder {
    Nowhere,
    Packet,
    Buffer,
}

/// Where a delivered section lies.
#[derive(Clone, Copy, Debug, PartialEq, Eq, Hash)]
pub struct Place {
    pub holder: Holder,
    pub start: u16,
    pub length: u16,
}

/// How a step ended.
#[derive(Clone, Copy, Debug, PartialEq, Eq, Hash)]
pub struct Step {
    /// The state after the step, for the next one.
    pub reader: Reader,
    /// What it did, or why not.
    pub answer: Result<Gathered, Refusal>,
    /// Where the section lies, if one was delivered.
    pub place: Place,
}

/// Either step, as the library has it.
type Call = fn(JambpepperReader, &mut [u64], &[u8], &mut [u8]) -> JambpepperStep;

const MEMORY_WORDS: usize = 5;

impl Memory {
    /// That of a reader which has delivered nothing.
    pub const NONE: Memory = Memory {
        table_id: 0,
        id: 0,
        version: 0,
        current_next_indicator: false,
        marks: [0; 4],
    };

    /// Whether the section with this number was delivered.
    pub fn is_marked(self, section_number: u8) -> bool {
        self.marks[usize::from(section_number / 64)] >> (section_number % 64) & 1 != 0
    }

    /// The words that the library is lent. A version above 31 reaches above bit 29, where the library refuses it.
    fn written(self) -> [u64; MEMORY_WORDS] {
        let numbers = u64::from(self.table_id)
            | u64::from(self.id) << 8
            | u64::from(self.current_next_indicator) << 24
            | u64::from(self.version) << 25;
        let [first, second, third, fourth] = self.marks;
        [numbers, first, second, third, fourth]
    }

    /// The memory of words that the library wrote, or left as [`Memory::written`] gave them: bits 25 to 32 are the version's.
    fn read([numbers, marks @ ..]: [u64; MEMORY_WORDS]) -> Memory {
        Memory {
            table_id: numbers as u8,
            id: (numbers >> 8) as u16,
            version: (numbers >> 25) as u8,
            current_next_indicator: numbers >> 24 & 1 != 0,
            marks,
        }
    }
}

impl Reader {
    /// The length that a buffer must have.
    pub const BUFFER_SIZE: usize = 1024;

    /// A reader of this form that has read nothing.
    pub fn fresh(form: Form) -> Reader {
        Reader::read(calls::fresh(form.number()), Memory::NONE)
    }

    /// Whether the steps take this state.
    pub fn is_sound(self) -> bool {
        let words = self.memory.written();
        calls::is_sound(self.written(), &words[..self.words_lent()]) != 0
    }

    /// The tail step: what the packet holds of the section that is open.
    pub fn tail(self, packet: &[u8], buffer: &mut [u8]) -> Step {
        self.work(calls::tail, packet, buffer)
    }

    /// The head step: the section that starts in the packet. It follows the tail step on the same packet; a section that
    /// the tail step delivered is read before, since this step may overwrite it.
    pub fn head(self, packet: &[u8], buffer: &mut [u8]) -> Step {
        self.work(calls::head, packet, buffer)
    }

    fn work(self, call: Call, packet: &[u8], buffer: &mut [u8]) -> Step {
        let mut words = self.memory.written();
        let lent = &mut words[..self.words_lent()];
        let step = call(self.written(), lent, packet, buffer);
        Step::read(step, Memory::read(words))
    }

    /// How many words of its memory the library is lent: all for `Once`, and none for the other forms. Where one of these
    /// remembers something all the same, it is lent too, so that the library refuses it.
    fn words_lent(self) -> usize {
        if self.form != Form::Once && self.memory == Memory::NONE {
            0
        } else {
            MEMORY_WORDS
        }
    }

    fn written(self) -> JambpepperReader {
        JambpepperReader {
            form: self.form.number(),
            is_open: self.is_open.into(),
            held: self.held,
            wanted: self.wanted,
            reserved: 0,
        }
    }

    fn read(read: JambpepperReader, memory: Memory) -> Reader {
        Reader {
            form: Form::numbered(read.form),
            memory,
            is_open: read.is_open != 0,
            held: read.held,
            wanted: read.wanted,
        }
    }
}

impl Step {
    /// The delivered section, a part of the packet or of the buffer; empty where none was delivered, and where it does not
    /// lie within these bytes.
    pub fn section<'a>(&self, packet: &'a [u8], buffer: &'a [u8]) -> &'a [u8] {
        let place = calls::section(packet, buffer, self.number(), self.place.written());
        let (start, length) = (usize::from(place.start), usize::from(place.length));
        let bytes = match Holder::numbered(place.holder) {
            Holder::Nowhere => &[],
            Holder::Packet => packet,
            Holder::Buffer => buffer,
        };
        &bytes[start..start + length]
    }

    /// The number of its answer in the table of answers.
    pub fn number(&self) -> u8 {
        match self.answer {
            Ok(Gathered::NothingForThisStep) => 0,
            Ok(Gathered::BytesKept) => 1,
            Ok(Gathered::Delivered) => 2,
            Err(refusal) => refusal.number(),
        }
    }

    fn read(read: JambpepperStep, memory: Memory) -> Step {
        Step {
            reader: Reader::read(read.reader, memory),
            answer: match read.answer {
                1 => Ok(Gathered::BytesKept),
                2 => Ok(Gathered::Delivered),
                number => given(number, Gathered::NothingForThisStep),
            },
            place: Place::read(read.place),
        }
    }
}

impl Place {
    fn written(self) -> JambpepperPlace {
        JambpepperPlace {
            start: self.start,
            length: self.length,
            holder: self.holder.number(),
        }
    }

    fn read(read: JambpepperPlace) -> Place {
        Place {
            holder: Holder::numbered(read.holder),
            start: read.start,
            length: read.length,
        }
    }
}

impl Form {
    fn number(self) -> u8 {
        match self {
            Form::Compact => 0,
            Form::Full => 1,
            Form::Once => 2,
        }
    }

    fn numbered(number: u8) -> Form {
        match number {
            0 => Form::Compact,
            1 => Form::Full,
            2 => Form::Once,
            _ => unreachable!("{number} is no form, and the library was handed one"),
        }
    }
}

impl Holder {
    fn number(self) -> u8 {
        match self {
            Holder::Nowhere => 0,
            Holder::Packet => 1,
            Holder::Buffer => 2,
        }
    }

    fn numbered(number: u8) -> Holder {
        match number {
            0 => Holder::Nowhere,
            1 => Holder::Packet,
            2 => Holder::Buffer,
            _ => unreachable!("{number} is no holder of the library"),
        }
    }
}

#[cfg(test)]
mod tests {
    use super::*;
    use crate::mpegts_crc::sum32;
    use crate::packet::{self, tests::packet_from};

    /// A PAT of transport stream 1 with program 1 on PID 256.
    const PAT: [u8; 16] = [
        0, 0xb0, 13, 0, 1, 0xc1, 0, 0, 0, 1, 0xe1, 0, 0xe8, 0xf9, 0x5e, 0x7d,
    ];

    /// A packet with unit start and pointer 0 whose rest begins with these bytes.
    fn starting(bytes: &[u8]) -> [u8; packet::SIZE] {
        packet_from(&[&[0x47, 0x40, 0, 0x10, 0], bytes].concat())
    }

    /// The head step's answer to a packet that starts so, from a fresh reader.
    fn head_of(form: Form, bytes: &[u8]) -> Result<Gathered, Refusal> {
        let mut buffer = [0; Reader::BUFFER_SIZE];
        let step = Reader::fresh(form).head(&starting(bytes), &mut buffer);
        step.answer
    }

    #[test]
    fn fresh_states() {
        for form in [Form::Compact, Form::Full, Form::Once] {
            let due = Reader {
                form,
                memory: Memory::NONE,
                is_open: false,
                held: 0,
                wanted: 0,
            };
            assert_eq!(Reader::fresh(form), due);
            assert!(due.is_sound());
        }
    }

    #[test]
    fn case_8() {
        let taken = head_of(Form::Full, &[0x02, 0xf3, 0xfd]);
        assert_eq!(taken, Ok(Gathered::BytesKept));
        let refused = head_of(Form::Full, &[0x02, 0xf3, 0xfe]);
        assert_eq!(refused, Err(Refusal::LengthAbove1021));
    }

    #[test]
    fn case_10() {
        let mut buffer = [0; Reader::BUFFER_SIZE];
        let mut packet = packet_from(&[0x47, 0x40, 0, 0x30, 182]);
        for form in [Form::Compact, Form::Full, Form::Once] {
            packet[187] = 0;
            let step = Reader::fresh(form).head(&packet, &mut buffer);
            assert_eq!(step.answer, Err(Refusal::Under3Bytes));
            packet[187] = 5;
            let step = Reader::fresh(form).head(&packet, &mut buffer);
            assert_eq!(step.answer, Err(Refusal::PointerBeyondRest));
        }
    }

    #[test]
    fn a_section_in_its_packet() {
        let mut buffer = [0; Reader::BUFFER_SIZE];
        let packet = starting(&PAT);
        let reader = Reader::fresh(Form::Full);
        let tail = reader.tail(&packet, &mut buffer);
        assert_eq!(tail.answer, Ok(Gathered::NothingForThisStep));
        assert_eq!(tail.reader, reader);
        assert!(tail.section(&packet, &buffer).is_empty());
        let head = tail.reader.head(&packet, &mut buffer);
        assert_eq!(head.answer, Ok(Gathered::Delivered));
        assert_eq!(head.number(), 2);
        let place = Place {
            holder: Holder::Packet,
            start: 5,
            length: 16,
        };
        assert_eq!(head.place, place);
        assert_eq!(head.section(&packet, &buffer), PAT);
    }

    #[test]
    fn a_section_over_two_packets() {
        let mut section = [7; 200];
        section[..8].copy_from_slice(&[0x42, 0xf0, 197, 0, 1, 0xc1, 0, 0]);
        let crc = sum32(&section[..196]);
        section[196..].copy_from_slice(&crc.to_be_bytes());
        let first = starting(&section[..183]);
        let second = packet_from(&[&[0x47, 0, 0, 0x10], &section[183..]].concat());

        let mut buffer = [0; Reader::BUFFER_SIZE];
        let head = Reader::fresh(Form::Once).head(&first, &mut buffer);
        assert_eq!(head.answer, Ok(Gathered::BytesKept));
        let open = Reader {
            form: Form::Once,
            memory: Memory::NONE,
            is_open: true,
            held: 183,
            wanted: 200,
        };
        assert_eq!(head.reader, open);
        assert!(open.is_sound());
        let tail = head.reader.tail(&second, &mut buffer);
        assert_eq!(tail.answer, Ok(Gathered::Delivered));
        assert_eq!(tail.section(&second, &buffer), section);
        assert!(tail.section(&second, &buffer[..199]).is_empty());
        assert_eq!(tail.place.holder, Holder::Buffer);
        let delivered = Memory {
            table_id: 0x42,
            id: 1,
            version: 0,
            current_next_indicator: true,
            marks: [1, 0, 0, 0],
        };
        assert_eq!(tail.reader.memory, delivered);

        let again = tail.reader.head(&first, &mut buffer);
        assert_eq!(again.answer, Err(Refusal::AlreadyDelivered));
    }

    #[test]
    fn a_place_that_ends_beyond_65535() {
        let bytes = [0; 70_001];
        let step = Step {
            reader: Reader::fresh(Form::Compact),
            answer: Ok(Gathered::Delivered),
            place: Place {
                holder: Holder::Packet,
                start: 60_000,
                length: 10_000,
            },
        };
        assert_eq!(step.section(&bytes, &[]).len(), 10_000);
        assert_eq!(step.section(&bytes[..69_999], &[]), &[]);
    }

    #[test]
    fn starts_refused() {
        let refused = [
            (Form::Full, &[0x00, 0x30, 13][..], Refusal::SyntaxIndicator),
            (Form::Compact, &PAT, Refusal::SyntaxIndicator),
            (Form::Full, &[0x00, 0xb0, 8], Refusal::SectionUnder12),
            (Form::Full, &PAT[..15], Refusal::CrcNotZero),
        ];
        for (form, bytes, refusal) in refused {
            assert_eq!(head_of(form, bytes), Err(refusal));
        }
        let compact = head_of(Form::Compact, &[0x70, 0x70, 5]);
        assert_eq!(compact, Ok(Gathered::Delivered));

        let mut buffer = [0; Reader::BUFFER_SIZE];
        let mut few_bytes = packet_from(&[0x47, 0x40, 0, 0x30, 175]);
        few_bytes[180..184].copy_from_slice(&[0, 0x00, 0xb0, 13]);
        let step = Reader::fresh(Form::Full).head(&few_bytes, &mut buffer);
        assert_eq!(step.answer, Err(Refusal::Under8Bytes));
    }

    #[test]
    fn tails_refused() {
        let mut buffer = [0; Reader::BUFFER_SIZE];
        let reader = Reader::fresh(Form::Full);
        let continuing = packet_from(&[0x47, 0, 0, 0x10]);
        let step = reader.tail(&continuing, &mut buffer);
        assert_eq!(step.answer, Err(Refusal::NoSectionOpen));
        let step = reader.tail(&continuing, &mut buffer[1..]);
        assert_eq!(step.answer, Err(Refusal::BufferSize));
        let step = reader.tail(&[], &mut []);
        assert_eq!(step.answer, Err(Refusal::PacketSize));
    }

    /// Refused with 25 by both steps, which leave all as it was.
    fn assert_not_sound(reader: Reader) {
        assert!(!reader.is_sound(), "{reader:?}");
        let mut buffer = [0xaa; Reader::BUFFER_SIZE];
        for step in [Reader::tail, Reader::head] {
            let step = step(reader, &starting(&PAT), &mut buffer);
            assert_eq!(step.answer, Err(Refusal::StateNotSound));
            assert_eq!(step.number(), 25);
            assert_eq!(step.reader, reader);
        }
        assert_eq!(buffer, [0xaa; Reader::BUFFER_SIZE]);
    }

    #[test]
    fn counts_that_are_not_sound() {
        for form in [Form::Compact, Form::Full, Form::Once] {
            assert_not_sound(Reader {
                held: 8,
                wanted: 9,
                ..Reader::fresh(form)
            });
            assert_not_sound(Reader {
                is_open: true,
                held: 8,
                wanted: 8,
                ..Reader::fresh(form)
            });
        }
    }

    /// Version 4 of the PMT of programme 212, its section 0 delivered.
    const PMT: Memory = Memory {
        table_id: 2,
        id: 212,
        version: 4,
        current_next_indicator: true,
        marks: [1, 0, 0, 0],
    };

    /// Each number at its largest.
    const MOST: Memory = Memory {
        table_id: 255,
        id: 65535,
        version: 31,
        current_next_indicator: true,
        marks: [1, 0, 0, 0],
    };

    /// A section with the four numbers that this memory has.
    fn section_of(table: Memory, section_number: u8) -> [u8; 12] {
        let mut section = [0, 0xb0, 9, 0, 0, 0, 0, 255, 0, 0, 0, 0];
        section[0] = table.table_id;
        section[3..5].copy_from_slice(&table.id.to_be_bytes());
        section[5] = 0xc0 | table.version << 1 | u8::from(table.current_next_indicator);
        section[6] = section_number;
        let crc = sum32(&section[..8]);
        section[8..].copy_from_slice(&crc.to_be_bytes());
        section
    }

    /// The head step's number for a packet that starts so; the reader goes on from there.
    fn next_head(reader: &mut Reader, bytes: &[u8]) -> u8 {
        let mut buffer = [0; Reader::BUFFER_SIZE];
        let step = reader.head(&starting(bytes), &mut buffer);
        *reader = step.reader;
        step.number()
    }

    /// A reader that delivered section 0 of [`PMT`].
    fn once() -> Reader {
        let mut reader = Reader::fresh(Form::Once);
        assert_eq!(next_head(&mut reader, &section_of(PMT, 0)), 2);
        assert_eq!(reader.memory, PMT);
        reader
    }

    /// Each number in its bits, and a version up to 255: what the library refuses comes back as it was.
    #[test]
    fn words_of_a_memory() {
        let due = [
            (0x0000_0000, (0, 0, 0, false)),
            (0x0000_00ff, (255, 0, 0, false)),
            (0x0080_0100, (0, 0x8001, 0, false)),
            (0x0100_0000, (0, 0, 0, true)),
            (0x0200_0000, (0, 0, 1, false)),
            (0x3e00_0000, (0, 0, 31, false)),
            (0x3fff_ffff, (255, 65535, 31, true)),
            (0x4000_0000, (0, 0, 32, false)),
            (0x0001_fe00_0000, (0, 0, 255, false)),
        ];
        for (numbers, (table_id, id, version, current_next_indicator)) in due {
            let memory = Memory {
                table_id,
                id,
                version,
                current_next_indicator,
                marks: [2, 3, 5, 1 << 63],
            };
            assert_eq!(memory.written(), [numbers, 2, 3, 5, 1 << 63]);
            assert_eq!(Memory::read(memory.written()), memory);
        }
    }

    /// The night of channel 212: the first copy of the new version is damaged.
    #[test]
    fn a_damaged_copy_before_a_good_one() {
        let mut reader = once();
        let new = Memory { version: 5, ..PMT };
        let good = section_of(new, 0);
        let mut damaged = good;
        damaged[11] ^= 1;
        assert_eq!(next_head(&mut reader, &damaged), 17);
        assert_eq!(reader.memory, PMT);
        assert_eq!(next_head(&mut reader, &good), 2);
        assert_eq!(reader.memory, new);
        assert_eq!(next_head(&mut reader, &good), 14);
        assert_eq!(next_head(&mut reader, &damaged), 14);
        assert_eq!(reader.memory, new);
    }

    #[test]
    fn sections_of_one_table() {
        let mut reader = once();
        let due = [
            (1, [3, 0, 0, 0]),
            (63, [1 << 63 | 3, 0, 0, 0]),
            (64, [1 << 63 | 3, 1, 0, 0]),
            (128, [1 << 63 | 3, 1, 1, 0]),
            (255, [1 << 63 | 3, 1, 1, 1 << 63]),
        ];
        for (number, marks) in due {
            assert!(!reader.memory.is_marked(number));
            assert_eq!(next_head(&mut reader, &section_of(PMT, number)), 2);
            assert!(reader.memory.is_marked(number));
            assert_eq!(reader.memory, Memory { marks, ..PMT });
        }
        for number in [0, 1, 63, 64, 128, 255] {
            assert_eq!(next_head(&mut reader, &section_of(PMT, number)), 14);
        }
        let marked = (0..=255).filter(|&number| reader.memory.is_marked(number));
        assert_eq!(marked.collect::<Vec<_>>(), [0, 1, 63, 64, 128, 255]);
    }

    #[test]
    fn another_table_starts_anew() {
        let others = [
            Memory { table_id: 3, ..PMT },
            Memory { id: 468, ..PMT },
            Memory { version: 5, ..PMT },
            Memory {
                current_next_indicator: false,
                ..PMT
            },
            MOST,
        ];
        for other in others {
            let mut reader = once();
            assert_eq!(next_head(&mut reader, &section_of(PMT, 1)), 2);
            assert_eq!(next_head(&mut reader, &section_of(other, 0)), 2);
            assert_eq!(reader.memory, other);
            assert_eq!(next_head(&mut reader, &section_of(other, 0)), 14);
            assert_eq!(next_head(&mut reader, &section_of(PMT, 0)), 2);
            assert_eq!(reader.memory, PMT);
        }
    }

    #[test]
    fn refusals_that_forget() {
        let mut buffer = [0; Reader::BUFFER_SIZE];
        let beyond_rest = packet_from(&[0x47, 0x40, 0, 0x10, 183]);
        let two_bytes = packet_from(&[0x47, 0x40, 0, 0x10, 181]);
        let steps = [
            (9, once().tail(&beyond_rest, &mut buffer)),
            (9, once().head(&beyond_rest, &mut buffer)),
            (10, once().head(&two_bytes, &mut buffer)),
        ];
        for (number, step) in steps {
            assert_eq!(step.number(), number);
            assert_eq!(step.reader, Reader::fresh(Form::Once));
        }
    }

    #[test]
    fn answers_that_leave_the_memory() {
        let mut buffer = [0; Reader::BUFFER_SIZE];
        let seven_bytes = packet_from(&[&[0x47, 0x40, 0, 0x10, 176][..], &[0xff; 176]].concat());
        let steps = [
            (0, once().tail(&starting(&PAT), &mut buffer)),
            (1, once().head(&starting(&[0, 0xb3, 0xfd]), &mut buffer)),
            (3, once().head(&[], &mut buffer)),
            (11, once().head(&starting(&[0, 0x30, 9]), &mut buffer)),
            (12, once().head(&seven_bytes, &mut buffer)),
            (13, once().head(&starting(&[0, 0xb3, 0xfe]), &mut buffer)),
            (
                15,
                once().tail(&packet_from(&[0x47, 0, 0, 0x10]), &mut buffer),
            ),
            (16, once().head(&starting(&[0, 0xb0, 8]), &mut buffer)),
            (17, once().head(&starting(&PAT[..15]), &mut buffer)),
        ];
        for (number, step) in steps {
            assert_eq!(step.number(), number);
            assert_eq!(step.reader.memory, PMT);
        }
    }

    #[test]
    fn memories_that_are_not_sound() {
        let unmarked = [
            Memory {
                table_id: 1,
                ..Memory::NONE
            },
            Memory {
                id: 1,
                ..Memory::NONE
            },
            Memory {
                version: 1,
                ..Memory::NONE
            },
            Memory {
                current_next_indicator: true,
                ..Memory::NONE
            },
        ];
        for form in [Form::Compact, Form::Full, Form::Once] {
            let remembering = |memory| Reader {
                memory,
                ..Reader::fresh(form)
            };
            for memory in unmarked {
                assert_not_sound(remembering(memory));
            }
            for version in 32..=255 {
                assert_not_sound(remembering(Memory { version, ..PMT }));
            }
            if form == Form::Once {
                assert!(remembering(Memory { version: 31, ..PMT }).is_sound());
                assert!(remembering(MOST).is_sound());
            } else {
                assert_not_sound(remembering(PMT));
                assert_not_sound(remembering(MOST));
            }
        }
    }

    #[test]
    fn a_place_that_does_not_lie_within() {
        let mut buffer = [0; Reader::BUFFER_SIZE];
        let packet = starting(&PAT);
        let mut step = Reader::fresh(Form::Full).head(&packet, &mut buffer);
        step.place.start = u16::MAX;
        assert!(step.section(&packet, &buffer).is_empty());
        assert!(step.section(&[], &[]).is_empty());
    }
}
