use std::{error::Error, fmt};

/// All that is said of each refusal, from one table: its number, its name, the numbers that it tells, if any, and its words.
macro_rules! refusals {
    ($($number:literal $name:ident $({ $($(#[$about:meta])* $told:ident),+ })?: $words:literal;)+) => {
        /// Why a call gives nothing of what was asked.
        #[derive(Clone, Copy, Debug, PartialEq, Eq, Hash)]
        pub enum Refusal {
            $(
                #[doc = concat!(stringify!($number), ": ", $words, ".")]
                $name $({ $($(#[$about])* $told: usize),+ })?,
            )+
        }

        impl Refusal {
            /// Its number in the table of answers.
            pub fn number(self) -> u8 {
                match self {
                    $(Refusal::$name { .. } => $number,)+
                }
            }

            /// The refusal with this number.
            fn numbered(number: u8, told: Told) -> Refusal {
                match number {
                    $($number => Refusal::$name { $($($told: told.$told),+)? },)+
                    _ => unreachable!("{number} is no refusal of the library"),
                }
            }
        }

        /// In words, without the number.
        impl fmt::Display for Refusal {
            fn fmt(&self, to: &mut fmt::Formatter) -> fmt::Result {
                match self {
                    $(Refusal::$name { $($($told),+)? } => to.pad(&format!($words)),)+
                }
            }
        }

        #[cfg(test)]
        const NUMBERS: &[u8] = &[$($number),+];
    };
}

refusals! {
    3 PacketSize: "packet not 188 bytes";
    4 NoSyncByte: "no 0x47 at the packet's start";
    5 BufferSize: "buffer not 1,024 bytes";
    6 NoPayload: "adaptation field control gives no payload";
    7 PayloadEmpty: "payload start is 188";
    8 PayloadBeyond: "payload start above 188";
    9 PointerBeyondRest: "pointer beyond the rest of the payload";
    10 Under3Bytes: "under 3 bytes of a section";
    11 SyntaxIndicator: "syntax indicator not as the form needs it";
    12 Under8Bytes: "under 8 bytes of a section";
    13 LengthAbove1021: "section_length above 1,021";
    14 AlreadyDelivered: "already delivered";
    15 NoSectionOpen: "no section open";
    16 SectionUnder12: "whole section under 12 bytes";
    17 CrcNotZero: "CRC not zero";
    18 NoAdaptationField: "no adaptation field";
    19 AdaptationFieldLength: "adaptation field length wrong";
    20 FlagClear: "optional part's flag clear";
    21 FieldEndsBefore: "adaptation field ends before the part does";
    22 PmtTooShort {
        /// The length that the body would need.
        needed,
        /// The length that it has.
        actual
    }: "PMT body too short: {actual} bytes of {needed}";
    23 WalkAtEnd: "walk at its end";
    24 PatTail {
        /// Where the entry stands in the body.
        offset
    }: "under 4 bytes of a PAT entry, at {offset} of the body";
    25 StateNotSound: "state not sound";
    26 PositionAboveLength: "position above the body's length";
    27 StreamUnder5 {
        /// Where the entry stands in the body.
        offset
    }: "under 5 bytes of a stream entry, at {offset} of the body";
    28 InfoPastEnd {
        /// Where the entry stands in the body.
        offset
    }: "stream info past the end of the body, of the entry at {offset}";
}

impl Error for Refusal {}

/// What an answer tells beside its number; 0 where it tells nothing.
#[derive(Clone, Copy, Default)]
pub(crate) struct Told {
    pub needed: usize,
    pub actual: usize,
    pub offset: usize,
}

/// What was asked, where the number of the answer is 0; else the refusal, with what it tells.
pub(crate) fn given_or_told<T>(number: u8, asked: T, told: Told) -> Result<T, Refusal> {
    match number {
        0 => Ok(asked),
        _ => Err(Refusal::numbered(number, told)),
    }
}

/// The same for a call that tells nothing.
pub(crate) fn given<T>(number: u8, asked: T) -> Result<T, Refusal> {
    given_or_told(number, asked, Told::default())
}

#[cfg(test)]
mod tests {
    use super::*;

    #[test]
    fn every_number_is_a_refusal_and_has_words() {
        for &number in NUMBERS {
            let refusal = Refusal::numbered(number, Told::default());
            assert_eq!(refusal.number(), number);
            assert!(!refusal.to_string().is_empty());
        }
    }

    #[test]
    fn numbers_rise() {
        assert!(NUMBERS.windows(2).all(|pair| pair[0] < pair[1]));
    }

    #[test]
    fn words() {
        assert_eq!(Refusal::CrcNotZero.to_string(), "CRC not zero");
        assert_eq!(format!("{:>13}", Refusal::CrcNotZero), " CRC not zero");
        let told = Told {
            needed: 4,
            actual: 3,
            offset: 17,
        };
        let due = [
            (22, "PMT body too short: 3 bytes of 4"),
            (24, "under 4 bytes of a PAT entry, at 17 of the body"),
            (27, "under 5 bytes of a stream entry, at 17 of the body"),
            (
                28,
                "stream info past the end of the body, of the entry at 17",
            ),
        ];
        for (number, words) in due {
            assert_eq!(Refusal::numbered(number, told).to_string(), words);
        }
    }
}
