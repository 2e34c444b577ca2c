//! The tables of an MPEG-2 transport stream, read by a proved library.
//!
//! Every call takes any bytes, of any length, and ends with what was asked or with a [`Refusal`]. Nothing is allocated and
//! nothing is kept between calls: the state and the buffer are the caller's.
//!
//! | asked | answered by |
//! |---|---|
//! | a packet's header, its payload | [`packet`] |
//! | its adaptation field, PCR, OPCR, splice countdown, private data | [`adaptation`] |
//! | sections, gathered from the packets of one PID | [`Reader`] |
//! | a section's headers and its body | [`psi`] |
//! | the programs of a PAT | [`pat`] |
//! | the streams of a PMT | [`pmt`] |
//! | the CRC | [`mpegts_crc`] |
//!
//! A reader works each packet of its PID in two steps, tail and then head, and hands out at most one section in each:
//!
//! ```
//! use jambpepper::{packet, pat, psi, Form, Gathered, Reader};
//!
//! # let section = [
//! #     0x00, 0xb0, 0x11, 0x00, 0x01, 0xc1, 0x00, 0x00, 0x00, 0x00, 0xe0, 0x10, 0x00, 0xd4, 0xf0, 0x01, 0xd9, 0x62, 0x97, 0x45,
//! # ];
//! # let mut one_packet = [0xff; packet::SIZE];
//! # one_packet[..5].copy_from_slice(&[0x47, 0x40, 0x00, 0x10, 0x00]);
//! # one_packet[5..25].copy_from_slice(&section);
//! # let stream = one_packet;
//! # let mut found = Vec::new();
//! let mut reader = Reader::fresh(Form::Full);
//! let mut buffer = [0; Reader::BUFFER_SIZE];
//! for packet in stream.chunks(packet::SIZE) {
//!     if packet::header(packet)?.pid != packet::PAT_PID {
//!         continue;
//!     }
//!     for work in [Reader::tail, Reader::head] {
//!         let step = work(reader, packet, &mut buffer);
//!         reader = step.reader;
//!         if step.answer == Ok(Gathered::Delivered) {
//!             let section = step.section(packet, &buffer);
//!             println!("version {}", psi::table_header(section)?.version);
//!             for program in pat::programs(psi::body(section)?) {
//!                 println!("{:?}", program?);
//! #               found.push(program?);
//!             }
//!         }
//!     }
//! }
//! # use pat::ProgramDescriptor::{Network, Program};
//! # assert_eq!(found, [Network { pid: 16 }, Program { program_number: 212, pid: 4097 }]);
//! # Ok::<(), jambpepper::Refusal>(())
//! ```
//!
//! The library is `libjambpepper.a`, which `build-library` writes to the repository's `target/staticlib`; where it lies elsewhere,
//! the variable `JAMBPEPPER_LIB` names its folder while this crate is built. It needs no other library.

#![deny(unsafe_code)]

pub mod adaptation;
#[allow(unsafe_code)]
mod calls;
pub mod ffi;
pub mod mpegts_crc;
pub mod packet;
pub mod pat;
pub mod pmt;
pub mod psi;
pub mod reader;
mod refusal;

pub use reader::{Form, Gathered, Reader, Step};
pub use refusal::Refusal;
