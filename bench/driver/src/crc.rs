//! The CRC alone: the port's and the crate's.
use crate::report;
use crate::timing::measure;
use jambpepper::ffi::jambpepper_sum32;
use mpeg2ts_reader::mpegts_crc::sum32;
use std::hint::black_box;

const SIZES: [usize; 4] = [16, 64, 183, 1024];
/// How many bytes are summed for one time.
const SUMMED: usize = 400_000;

fn port_sum32(data: &[u8]) -> u32 {
    unsafe { jambpepper_sum32(data.as_ptr(), data.len()) }
}

fn data() -> Vec<u8> {
    (0..1024u32).map(|i| (i * 167 >> 3) as u8).collect()
}

/// Fails where they differ.
pub fn check() {
    let data = data();
    for size in 0..=data.len() {
        let (port, original) = (port_sum32(&data[..size]), sum32(&data[..size]));
        assert_eq!(port, original, "the CRC of {size} bytes");
    }
    println!("CRC: the same over 0 to {} bytes", data.len());
}

pub fn time() {
    let data = data();
    for size in SIZES {
        let calls = SUMMED / size;
        let data = &data[..size];
        let repeat = |sum: fn(&[u8]) -> u32| {
            move || {
                for _ in 0..calls {
                    black_box(sum(black_box(data)));
                }
            }
        };
        let measured = measure(&[&repeat(sum32), &repeat(port_sum32)]);
        for (name, times) in ["crate", "port"].iter().zip(&measured) {
            report::crc(size, name, "crate", calls, times, &measured[0]);
        }
    }
}
