//! The port, by single steps: tail, then head, for each packet.
use crate::delivered::Delivered;
use crate::inputs::Input;
use jambpepper::ffi::{
    jambpepper_fresh, jambpepper_head, jambpepper_tail, JambpepperPlace, JambpepperReader,
    JambpepperStep,
};

const COMPACT: u8 = 0;
const FULL: u8 = 1;
const ONCE: u8 = 2;
const DELIVERED: u8 = 2;
const IN_BUFFER: u8 = 2;
const BUFFER: usize = 1024;
const MEMORY: usize = 5;

struct Gathering {
    state: JambpepperReader,
    memory: [u64; MEMORY],
    buffer: [u8; BUFFER],
}

type Step = unsafe extern "C" fn(
    JambpepperReader,
    *mut u64,
    usize,
    *const u8,
    usize,
    *mut u8,
    usize,
) -> JambpepperStep;

impl Gathering {
    fn new(form: u8) -> Self {
        Gathering {
            state: unsafe { jambpepper_fresh(form) },
            memory: [0; MEMORY],
            buffer: [0; BUFFER],
        }
    }

    /// A step of a reader of this form: ONCE alone is lent its memory.
    #[inline(always)]
    fn work(&mut self, form: u8, step: Step, packet: &[u8], delivered: &mut Delivered) {
        let buffer = &mut self.buffer;
        let after = unsafe {
            step(
                self.state,
                self.memory.as_mut_ptr(),
                if form == ONCE { MEMORY } else { 0 },
                packet.as_ptr(),
                packet.len(),
                buffer.as_mut_ptr(),
                BUFFER,
            )
        };
        self.state = after.reader;
        if after.answer == DELIVERED {
            delivered.take(section(after.place, packet, buffer));
        }
    }
}

/// As jambpepper_section_bytes of the header: a step's own place lies within the bytes that the step was lent.
#[inline(always)]
fn section<'a>(place: JambpepperPlace, packet: &'a [u8], buffer: &'a [u8]) -> &'a [u8] {
    let holder = if place.holder == IN_BUFFER {
        buffer
    } else {
        packet
    };
    let range = place.start as usize..place.start as usize + place.length as usize;
    unsafe { holder.get_unchecked(range) }
}

#[inline(always)]
fn read(form: u8, input: &Input) -> Delivered {
    let mut readers: Vec<Gathering> = (0..input.reader_count)
        .map(|_| Gathering::new(form))
        .collect();
    let mut delivered = Delivered::default();
    for (packet, reader) in input.packets() {
        let gathering = &mut readers[reader];
        gathering.work(form, jambpepper_tail, packet, &mut delivered);
        gathering.work(form, jambpepper_head, packet, &mut delivered);
    }
    delivered
}

#[inline(never)]
pub fn compact(input: &Input) -> Delivered {
    read(COMPACT, input)
}

#[inline(never)]
pub fn full(input: &Input) -> Delivered {
    read(FULL, input)
}

#[inline(never)]
pub fn once(input: &Input) -> Delivered {
    read(ONCE, input)
}
