//! Packets worked by a reader of one form on all sides, and sequences of them.

use crate::answers::*;
use crate::compare::{differ, is_packet, shown, with_input, Comparison, CRATE, MODEL, PORT};
use crate::model::Former;
use crate::report::*;
use crate::rust_crate::{CrateReader, CrateStep};

impl Comparison<'_> {
    /// Both steps from any state, with any words beside it and a buffer of any size: what the crate has no way to show.
    pub fn steps_from(
        &mut self,
        state: State,
        memory: &[u64],
        packet: &[u8],
        buffer: &[u8],
    ) -> Outcome {
        self.counts.cases += 1;
        for step in [TAIL, HEAD] {
            self.step_differs(step, state, memory, packet, buffer)
                .map_err(|difference| {
                    with_input(difference, || {
                        let (packet, buffer) = (short_hex(packet), short_hex(buffer));
                        format!("{state:?}\nmemory: {memory:?}\npacket: {packet}\nbuffer: {buffer}")
                    })
                })?;
        }
        Ok(())
    }

    fn step_differs(
        &mut self,
        step: usize,
        state: State,
        memory: &[u64],
        packet: &[u8],
        buffer: &[u8],
    ) -> Outcome {
        let (mut port_memory, mut model_memory) = (memory.to_vec(), memory.to_vec());
        let (mut port_buffer, mut model_buffer) = (buffer.to_vec(), buffer.to_vec());
        let lent = (&mut port_memory[..], &mut port_buffer[..]);
        let port = ask_step(self.port, step, state, packet, lent);
        self.counts.step(state.form, step, port.answer);
        if !self.beside_model {
            return Ok(());
        }
        let lent = (&mut model_memory[..], &mut model_buffer[..]);
        let model = ask_step(self.model, step, state, packet, lent);
        compare_steps(step, &port, &model)?;
        compare_memories(step, &port_memory, &model_memory)?;
        compare_buffers(step, &port_buffer, &model_buffer)
    }
}

/// The memory's words and the buffer, both to be written.
type Lent<'a> = (&'a mut [u64], &'a mut [u8]);

fn ask_step(
    side: &dyn Calls,
    step: usize,
    state: State,
    packet: &[u8],
    (memory, buffer): Lent<'_>,
) -> Step {
    if step == TAIL {
        side.tail(state, memory, packet, buffer)
    } else {
        side.head(state, memory, packet, buffer)
    }
}

fn step_name(step: usize) -> &'static str {
    ["tail", "head"][step]
}

fn compare_steps(step: usize, port: &Step, model: &Step) -> Outcome {
    if port == model {
        return Ok(());
    }
    Err(differ(step_name(step), (PORT, *port), (MODEL, *model)))
}

fn compare_memories(step: usize, port: &[u64], model: &[u64]) -> Outcome {
    if port == model {
        return Ok(());
    }
    let what = format!("memory after the {}", step_name(step));
    Err(differ(&what, (PORT, port), (MODEL, model)))
}

fn compare_buffers(step: usize, port: &[u8], model: &[u8]) -> Outcome {
    if port == model {
        return Ok(());
    }
    let at = port
        .iter()
        .zip(model)
        .position(|(port, model)| port != model);
    let at = at.unwrap_or(0);
    let what = format!("buffer after the {}, at {at}", step_name(step));
    Err(differ(&what, (PORT, port[at]), (MODEL, model[at])))
}

/// What a host keeps of a reader between two steps.
#[derive(Clone)]
pub struct Kept {
    state: State,
    memory: Memory,
    buffer: Buffer,
}

impl Kept {
    /// Fresh, with a buffer in which a changed byte shows.
    pub fn fresh(side: &dyn Calls, form: u8) -> Kept {
        Kept {
            state: side.fresh(form),
            memory: NONE,
            buffer: std::array::from_fn(|at| (at * 7 + at / 251) as u8 ^ 0xA5),
        }
    }

    pub fn step(&mut self, side: &dyn Calls, step: usize, packet: &[u8]) -> Step {
        let words = &mut self.memory[..words(self.state.form)];
        let answered = ask_step(side, step, self.state, packet, (words, &mut self.buffer));
        self.state = answered.state;
        answered
    }
}

/// The port's and the model's reader, and what is known of the crate's two beside ONCE: a plain value, so that sequences can share a beginning.
#[derive(Clone)]
pub struct Position {
    port: Kept,
    model: Kept,
    /// ONCE answered 14 to the section that FULL works on
    silenced: bool,
    former: Former,
    /// document 01's ONCE, and so the crate's, has answered as request 2's does
    alike: bool,
}

impl Position {
    pub fn fresh(comparison: &Comparison<'_>, form: u8) -> Position {
        Position {
            port: Kept::fresh(comparison.port, form),
            model: Kept::fresh(comparison.model, form),
            silenced: false,
            former: Former::default(),
            alike: true,
        }
    }

    /// The port's step, after comparing it, memory and buffer with the model's, which is asked also where it is not compared: it says how long the
    /// crate's ONCE is.
    fn step(
        &mut self,
        comparison: &Comparison<'_>,
        step: usize,
        packet: &[u8],
    ) -> Result<Step, Box<Difference>> {
        let port = self.port.step(comparison.port, step, packet);
        let model = self.model.step(comparison.model, step, packet);
        if comparison.beside_model {
            compare_steps(step, &port, &model)?;
            compare_memories(step, &self.port.memory, &self.model.memory)?;
            compare_buffers(step, &self.port.buffer, &self.model.buffer)?;
        }
        if model.state.form == ONCE && self.alike {
            self.alike = self.former.answers(step, packet, model.answer);
        }
        Ok(port)
    }
}

/// ONCE answers as FULL does, save that its head may answer 14 where FULL has a section start, and then its tail answers 15 for as long as FULL works
/// on that section, which `silenced` keeps. True where this was such a 14 or 15.
fn silences(
    silenced: &mut bool,
    step: usize,
    port: &Step,
    full: &CrateStep<'_>,
) -> Result<bool, Box<Difference>> {
    let works = matches!(full.answer, 1 | 2 | 16 | 17);
    let (silent, instead) = match step {
        TAIL => (works && *silenced, 15),
        _ => (works && port.answer == 14, 14),
    };
    let due = if silent {
        (instead, Place::default())
    } else {
        (full.answer, full.place())
    };
    let what = ["tail, beside FULL", "head, beside FULL"][step];
    shown(what, (port.answer, port.place), due)?;
    // after 0, 6, 7 and 8 FULL is as it was
    if !matches!(full.answer, 0 | 6..=8) {
        *silenced = silent && full.answer == 1;
    }
    Ok(silent)
}

/// A reader of one form on all sides, fed packet by packet. Beside ONCE the crate has two: FULL all the way, and ONCE for as long as both rules
/// answer alike.
pub struct Reading {
    pub form: u8,
    pub position: Position,
    crate_reader: CrateReader,
    crate_once: Option<CrateReader>,
}

impl Reading {
    pub fn fresh(comparison: &Comparison<'_>, form: u8) -> Reading {
        Reading {
            form,
            position: Position::fresh(comparison, form),
            crate_reader: CrateReader::new(form.min(FULL)),
            crate_once: (form == ONCE).then(|| CrateReader::new(ONCE)),
        }
    }

    /// Back at a position: the port's and the model's readers are in it, the crate's get there by the packets that led to it.
    pub fn back_at(&mut self, comparison: &Comparison<'_>, position: &Position, fed: &[&[u8]]) {
        self.position.clone_from(position);
        if !comparison.beside_crate {
            return;
        }
        self.crate_reader.renew(self.form.min(FULL));
        feed(&mut self.crate_reader, fed);
        if let Some(once) = self.crate_once.as_mut().filter(|_| position.alike) {
            once.renew(ONCE);
            feed(once, fed);
        }
    }

    /// Both steps of a packet, on all sides. A packet that the crate panics on is not given to it: the state must stay the same.
    pub fn work(&mut self, comparison: &mut Comparison<'_>, packet: &[u8]) -> Outcome {
        comparison.counts.packets += 1;
        let (mut steps, mut once_steps) = (None, None);
        if !is_packet(packet) {
            comparison.counts.intend_not_a_packet(packet);
        } else if comparison.beside_crate {
            let wrong = |did| differ("packet", (PORT, "an answer".to_string()), (CRATE, did));
            steps = Some(self.crate_reader.work(packet).map_err(wrong)?);
            if let Some(once) = self.crate_once.as_mut().filter(|_| self.position.alike) {
                once_steps = Some(once.work(packet).map_err(wrong)?);
            }
        }
        for step in [TAIL, HEAD] {
            let alike = self.position.alike;
            let port = self.position.step(comparison, step, packet)?;
            comparison.counts.step(self.form, step, port.answer);
            let Some(steps) = &steps else { continue };
            let seen = Seen {
                form: self.form,
                step,
                port: &port,
                packet,
                buffer: &self.position.port.buffer,
            };
            if self.form != ONCE {
                seen.compare(comparison, &steps[step])?;
                continue;
            }
            let full = &steps[step];
            let silent = silences(&mut self.position.silenced, step, &port, full)?;
            comparison.counts.beside_full(step, full.answer, silent);
            if port.answer == 2 {
                seen.compare_delivered(comparison, full)?;
            }
            match &once_steps {
                Some(once) if self.position.alike => seen.compare(comparison, &once[step])?,
                Some(once) if alike => seen.parts(comparison, full, &once[step])?,
                _ => comparison.counts.behind += 1,
            }
        }
        Ok(())
    }
}

fn feed(reader: &mut CrateReader, packets: &[&[u8]]) {
    for packet in packets {
        // its answers were compared where the shorter sequence was
        let _ = reader.consume(packet);
    }
}

/// A step of the port, and what it left, beside the crate's.
struct Seen<'a> {
    form: u8,
    step: usize,
    port: &'a Step,
    packet: &'a [u8],
    buffer: &'a [u8],
}

impl Seen<'_> {
    /// Beside the same step of the crate's reader of that form.
    fn compare(&self, comparison: &mut Comparison<'_>, crate_step: &CrateStep<'_>) -> Outcome {
        let (port, form) = (self.port, self.form);
        let counts = &mut comparison.counts;
        counts.crate_step(form, self.step, crate_step.answer);
        if crate_step.answer == 15 {
            counts.drop_by(form, crate_step.dropped_by());
        }
        let crate_shows = (crate_step.answer, crate_step.place());
        shown(step_name(self.step), (port.answer, port.place), crate_shows)?;
        if port.answer == 2 {
            self.compare_delivered(comparison, crate_step)?;
        }
        Ok(())
    }

    /// Where the rules of ONCE part, one answers 14 and the other what FULL does.
    fn parts(
        &self,
        comparison: &mut Comparison<'_>,
        full: &CrateStep<'_>,
        once: &CrateStep<'_>,
    ) -> Outcome {
        let (which, due) = match self.port.answer {
            14 => (ALREADY_DELIVERED, full.answer),
            _ => (NOT_DELIVERED, 14),
        };
        comparison.counts.intend(which);
        shown("head, where the rules part", due, once.answer)
    }

    /// The delivered section's bytes, read the way a host reads them, and the headers that the crate hands on with them.
    fn compare_delivered(
        &self,
        comparison: &Comparison<'_>,
        crate_step: &CrateStep<'_>,
    ) -> Outcome {
        let port = comparison.port;
        let read = port.section(self.packet, self.buffer, 2, self.port.place);
        let holder = if read.holder == IN_BUFFER {
            self.buffer
        } else {
            self.packet
        };
        let start = usize::from(read.start);
        let section = &holder[start..start + usize::from(read.length)];
        if section != crate_step.bytes() {
            let (port, shown) = (short_hex(section), short_hex(crate_step.bytes()));
            return Err(differ("delivered section", (PORT, port), (CRATE, shown)));
        }
        let (header, table) = crate_step.headers();
        shown("section header", port.section_header(section), header)?;
        match table {
            Some(table) => shown("table header", port.table_header(section), table),
            None => Ok(()),
        }
    }
}

/// All packets from a fresh reader of the form on. A difference is made as small as it can be and told with its packets.
pub fn sequence<P: AsRef<[u8]>>(
    comparison: &mut Comparison<'_>,
    form: u8,
    packets: &[P],
) -> Outcome {
    let mut reading = Reading::fresh(comparison, form);
    for (index, packet) in packets.iter().enumerate() {
        if let Err(difference) = reading.work(comparison, packet.as_ref()) {
            let prefix = packets[..=index]
                .iter()
                .map(|packet| packet.as_ref().to_vec());
            return Err(smallest(comparison, form, prefix.collect(), difference));
        }
    }
    Ok(())
}

fn first_difference(
    comparison: &mut Comparison<'_>,
    form: u8,
    packets: &[Vec<u8>],
) -> Option<Box<Difference>> {
    let mut reading = Reading::fresh(comparison, form);
    let mut packets = packets.iter();
    packets.find_map(|packet| reading.work(comparison, packet).err())
}

/// Leaves out packets and clears bytes as long as the sides still differ.
pub fn smallest(
    comparison: &mut Comparison<'_>,
    form: u8,
    mut packets: Vec<Vec<u8>>,
    mut difference: Box<Difference>,
) -> Box<Difference> {
    let mut index = 0;
    while index < packets.len() {
        let mut fewer = packets.clone();
        fewer.remove(index);
        match first_difference(comparison, form, &fewer) {
            Some(smaller) => (packets, difference) = (fewer, smaller),
            None => index += 1,
        }
    }
    for index in 0..packets.len() {
        for at in 0..packets[index].len() {
            let byte = std::mem::replace(&mut packets[index][at], 0);
            match first_difference(comparison, form, &packets) {
                Some(smaller) => difference = smaller,
                None => packets[index][at] = byte,
            }
        }
    }
    let name = FORMS[usize::from(form)].1;
    let shown = packets.iter().map(|packet| short_hex(packet));
    difference.input = format!("{name}, {}", shown.collect::<Vec<_>>().join("\n    then "));
    difference
}
