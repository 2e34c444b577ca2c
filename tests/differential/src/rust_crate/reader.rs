//! The crate's three stacks, with tracing adapters between the layers. What the layers were called with, and what they warned of, tells both
//! steps' answers in document 01's numbers.

use super::warnings::Said;
use super::{section_header_of, table_header_of};
use crate::answers::*;
use crate::caught::caught;
use mpeg2ts_reader::packet;
use mpeg2ts_reader::psi::*;

/// What one of the two calls of a packet, `continue_section` or `start_section`, led to.
pub struct Call {
    made: bool,
    passed_processor: bool,
    passed_dedup: bool,
    /// the buffer handed a whole section on, to the CRC test or (COMPACT) to the end of the stack
    whole: bool,
    delivered: bool,
    said: Said,
    place: Place,
    bytes: Buffer,
    section: SectionHeader,
    table: Option<TableHeader>,
}

impl Call {
    fn new() -> Call {
        Call {
            made: false,
            passed_processor: false,
            passed_dedup: false,
            whole: false,
            delivered: false,
            said: Said::default(),
            place: Place::default(),
            bytes: [0; BUFFER_BYTES],
            section: SectionHeader::default(),
            table: None,
        }
    }

    fn clear(&mut self) {
        self.made = false;
        self.passed_processor = false;
        self.passed_dedup = false;
        self.whole = false;
        self.delivered = false;
        self.said = Said::default();
    }

    fn describe(&self) -> String {
        format!(
            "call made {}, passed the processor {}, passed the dedup layer {}, whole {}, delivered {}, warned of {:?}",
            self.made,
            self.passed_processor,
            self.passed_dedup,
            self.whole,
            self.delivered,
            self.said.answers()
        )
    }

    fn tail_answer(&self) -> Result<u8, String> {
        let passed = self.passed_processor && self.passed_dedup;
        match self.said.answers() {
            [] if !self.made => Ok(0),
            [] if self.delivered => Ok(2),
            // silence: a layer above the buffer ignores the rest of a section that it refused or that is repeated
            [] if !passed => Ok(15),
            [] if !self.whole => Ok(1),
            [15] if passed && !self.whole => Ok(15),
            [answer @ (16 | 17)] if self.whole && !self.delivered => Ok(*answer),
            _ => Err(format!("a tail that no answer is for: {}", self.describe())),
        }
    }

    fn head_answer(&self) -> Result<u8, String> {
        match self.said.answers() {
            [] if !self.made => Ok(0),
            [] if self.delivered => Ok(2),
            [] if self.passed_processor && !self.passed_dedup => Ok(14),
            [] if self.passed_dedup && !self.whole => Ok(1),
            [answer @ (11..=13)] if !self.passed_processor => Ok(*answer),
            [answer @ (16 | 17)] if self.whole && !self.delivered => Ok(*answer),
            _ => Err(format!("a head that no answer is for: {}", self.describe())),
        }
    }

    fn deliver(&mut self, packet_at: usize, header: &SectionCommonHeader, data: &[u8]) {
        let at = data.as_ptr() as usize;
        let in_packet = (packet_at..packet_at + PACKET_BYTES).contains(&at);
        self.place = Place {
            holder: if in_packet { IN_PACKET } else { IN_BUFFER },
            // the stack hands on its whole buffer, which is its own: from 0
            start: if in_packet {
                (at - packet_at) as u16
            } else {
                0
            },
            length: data.len() as u16,
        };
        self.bytes[..data.len()].copy_from_slice(data);
        self.section = section_header_of(header);
        self.delivered = true;
    }
}

/// The context that the crate carries through its layers.
pub struct Trace {
    packet_at: usize,
    in_head: bool,
    tail: Call,
    head: Call,
}

impl Trace {
    fn call(&mut self) -> &mut Call {
        if self.in_head {
            &mut self.head
        } else {
            &mut self.tail
        }
    }
}

/// Between the packet consumer and the section processor: which of the two calls is made.
struct Outermost<P>(P);

impl<P: SectionProcessor<Context = Trace>> SectionProcessor for Outermost<P> {
    type Context = Trace;

    fn start_section(&mut self, trace: &mut Trace, header: &SectionCommonHeader, data: &[u8]) {
        trace.in_head = true;
        trace.head.made = true;
        self.0.start_section(trace, header, data);
        trace.head.said = Said::take();
    }

    fn continue_section(&mut self, trace: &mut Trace, data: &[u8]) {
        trace.tail.made = true;
        self.0.continue_section(trace, data);
        trace.tail.said = Said::take();
    }

    fn reset(&mut self) {
        self.0.reset()
    }
}

const BELOW_PROCESSOR: u8 = 0;
const BELOW_DEDUP: u8 = 1;
/// where the stack has no dedup layer
const BELOW_BOTH: u8 = 2;

/// Below a layer that may swallow a call: the call came through.
struct Passed<P, const WHERE: u8>(P);

impl<P, const WHERE: u8> Passed<P, WHERE> {
    fn note(trace: &mut Trace) {
        let call = trace.call();
        call.passed_processor |= WHERE != BELOW_DEDUP;
        call.passed_dedup |= WHERE != BELOW_PROCESSOR;
    }
}

impl<P: CompactSyntaxPayloadParser<Context = Trace>, const WHERE: u8> CompactSyntaxPayloadParser
    for Passed<P, WHERE>
{
    type Context = Trace;

    fn start_compact_section(
        &mut self,
        trace: &mut Trace,
        header: &SectionCommonHeader,
        data: &[u8],
    ) {
        Self::note(trace);
        self.0.start_compact_section(trace, header, data)
    }

    fn continue_compact_section(&mut self, trace: &mut Trace, data: &[u8]) {
        Self::note(trace);
        self.0.continue_compact_section(trace, data)
    }

    fn reset(&mut self) {
        self.0.reset()
    }
}

impl<P: SectionSyntaxPayloadParser<Context = Trace>, const WHERE: u8> SectionSyntaxPayloadParser
    for Passed<P, WHERE>
{
    type Context = Trace;

    fn start_syntax_section<'a>(
        &mut self,
        trace: &mut Trace,
        header: &SectionCommonHeader,
        table_header: &TableSyntaxHeader<'a>,
        data: &'a [u8],
    ) {
        Self::note(trace);
        self.0
            .start_syntax_section(trace, header, table_header, data)
    }

    fn continue_syntax_section(&mut self, trace: &mut Trace, data: &[u8]) {
        Self::note(trace);
        self.0.continue_syntax_section(trace, data)
    }

    fn reset(&mut self) {
        self.0.reset()
    }
}

/// Between the buffer and the CRC test: the section is whole.
struct Whole<P>(P);

impl<P: WholeSectionSyntaxPayloadParser<Context = Trace>> WholeSectionSyntaxPayloadParser
    for Whole<P>
{
    type Context = Trace;

    fn section<'a>(
        &mut self,
        trace: &mut Trace,
        header: &SectionCommonHeader,
        table_header: &TableSyntaxHeader<'a>,
        data: &'a [u8],
    ) {
        trace.call().whole = true;
        self.0.section(trace, header, table_header, data)
    }
}

/// The end of every stack: the section is delivered.
struct Sink;

impl WholeSectionSyntaxPayloadParser for Sink {
    type Context = Trace;

    fn section<'a>(
        &mut self,
        trace: &mut Trace,
        header: &SectionCommonHeader,
        table_header: &TableSyntaxHeader<'a>,
        data: &'a [u8],
    ) {
        let packet_at = trace.packet_at;
        let call = trace.call();
        call.table = Some(table_header_of(table_header));
        call.deliver(packet_at, header, data);
    }
}

impl WholeCompactSyntaxPayloadParser for Sink {
    type Context = Trace;

    fn section(&mut self, trace: &mut Trace, header: &SectionCommonHeader, data: &[u8]) {
        let packet_at = trace.packet_at;
        let call = trace.call();
        call.whole = true;
        call.table = None;
        call.deliver(packet_at, header, data);
    }
}

type Checked = BufferSectionSyntaxParser<Whole<CrcCheckWholeSectionSyntaxPayloadParser<Sink>>>;
type Compact = CompactSyntaxSectionProcessor<Passed<BufferCompactSyntaxParser<Sink>, BELOW_BOTH>>;
type Full = SectionSyntaxSectionProcessor<Passed<Checked, BELOW_BOTH>>;
type Once = SectionSyntaxSectionProcessor<
    Passed<DedupSectionSyntaxPayloadParser<Passed<Checked, BELOW_DEDUP>>, BELOW_PROCESSOR>,
>;

fn checked() -> Checked {
    let crc = CrcCheckWholeSectionSyntaxPayloadParser::new(Sink);
    BufferSectionSyntaxParser::new(Whole(crc))
}

enum Stack {
    Compact(SectionPacketConsumer<Outermost<Compact>>),
    Full(SectionPacketConsumer<Outermost<Full>>),
    Once(SectionPacketConsumer<Outermost<Once>>),
}

impl Stack {
    fn new(form: u8) -> Stack {
        match form {
            COMPACT => {
                let buffer = BufferCompactSyntaxParser::new(Sink);
                let processor = CompactSyntaxSectionProcessor::new(Passed(buffer));
                Stack::Compact(SectionPacketConsumer::new(Outermost(processor)))
            }
            FULL => {
                let processor = SectionSyntaxSectionProcessor::new(Passed(checked()));
                Stack::Full(SectionPacketConsumer::new(Outermost(processor)))
            }
            _ => {
                let dedup = DedupSectionSyntaxPayloadParser::new(Passed(checked()));
                let processor = SectionSyntaxSectionProcessor::new(Passed(dedup));
                Stack::Once(SectionPacketConsumer::new(Outermost(processor)))
            }
        }
    }
}

/// What the crate shows of a step.
pub struct CrateStep<'a> {
    pub answer: u8,
    call: &'a Call,
}

impl CrateStep<'_> {
    /// Nowhere, where nothing was delivered.
    pub fn place(&self) -> Place {
        if self.answer == 2 {
            self.call.place
        } else {
            Place::default()
        }
    }

    /// The delivered section.
    pub fn bytes(&self) -> &[u8] {
        &self.call.bytes[..usize::from(self.place().length)]
    }

    /// Which layer dropped bytes that continue no section: 0 the buffer, with a warning; 1 the processor, 2 the dedup layer, in silence.
    pub fn dropped_by(&self) -> usize {
        match (self.call.passed_processor, self.call.passed_dedup) {
            (true, true) => 0,
            (false, _) => 1,
            (true, false) => 2,
        }
    }

    /// The headers that came with the delivered section; COMPACT has no table header.
    pub fn headers(&self) -> (SectionHeader, Option<TableHeader>) {
        (self.call.section, self.call.table)
    }
}

pub struct CrateReader {
    stack: Stack,
    trace: Box<Trace>,
}

impl CrateReader {
    pub fn new(form: u8) -> CrateReader {
        let trace = Trace {
            packet_at: 0,
            in_head: false,
            tail: Call::new(),
            head: Call::new(),
        };
        CrateReader {
            stack: Stack::new(form),
            trace: Box::new(trace),
        }
    }

    /// As fresh as `new`, without making the trace again.
    pub fn renew(&mut self, form: u8) {
        self.stack = Stack::new(form);
    }

    /// Both steps of a packet of 188 bytes that starts with 0x47, or what the crate did that no answer is for.
    pub fn work(&mut self, bytes: &[u8]) -> Result<[CrateStep<'_>; 2], String> {
        self.consume(bytes)?;
        let trace = &self.trace;
        let (tail, head) = both_answers(trace, Said::take().answers())?;
        Ok([
            CrateStep {
                answer: tail,
                call: &trace.tail,
            },
            CrateStep {
                answer: head,
                call: &trace.head,
            },
        ])
    }

    /// Only for what it leaves: the packet's answers were compared before.
    pub fn consume(&mut self, bytes: &[u8]) -> Result<(), String> {
        let trace = &mut *self.trace;
        trace.packet_at = bytes.as_ptr() as usize;
        trace.in_head = false;
        trace.tail.clear();
        trace.head.clear();
        Said::take();
        let stack = &mut self.stack;
        caught(|| {
            let packet = packet::Packet::new(bytes);
            match stack {
                Stack::Compact(consumer) => consumer.consume(trace, &packet),
                Stack::Full(consumer) => consumer.consume(trace, &packet),
                Stack::Once(consumer) => consumer.consume(trace, &packet),
            }
        })
    }
}

/// From the two calls and from what the packet consumer itself warned of.
fn both_answers(trace: &Trace, consumer_said: &[u8]) -> Result<(u8, u8), String> {
    let no_call = !trace.tail.made && !trace.head.made;
    match consumer_said {
        [6] if no_call => Ok((6, 6)),
        [answer @ (7 | 8), 6] if no_call => Ok((*answer, *answer)),
        [9] if no_call => Ok((9, 9)),
        [10] if !trace.head.made => Ok((trace.tail.tail_answer()?, 10)),
        [] => Ok((trace.tail.tail_answer()?, trace.head.head_answer()?)),
        said => Err(format!("the packet consumer warned of {said:?}")),
    }
}
