//! The Rust crate, its types stacked as each form has them.
use crate::delivered::Delivered;
use crate::inputs::Input;
use mpeg2ts_reader::packet::Packet;
use mpeg2ts_reader::psi::{
    BufferCompactSyntaxParser, BufferSectionSyntaxParser, CompactSyntaxSectionProcessor,
    CrcCheckWholeSectionSyntaxPayloadParser, DedupSectionSyntaxPayloadParser, SectionCommonHeader,
    SectionPacketConsumer, SectionProcessor, SectionSyntaxSectionProcessor, TableSyntaxHeader,
    WholeCompactSyntaxPayloadParser, WholeSectionSyntaxPayloadParser,
};

struct Host;

impl WholeSectionSyntaxPayloadParser for Host {
    type Context = Delivered;

    #[inline(always)]
    fn section<'a>(
        &mut self,
        delivered: &mut Delivered,
        _: &SectionCommonHeader,
        _: &TableSyntaxHeader<'a>,
        section: &'a [u8],
    ) {
        delivered.take(section);
    }
}

impl WholeCompactSyntaxPayloadParser for Host {
    type Context = Delivered;

    #[inline(always)]
    fn section(&mut self, delivered: &mut Delivered, _: &SectionCommonHeader, section: &[u8]) {
        delivered.take(section);
    }
}

#[inline(always)]
fn read<P: SectionProcessor<Context = Delivered>>(new: fn() -> P, input: &Input) -> Delivered {
    let mut readers: Vec<_> = (0..input.reader_count)
        .map(|_| SectionPacketConsumer::new(new()))
        .collect();
    let mut delivered = Delivered::default();
    for (packet, reader) in input.packets() {
        if let Some(packet) = Packet::try_new(packet) {
            readers[reader].consume(&mut delivered, &packet);
        }
    }
    delivered
}

fn buffer() -> BufferSectionSyntaxParser<CrcCheckWholeSectionSyntaxPayloadParser<Host>> {
    BufferSectionSyntaxParser::new(CrcCheckWholeSectionSyntaxPayloadParser::new(Host))
}

#[inline(never)]
pub fn compact(input: &Input) -> Delivered {
    read(
        || CompactSyntaxSectionProcessor::new(BufferCompactSyntaxParser::new(Host)),
        input,
    )
}

#[inline(never)]
pub fn full(input: &Input) -> Delivered {
    read(|| SectionSyntaxSectionProcessor::new(buffer()), input)
}

#[inline(never)]
pub fn once(input: &Input) -> Delivered {
    read(
        || SectionSyntaxSectionProcessor::new(DedupSectionSyntaxPayloadParser::new(buffer())),
        input,
    )
}
