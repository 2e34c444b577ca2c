//! What the crate's warnings mean in document 01's numbers, by file and line.
//!
//! The checksums pin the lines; `check` looks all the same whether the words stand there.

/// file, line of its `warn!`, words at that line or in the next three, answer
const TABLE: [(&str, u32, &str, u8); 21] = [
    ("src/packet.rs", 625, "for AdaptationFieldAndPayload", 19),
    ("src/packet.rs", 639, "for AdaptationFieldOnly", 19),
    ("src/packet.rs", 676, "no payload data present", 7),
    ("src/packet.rs", 680, "too large", 8),
    ("src/psi/mod.rs", 198, "section data length too small", 16),
    ("src/psi/mod.rs", 208, "section crc check failed", 17),
    ("src/psi/mod.rs", 310, "section already complete", 15),
    ("src/psi/mod.rs", 394, "section already complete", 15),
    ("src/psi/mod.rs", 574, "section_syntax_indicator NOT", 11),
    // never seen: the bytes were tested to be three before
    ("src/psi/mod.rs", 581, "too short for header", 10),
    ("src/psi/mod.rs", 586, "is too large (limit", 13),
    ("src/psi/mod.rs", 648, "section_syntax_indicator be set", 11),
    ("src/psi/mod.rs", 655, "too short for header", 12),
    ("src/psi/mod.rs", 660, "is too large (limit", 13),
    ("src/psi/mod.rs", 750, "PSI pointer beyond end", 9),
    (
        "src/psi/mod.rs",
        761,
        "not enough bytes to read section header",
        10,
    ),
    // behind 7 and 8 too
    ("src/psi/mod.rs", 775, "no payload present", 6),
    ("src/psi/pat.rs", 85, "too few bytes remaining", 24),
    // never seen: `from_bytes` tested it before
    (
        "src/psi/pmt.rs",
        89,
        "extends beyond end of PMT section",
        22,
    ),
    ("src/psi/pmt.rs", 143, "bytes remaining for stream info", 27),
    (
        "src/psi/pmt.rs",
        155,
        "is not large enough to contain es_info_length",
        28,
    ),
];

const SOURCES: [(&str, &str); 4] = [
    (
        "src/packet.rs",
        include_str!("../../target/mpeg2ts-reader/src/packet.rs"),
    ),
    (
        "src/psi/mod.rs",
        include_str!("../../target/mpeg2ts-reader/src/psi/mod.rs"),
    ),
    (
        "src/psi/pat.rs",
        include_str!("../../target/mpeg2ts-reader/src/psi/pat.rs"),
    ),
    (
        "src/psi/pmt.rs",
        include_str!("../../target/mpeg2ts-reader/src/psi/pmt.rs"),
    ),
];

/// No number of document 01: a warning that the table lacks.
pub const UNKNOWN: u8 = 255;

/// Whether every line of the table is what it says, in the sources that were compiled.
pub fn check() -> Result<(), String> {
    for (file, line, words, _) in TABLE {
        let (_, source) = SOURCES.iter().find(|(name, _)| *name == file).unwrap();
        let mut lines = source.lines().skip(line as usize - 1).take(4).peekable();
        let warns = lines.peek().is_some_and(|first| first.contains("warn!("));
        if !warns || !lines.any(|line| line.contains(words)) {
            return Err(format!("{file}:{line} does not warn of {words:?}"));
        }
    }
    Ok(())
}

fn answer(place: log::Place) -> u8 {
    let (file, line) = place;
    let mut rows = TABLE.iter();
    let row = rows.find(|row| row.1 == line && file.ends_with(row.0));
    row.map_or(UNKNOWN, |row| row.3)
}

/// What the crate warned of since the last call, in document 01's numbers.
#[derive(Clone, Copy, Debug, Default)]
pub struct Said {
    count: usize,
    answers: [u8; 4],
}

impl Said {
    pub fn take() -> Said {
        let warnings = log::take_warnings();
        let mut said = Said {
            count: warnings.count,
            answers: [UNKNOWN; 4],
        };
        for (to, place) in said.answers.iter_mut().zip(warnings.kept()) {
            *to = answer(*place);
        }
        said
    }

    /// Empty where the crate was silent; with a number that is no answer where it warned of more than four things.
    pub fn answers(&self) -> &[u8] {
        &self.answers[..self.count.min(4)]
    }
}
