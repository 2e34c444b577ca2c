//! pat: prints every PAT of the transport stream in a file, one line each.
//!
//!     cargo run --example pat ../../capture/line-up-change.ts
use jambpepper::pat::{self, ProgramDescriptor};
use jambpepper::{packet, psi, Form, Gathered, Reader, Refusal};
use std::ffi::OsStr;
use std::io::{self, Write};
use std::{env, error::Error, fs, process::ExitCode};

fn line_of(section: &[u8]) -> Result<String, Refusal> {
    let mut line = format!("version {}", psi::table_header(section)?.version);
    for program in pat::programs(psi::body(section)?) {
        line += &match program {
            Ok(ProgramDescriptor::Network { pid }) => format!(", network on {pid}"),
            Ok(ProgramDescriptor::Program {
                program_number,
                pid,
            }) => format!(", {program_number} on {pid}"),
            Err(refusal) => format!(", broken off with answer {}: {refusal}", refusal.number()),
        };
    }
    Ok(line)
}

fn is_of_pat_pid(packet: &[u8]) -> bool {
    matches!(packet::header(packet), Ok(header) if header.pid == packet::PAT_PID)
}

fn print_pats(name: &OsStr) -> Result<(), Box<dyn Error>> {
    let stream = fs::read(name)?;
    let mut out = io::stdout().lock();
    let mut reader = Reader::fresh(Form::Full);
    let mut buffer = [0; Reader::BUFFER_SIZE];
    let packets = stream.chunks_exact(packet::SIZE);
    let mut sections = 0;
    for (number, packet) in packets.clone().enumerate() {
        if !is_of_pat_pid(packet) {
            continue;
        }
        for work in [Reader::tail, Reader::head] {
            let step = work(reader, packet, &mut buffer);
            reader = step.reader;
            if step.answer == Ok(Gathered::Delivered) {
                let line = line_of(step.section(packet, &buffer))?;
                writeln!(out, "packet {number}: {line}")?;
                sections += 1;
            }
        }
    }
    writeln!(out, "{} packets, {sections} sections", packets.len())?;
    Ok(())
}

fn main() -> ExitCode {
    let arguments: Vec<_> = env::args_os().collect();
    if arguments.len() != 2 {
        eprintln!("usage: pat FILE");
        return ExitCode::from(2);
    }
    let name = &arguments[1];
    if let Err(error) = print_pats(name) {
        eprintln!("pat: {}: {error}", name.to_string_lossy());
        return ExitCode::FAILURE;
    }
    ExitCode::SUCCESS
}
