//! The listing of a recording, as the rules P of docs/READER.md define it, made by the reference's functions.

use crate::messages::Messages;
use crate::scan::Settings;
use crate::validator::validator;
use alice_protocol_reader::input_scanner::InputScanner;
use alice_protocol_reader::rdh::RdhCru;
use alice_protocol_reader::scan_cdp::ScanCDP;
use std::fs::File;
use std::io::{self, BufReader, BufWriter, ErrorKind, Result, Write};

pub fn to_stdout(file: &str) -> Result<()> {
    let mut out = BufWriter::new(io::stdout().lock());
    list(BufReader::new(File::open(file)?), &mut out)?;
    out.flush()
}

/// Writes the listing and returns the number of packets.
pub fn list(recording: BufReader<File>, out: &mut impl Write) -> Result<u64> {
    let settings = Settings { stats: true, ..Settings::default() };
    let (sender, receiver) = flume::unbounded();
    let mut scanner = InputScanner::new(&settings, Box::new(recording), Some(sender));
    let mut validator = validator(None, false);
    let mut packets = 0;
    let end = loop {
        let (rdh, _, position) = match scanner.load_cdp::<RdhCru>() {
            Ok(packet) => packet,
            Err(e) if e.kind() == ErrorKind::UnexpectedEof => break 1,
            Err(e) if e.kind() == ErrorKind::InvalidData => break 2,
            Err(e) => return Err(e),
        };
        packets += 1;
        writeln!(out, "{position:#X}: {rdh}")?;
        if let Err(text) = validator.sanity_check(&rdh) {
            writeln!(out, "{position:#X}: {text}")?;
        }
    };
    // The counts are reported when the scanner is given back.
    drop(scanner);
    let [seen, filtered, payload] = Messages::from(receiver.try_iter()).counts();
    writeln!(out, "seen {seen}\nfiltered {filtered}\npayload {payload}\nend {end}")?;
    Ok(packets)
}
