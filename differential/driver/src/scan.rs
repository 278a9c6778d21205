//! A scan: loads over a recording by the reference's `InputScanner`, and everything that it answers and reports.

use crate::messages::Messages;
use crate::placed::Placed;
use crate::reading::{flag, hex, number, number_or_none, refuse};
use crate::seen::{take_words, Noted};
use alice_protocol_reader::config::filter::FilterOpt;
use alice_protocol_reader::input_scanner::InputScanner;
use alice_protocol_reader::rdh::{ByteSlice, RdhCru};
use alice_protocol_reader::scan_cdp::ScanCDP;
use fastpasta::stats::stats_collector::trigger_stats::TriggerStats;
use std::fs::File;
use std::io::{Error, ErrorKind, Result, Write};

/// What a scan is asked to do.
#[derive(Default)]
pub struct Settings {
    pub link: Option<u8>,
    pub fee: Option<u16>,
    pub stave: Option<u16>,
    pub skip: bool,
    pub stats: bool,
    /// How many loads to go on for after a refusal.
    pub more: u64,
    /// How many loads there may be in all.
    pub loads: Option<u64>,
    /// How many bytes of the recording there are, if not all.
    pub length: Option<usize>,
}

impl Settings {
    /// Words of the form key=value. Keys that only the port has are left alone.
    pub fn read(words: &[&str]) -> Result<Self> {
        let mut settings = Settings::default();
        for word in words {
            match word.split_once('=') {
                Some(("link", value)) => settings.link = number_or_none(value)?,
                Some(("fee", value)) => settings.fee = number_or_none(value)?,
                Some(("stave", value)) => settings.stave = number_or_none(value)?,
                Some(("skip", value)) => settings.skip = flag(value)?,
                Some(("stats", value)) => settings.stats = flag(value)?,
                Some(("more", value)) => settings.more = number(value)?,
                Some(("loads", value)) => settings.loads = number_or_none(value)?,
                Some(("length", value)) => settings.length = number_or_none(value)?,
                Some(("window" | "back" | "places", _)) => {}
                _ => return Err(refuse(format!("no setting of a scan: {word}"))),
            }
        }
        Ok(settings)
    }

    /// The recording, or the first bytes of it.
    pub fn part<'a>(&self, recording: &'a [u8]) -> &'a [u8] {
        &recording[..self.length.map_or(recording.len(), |n| n.min(recording.len()))]
    }
}

impl FilterOpt for Settings {
    fn skip_payload(&self) -> bool {
        self.skip
    }
    fn filter_link(&self) -> Option<u8> {
        self.link
    }
    fn filter_fee(&self) -> Option<u16> {
        self.fee
    }
    fn filter_its_stave(&self) -> Option<u16> {
        self.stave
    }
}

/// Loads until a refusal, and `more` loads after it, and prints each load's answer, messages, byte place and position; at last the counts,
/// and the trigger counts of all headers that were seen.
pub fn scan(settings: &Settings, recording: File, out: &mut impl Write) -> Result<()> {
    take_words(); // what a scan without statistics has left
    let (reader, place) = Placed::new(recording);
    let (sender, receiver) = flume::unbounded();
    let mut scanner = InputScanner::new(settings, Box::new(reader), settings.stats.then_some(sender));
    let mut loads = settings.loads.unwrap_or(u64::MAX);
    let mut more = settings.more;
    while loads > 0 {
        loads -= 1;
        let answer = scanner.load_cdp::<Noted>().map(|(rdh, payload, position)| (rdh.into_rdh(), payload, position));
        let refused = answer.is_err();
        let mut messages = Messages::from(receiver.try_iter());
        messages.check(settings, &answer);
        match answer {
            Ok((rdh, payload, position)) => packet(&rdh, &payload, position, out)?,
            Err(e) => refusal(&e, out)?,
        }
        messages.print(out)?;
        writeln!(out, "place {}\nposition {}", place.now(), scanner.current_mem_pos())?;
        if refused && more == 0 {
            break;
        }
        more -= refused as u64;
    }
    // The counts are reported when the scanner is given back.
    drop(scanner);
    let [seen, filtered, payload] = Messages::from(receiver.try_iter()).counts();
    writeln!(out, "counts {seen} {filtered} {payload}")?;
    // With statistics off nothing is counted.
    let words = if settings.stats { take_words() } else { Vec::new() };
    if words.len() as u64 % u64::from(u32::MAX) != u64::from(seen) {
        writeln!(out, "unexpected: {} headers were noted as seen", words.len())?;
    }
    triggers(&words, out)
}

/// The trigger words, counted by the reference.
fn triggers(words: &[u32], out: &mut impl Write) -> Result<()> {
    let mut counts = TriggerStats::default();
    words.iter().for_each(|word| counts.collect_stats(*word));
    let of_bits = [
        [counts.orbit(), counts.hb(), counts.hbr(), counts.hc(), counts.pht()],
        [counts.pp(), counts.cal(), counts.sot(), counts.eot(), counts.soc()],
        [counts.eoc(), counts.tf(), counts.fe_rst(), counts.rt(), counts.rs()],
        [counts.lhc_gap1(), counts.lhc_gap2(), counts.tpc_sync(), counts.tpc_rst(), counts.tof()],
    ];
    write!(out, "triggers")?;
    for count in of_bits.iter().flatten() {
        write!(out, " {count}")?;
    }
    writeln!(out)
}

fn packet(rdh: &RdhCru, payload: &[u8], position: u64, out: &mut impl Write) -> Result<()> {
    writeln!(out, "packet {position}\nheader {}", hex(rdh.to_byte_slice()))?;
    match payload {
        [] => writeln!(out, "payload 0"),
        _ => writeln!(out, "payload {} {}", payload.len(), hex(payload)),
    }
}

fn refusal(e: &Error, out: &mut impl Write) -> Result<()> {
    let text = e.to_string();
    match (e.kind(), offset_and_position(&text)) {
        (ErrorKind::UnexpectedEof, _) => writeln!(out, "refused 1"),
        (ErrorKind::InvalidData, Some((offset, position))) => writeln!(out, "refused 2 {offset} {position}"),
        (kind, _) => writeln!(out, "unexpected: {kind:?} {text:?}"),
    }
}

/// The two numbers in the text of a bad offset: `RDH offset to next is -1. \n[0x0]:\n..`.
fn offset_and_position(text: &str) -> Option<(i64, u64)> {
    let (offset, rest) = text.strip_prefix("RDH offset to next is ")?.split_once(". \n[0x")?;
    let (position, _) = rest.split_once("]:")?;
    Some((offset.parse().ok()?, u64::from_str_radix(position, 16).ok()?))
}
