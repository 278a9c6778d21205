//! What the scanner reports through its channel while it loads.

use crate::scan::Settings;
use alice_protocol_reader::rdh::{RdhCru, RDH_CRU};
use alice_protocol_reader::stats::InputStatType;
use std::io::{ErrorKind, Result, Write};

/// The messages that came with one load, by kind. The port's reply does not say in which order messages of different kinds came.
#[derive(Default)]
pub struct Messages {
    trigger_type: Vec<u32>,
    data_format: Vec<u8>,
    system_id: Vec<u8>,
    links: Vec<u8>,
    fee_ids: Vec<u16>,
    seen: Vec<u32>,
    filtered: Vec<u32>,
    payload: Vec<u32>,
    e100: bool,
    fatal: Option<Box<str>>,
    unexpected: Vec<String>,
}

impl Messages {
    pub fn from(messages: impl Iterator<Item = InputStatType>) -> Self {
        let mut by_kind = Messages::default();
        for message in messages {
            match message {
                InputStatType::RunTriggerType(n) => by_kind.trigger_type.push(n),
                InputStatType::DataFormat(n) => by_kind.data_format.push(n),
                InputStatType::SystemId(n) => by_kind.system_id.push(n),
                InputStatType::LinksObserved(n) => by_kind.links.push(n),
                InputStatType::FeeId(n) => by_kind.fee_ids.push(n),
                InputStatType::RDHSeen(n) => by_kind.seen.push(n),
                InputStatType::RDHFiltered(n) => by_kind.filtered.push(n),
                InputStatType::PayloadSize(n) => by_kind.payload.push(n),
                InputStatType::Error(text) if text.contains("[E100]") && !by_kind.e100 => by_kind.e100 = true,
                InputStatType::Fatal(text) if by_kind.fatal.is_none() => by_kind.fatal = Some(text),
                InputStatType::Error(text) | InputStatType::Fatal(text) => by_kind.unexpected.push(text.into()),
            }
        }
        by_kind
    }

    /// Holds what was reported against what was answered. A payload that came out empty though it has a size was cut: E100. A bad
    /// offset is fatal, with the error's own text. With statistics off nothing is reported, and E100 is known from the payload alone.
    pub fn check(&mut self, settings: &Settings, answer: &Result<(RdhCru, Vec<u8>, u64)>) {
        let (cut, fatal) = match answer {
            Ok((rdh, payload, _)) => (!settings.skip && payload.is_empty() && rdh.payload_size() != 0, None),
            Err(e) => (false, (e.kind() == ErrorKind::InvalidData).then(|| e.to_string())),
        };
        let due = if settings.stats { (cut, fatal.as_deref()) } else { (false, None) };
        if (self.e100, self.fatal.as_deref()) != due {
            self.unexpected.push(format!("E100 {}, fatal {:?}, where {due:?} was due", self.e100, self.fatal));
        }
        self.e100 = cut;
    }

    /// The counts seen, filtered and payload as they were reported last; 0 if they were not.
    pub fn counts(&self) -> [u32; 3] {
        [&self.seen, &self.filtered, &self.payload].map(|counts| counts.last().copied().unwrap_or(0))
    }

    pub fn print(&self, out: &mut impl Write) -> Result<()> {
        match (&self.trigger_type[..], &self.data_format[..], &self.system_id[..]) {
            ([], [], []) => {}
            ([trigger_type], [data_format], [system_id]) => writeln!(out, "mark initial {trigger_type} {data_format} {system_id}")?,
            parts => writeln!(out, "unexpected: {parts:?}")?,
        }
        for (name, carries) in [("seen", &self.seen), ("filtered", &self.filtered), ("payload", &self.payload)] {
            if !carries.is_empty() {
                writeln!(out, "mark {name} {}", carries.len())?;
            }
        }
        if self.e100 {
            writeln!(out, "mark e100")?;
        }
        for link in &self.links {
            writeln!(out, "link {link}")?;
        }
        for fee_id in &self.fee_ids {
            writeln!(out, "fee {fee_id}")?;
        }
        for text in &self.unexpected {
            writeln!(out, "unexpected: {text:?}")?;
        }
        Ok(())
    }
}
