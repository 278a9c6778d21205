//! The reference's validator, asked for verdicts one after the other.

use crate::lent;
use alice_protocol_reader::rdh::{RdhCru, SerdeRdh, RDH_CRU};
use fastpasta::analyze::validators::rdh::RdhCruSanityValidator;
use fastpasta::config::{CheckCommands, ChecksOpt, CustomChecksOpt, System};
use std::io::{Result, Write};

/// The reference's validator, and what it was made from and has settled, which it does not tell.
pub struct Validator {
    checks: RdhCruSanityValidator<RdhCru>,
    version: Option<u8>,
    its: bool,
    settled: Option<u8>,
}

impl Validator {
    pub fn new(version: Option<u8>, its: bool) -> Self {
        Validator { checks: validator(version, its), version, its, settled: None }
    }

    /// One that has checked a header with this ID.
    pub fn settled(its: bool, id: u8) -> Result<Self> {
        let mut made = Validator::new(None, its);
        made.check(&RdhCru::from_buf(&[id; 64])?);
        Ok(made)
    }

    fn check(&mut self, rdh: &RdhCru) -> Option<String> {
        if self.version.is_none() && self.settled.is_none() {
            self.settled = Some(rdh.version());
        }
        self.checks.sanity_check(rdh).err()
    }

    pub fn verdict(&mut self, rdh: &RdhCru, room: Option<usize>, out: &mut impl Write) -> Result<()> {
        let before = self.settled;
        let text = self.check(rdh);
        match &text {
            None => {
                writeln!(out, "sound")?;
                lent::buffer(b"", room, out)?;
            }
            Some(text) => lent::put("flawed ", text, "\n", room, out)?,
        }
        if before.is_none() && !lent::fits(text.unwrap_or_default().as_bytes(), room) {
            // Refusal 7 settles nothing.
            *self = Validator::new(self.version, self.its);
        }
        match room {
            None => Ok(()),
            Some(_) => self.print(out),
        }
    }

    /// The line that sets up a validator like this one.
    fn print(&self, out: &mut impl Write) -> Result<()> {
        let version = self.version.map_or("-".into(), |id| id.to_string());
        let settled = self.settled.map_or(String::new(), |id| format!(" {id}"));
        writeln!(out, "validator {version} {}{settled}", self.its as u8)
    }
}

struct Config {
    version: Option<u8>,
    its: bool,
}

impl ChecksOpt for Config {
    fn check(&self) -> Option<CheckCommands> {
        Some(CheckCommands(self.its.then_some(System::ITS)))
    }
}

impl CustomChecksOpt for Config {
    fn custom_checks_enabled(&'static self) -> bool {
        self.version.is_some()
    }
    fn rdh_version(&'static self) -> Option<u8> {
        self.version
    }
}

/// A validator as the reference makes it from a configuration, which must live on: its few bytes are never given back.
pub fn validator(version: Option<u8>, its: bool) -> RdhCruSanityValidator<RdhCru> {
    RdhCruSanityValidator::new_from_config(Box::leak(Box::new(Config { version, its })))
}
