//! The reference's verdicts on RDH0 alone: words of eight bytes on standard input, a line for each.

use alice_protocol_reader::rdh::{Rdh0, RdhSubword};
use fastpasta::analyze::validators::rdh::Rdh0Validator;
use std::io::{stdin, stdout, BufWriter, Read, Result, Write};

/// One validator is asked, as the reference makes it: without a version and without ITS. So the first word settles the header ID.
pub fn answer_all() -> Result<()> {
    let mut words = Vec::new();
    stdin().read_to_end(&mut words)?;
    let mut validator = Rdh0Validator::default();
    let mut out = BufWriter::new(stdout());
    for word in words.chunks_exact(8) {
        match validator.sanity_check(&Rdh0::from_buf(word)?) {
            Ok(()) => writeln!(out, "sound")?,
            Err(text) => writeln!(out, "{text}")?,
        }
    }
    out.flush()
}
