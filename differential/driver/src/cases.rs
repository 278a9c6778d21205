//! The case lines, each answered by the function of the reference that it names.

use crate::lent;
use crate::placed::Disk;
use crate::reading::{bytes, flag, hex, number, number_or_none, refuse};
use crate::scan::{scan, Settings};
use crate::validator::Validator;
use alice_protocol_reader::fields;
use alice_protocol_reader::rdh::{ByteSlice, RdhCru, SerdeRdh, RDH_CRU};
use fastpasta::stats::stats_collector::trigger_stats::TriggerStats;
use fastpasta::stats::stats_collector::validate_other;
use fastpasta::words::its;
use std::io::{self, BufRead, BufWriter, Result, Write};
use std::panic::{catch_unwind, set_hook};

/// What earlier lines have set up for later ones.
struct State {
    recording: Vec<u8>,
    validator: Validator,
    first: TriggerStats,
    second: TriggerStats,
    disk: Disk,
}

pub fn answer_all() -> Result<()> {
    // A panic is an answer here, and its message would only disturb.
    set_hook(Box::new(|_| {}));
    let mut out = BufWriter::new(io::stdout().lock());
    let mut state = State {
        recording: Vec::new(),
        validator: Validator::new(None, false),
        first: TriggerStats::default(),
        second: TriggerStats::default(),
        disk: Disk::new()?,
    };
    for (i, line) in io::stdin().lock().lines().enumerate() {
        let line = line?;
        let words: Vec<&str> = line.split(' ').collect();
        if line.is_empty() || line.starts_with('#') {
            continue;
        }
        let answered = match set_up(&mut state, &words) {
            Ok(true) => Ok(()),
            Ok(false) => answer(&mut state, &words, &mut out).and_then(|()| writeln!(out, ".")),
            Err(e) => Err(e),
        };
        answered.map_err(|e| refuse(format!("line {}: {e}", i + 1)))?;
    }
    out.flush()
}

/// Lines that only set something up and have no answer. Says whether this was one.
fn set_up(state: &mut State, words: &[&str]) -> Result<bool> {
    match words {
        ["recording"] => state.recording.clear(),
        ["bytes", word] => state.recording.extend(bytes(word)?),
        ["repeat", times] => state.recording = state.recording.repeat(number(times)?),
        ["validator", version, its] => state.validator = Validator::new(number_or_none(version)?, flag(its)?),
        ["validator", "-", its, settled] => state.validator = Validator::settled(flag(its)?, number(settled)?)?,
        ["triggers"] => (state.first, state.second) = Default::default(),
        ["first", words @ ..] => collect(&mut state.first, words)?,
        ["second", words @ ..] => collect(&mut state.second, words)?,
        ["again", times, word] => {
            for _ in 0..number::<u64>(times)? {
                state.first.collect_stats(number(word)?);
            }
        }
        _ => return Ok(false),
    }
    Ok(true)
}

fn answer(state: &mut State, words: &[&str], out: &mut impl Write) -> Result<()> {
    match words {
        ["header", word, room @ ..] => header(&bytes(word)?, lent::length(room)?, out),
        ["pht", word] => writeln!(out, "pht {}", decode(&bytes(word)?)?.rdh2().is_pht_trigger() as u8),
        ["encode", word, room] => encode(&decode(&bytes(word)?)?, lent::length(&[room])?, out),
        ["equal", a, b] => writeln!(out, "equal {}", (decode(&bytes(a)?)? == decode(&bytes(b)?)?) as u8),
        ["verdict", word, room @ ..] => state.validator.verdict(&decode(&bytes(word)?)?, lent::length(room)?, out),
        ["fee", id] => {
            let id = number(id)?;
            writeln!(out, "fee {} {}", its::stave_number_from_feeid(id), its::layer_from_feeid(id))
        }
        ["feeid", layer, stave] => writeln!(out, "feeid {}", its::feeid_from_layer_stave(number(layer)?, number(stave)?)),
        ["match", a, b] => writeln!(out, "match {}", its::is_match_feeid_layer_stave(number(a)?, number(b)?) as u8),
        ["name", word] => name(bytes(word)?, out),
        ["list", room @ ..] => lent::put("", &state.first.to_string(), "", lent::length(room)?, out),
        ["compare", room @ ..] => lent::put("", &compared(&state.first, &state.second), "", lent::length(room)?, out),
        ["scan", settings @ ..] => {
            let settings = Settings::read(settings)?;
            scan(&settings, state.disk.hold(settings.part(&state.recording))?, out)
        }
        _ => Err(refuse(format!("no case: {}", words.join(" ")))),
    }
}

fn decode(buf: &[u8]) -> Result<RdhCru> {
    if buf.len() < 64 {
        return Err(refuse("fewer than 64 bytes".into()));
    }
    RdhCru::from_buf(buf)
}

fn header(buf: &[u8], room: Option<usize>, out: &mut impl Write) -> Result<()> {
    let Ok(rdh) = catch_unwind(|| RdhCru::from_buf(buf)) else {
        return writeln!(out, "panic");
    };
    let rdh = rdh?;
    write!(out, "fields")?;
    for field in fields(&rdh) {
        write!(out, " {field}")?;
    }
    writeln!(out, "\nbytes {}", hex(rdh.to_byte_slice()))?;
    lent::put("row ", &rdh.to_string(), "\n", room, out)
}

fn encode(rdh: &RdhCru, room: Option<usize>, out: &mut impl Write) -> Result<()> {
    let bytes = rdh.to_byte_slice();
    writeln!(out, "{}", if lent::fits(bytes, room) { "written" } else { "refused 9" })?;
    lent::buffer(bytes, room, out)
}

fn name(bytes: Vec<u8>, out: &mut impl Write) -> Result<()> {
    // The reference takes a `&str`: other bytes cannot be handed over.
    let Ok(name) = String::from_utf8(bytes) else {
        return writeln!(out, "no text");
    };
    match catch_unwind(|| its::layer_stave_string_to_feeid(&name)) {
        Ok(Some(id)) => writeln!(out, "name {id}"),
        Ok(None) => writeln!(out, "refused 8"),
        Err(_) => writeln!(out, "panic"),
    }
}

fn collect(counts: &mut TriggerStats, words: &[&str]) -> Result<()> {
    for word in words {
        counts.collect_stats(number(word)?);
    }
    Ok(())
}

/// The lines of a comparison, a line feed after each.
fn compared(first: &TriggerStats, second: &TriggerStats) -> String {
    validate_other(first, second).err().unwrap_or_default().iter().map(|line| format!("{line}\n")).collect()
}
