//! How long the reference takes for a recording, in nanoseconds for each packet.

use crate::listing::list;
use crate::scan::Settings;
use alice_protocol_reader::input_scanner::InputScanner;
use alice_protocol_reader::rdh::{RdhCru, RDH_CRU};
use alice_protocol_reader::scan_cdp::ScanCDP;
use fastpasta::stats::stats_collector::trigger_stats::TriggerStats;
use std::fs::File;
use std::hint::black_box;
use std::io::{BufReader, BufWriter, Result, Write};
use std::time::Instant;

/// Loads until the first refusal. `buffer` is the size of the reader's buffer: `BufReader::new` takes 8192. With statistics on, our load counts
/// the trigger words of the headers too, so the reference does: there is no filter, and each header that it has seen is handed out.
pub fn loads(file: &str, skip: bool, stats: bool, buffer: usize, times: usize) -> Result<()> {
    let settings = Settings { skip, stats, ..Settings::default() };
    let title = format!("load skip={} stats={} buffer={buffer}", skip as u8, stats as u8);
    report(&title, times, || {
        let reader = BufReader::with_capacity(buffer, File::open(file)?);
        let (sender, _messages) = flume::unbounded();
        let mut scanner = InputScanner::new(&settings, Box::new(reader), stats.then_some(sender));
        let mut triggers = TriggerStats::default();
        let mut packets = 0;
        while let Ok(packet) = scanner.load_cdp::<RdhCru>() {
            if stats {
                triggers.collect_stats(packet.0.trigger_type());
            }
            black_box(&packet);
            packets += 1;
        }
        black_box(&triggers);
        Ok(packets)
    })
}

/// Loads with payload and statistics, and the row and the verdict of each packet, written to /dev/null through a buffer of 64 KiB.
pub fn listing(file: &str, buffer: usize, times: usize) -> Result<()> {
    report(&format!("list buffer={buffer}"), times, || {
        let mut out = BufWriter::with_capacity(65536, File::options().write(true).open("/dev/null")?);
        let packets = list(BufReader::with_capacity(buffer, File::open(file)?), &mut out)?;
        out.flush()?;
        Ok(packets)
    })
}

/// Runs `times` times and prints the number of packets, and the best and the middle run's time for a packet.
fn report(title: &str, times: usize, run: impl Fn() -> Result<u64>) -> Result<()> {
    let mut packets = 0;
    let mut nanoseconds = Vec::new();
    for _ in 0..times.max(1) {
        let start = Instant::now();
        packets = run()?;
        nanoseconds.push(start.elapsed().as_nanos() as f64 / packets.max(1) as f64);
    }
    nanoseconds.sort_by(f64::total_cmp);
    let middle = nanoseconds[nanoseconds.len() / 2];
    println!("{title} packets {packets} best {:.1} middle {middle:.1}", nanoseconds[0]);
    Ok(())
}
