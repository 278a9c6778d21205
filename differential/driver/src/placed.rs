//! The file that a recording is read from, and the place at which its reader stands.

use alice_protocol_reader::bufreader_wrapper::BufferedReaderWrapper;
use std::fs::{remove_file, File, OpenOptions};
use std::io::{BufReader, Read, Result, Seek, SeekFrom, Write};
use std::sync::atomic::{AtomicU64, Ordering};
use std::sync::Arc;

/// A file of its own for the recordings: the reference reads files. It has no name, and is gone when the program ends.
pub struct Disk(File);

impl Disk {
    pub fn new() -> Result<Self> {
        let path = std::env::temp_dir().join(format!("differential-{}", std::process::id()));
        let file = OpenOptions::new().read(true).write(true).create_new(true).open(&path)?;
        remove_file(&path)?;
        Ok(Disk(file))
    }

    /// The file with the recording as its content, to be read from its start.
    pub fn hold(&mut self, recording: &[u8]) -> Result<File> {
        self.0.set_len(0)?;
        self.0.seek(SeekFrom::Start(0))?;
        self.0.write_all(recording)?;
        self.0.seek(SeekFrom::Start(0))?;
        self.0.try_clone()
    }
}

/// The reference's reader, `BufReader<File>`, and its byte place after each call, which the scanner does not tell. Every call goes
/// straight on to it.
pub struct Placed {
    reader: BufReader<File>,
    place: Place,
}

/// The byte place, shared by the reader that moves it and whoever asks for it.
#[derive(Clone, Default)]
pub struct Place(Arc<AtomicU64>);

impl Place {
    pub fn now(&self) -> u64 {
        self.0.load(Ordering::Relaxed)
    }
}

impl Placed {
    pub fn new(file: File) -> (Self, Place) {
        let place = Place::default();
        (Placed { reader: BufReader::new(file), place: place.clone() }, place)
    }

    fn after<T>(&mut self, answer: T) -> T {
        self.place.0.store(self.reader.stream_position().unwrap(), Ordering::Relaxed);
        answer
    }
}

impl Read for Placed {
    fn read(&mut self, buf: &mut [u8]) -> Result<usize> {
        let answer = self.reader.read(buf);
        self.after(answer)
    }
    fn read_exact(&mut self, buf: &mut [u8]) -> Result<()> {
        let answer = self.reader.read_exact(buf);
        self.after(answer)
    }
}

impl Seek for Placed {
    fn seek(&mut self, to: SeekFrom) -> Result<u64> {
        let answer = self.reader.seek(to);
        self.after(answer)
    }
}

impl BufferedReaderWrapper for Placed {
    fn seek_relative_offset(&mut self, offset: i64) -> Result<()> {
        let answer = self.reader.seek_relative_offset(offset);
        self.after(answer)
    }
}
