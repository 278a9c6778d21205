//! Which headers the scanner counts as seen, which it does not tell but by their number.

use alice_protocol_reader::rdh::rdh1::Rdh1;
use alice_protocol_reader::rdh::rdh2::Rdh2;
use alice_protocol_reader::rdh::rdh3::Rdh3;
use alice_protocol_reader::rdh::{ByteSlice, Rdh0, RdhCru, SerdeRdh, RDH, RDH_CRU};
use std::cell::RefCell;
use std::fmt;
use std::io::Result;
use std::sync::atomic::{AtomicU8, Ordering};

thread_local! {
    static WORDS: RefCell<Vec<u32>> = const { RefCell::new(Vec::new()) };
}

/// The trigger words of the headers that were seen since this was last called, in order.
pub fn take_words() -> Vec<u32> {
    WORDS.take()
}

const LINK: u8 = 1;
const FEE_ID: u8 = 2;

/// The reference's header, for its scanner to load. It hands on whatever it is asked, and notes its trigger word when it has been asked for
/// its link and for its FEE id. With statistics on, the scanner asks for both where it counts a header as seen (`collect_rdh_seen_stats`)
/// and nowhere else: a filter asks for one of them, and the test of the offset for none.
pub struct Noted {
    rdh: RdhCru,
    asked: AtomicU8,
}

impl Noted {
    pub fn into_rdh(self) -> RdhCru {
        self.rdh
    }

    fn note(&self, what: u8) {
        let before = self.asked.fetch_or(what, Ordering::Relaxed);
        if before | what == LINK | FEE_ID && before != LINK | FEE_ID {
            WORDS.with_borrow_mut(|words| words.push(self.rdh.trigger_type()));
        }
    }
}

macro_rules! handed_on {
    ($($name:ident: $of:ty),*) => {
        $(fn $name(&self) -> $of {
            self.rdh.$name()
        })*
    };
}

impl RDH_CRU for Noted {
    fn link_id(&self) -> u8 {
        self.note(LINK);
        self.rdh.link_id()
    }
    fn fee_id(&self) -> u16 {
        self.note(FEE_ID);
        self.rdh.fee_id()
    }
    handed_on!(version: u8, rdh0: &Rdh0, rdh1: &Rdh1, rdh2: &Rdh2, rdh3: &Rdh3, payload_size: u16, offset_to_next: u16, stop_bit: u8);
    handed_on!(pages_counter: u16, data_format: u8, trigger_type: u32, cru_id: u16, dw: u8, packet_counter: u8);
}

impl RDH for Noted {
    handed_on!(to_styled_row_view: String);
}

impl SerdeRdh for Noted {
    fn from_rdh0_and_buf(rdh0: Rdh0, buf: &[u8]) -> Result<Self> {
        let rdh = RdhCru::from_rdh0_and_buf(rdh0, buf)?;
        Ok(Noted { rdh, asked: AtomicU8::new(0) })
    }
}

impl ByteSlice for Noted {
    fn to_byte_slice(&self) -> &[u8] {
        self.rdh.to_byte_slice()
    }
}

impl PartialEq for Noted {
    fn eq(&self, other: &Self) -> bool {
        self.rdh == other.rdh
    }
}

impl fmt::Display for Noted {
    fn fmt(&self, f: &mut fmt::Formatter) -> fmt::Result {
        self.rdh.fmt(f)
    }
}

impl fmt::Debug for Noted {
    fn fmt(&self, f: &mut fmt::Formatter) -> fmt::Result {
        self.rdh.fmt(f)
    }
}
