//! Stands in for the reference's `lib.rs` and `prelude`: it names the modules that are compared, and nothing of theirs is here.

pub mod bufreader_wrapper;
pub mod config {
    pub mod filter;
}
pub mod input_scanner;
pub mod mem_pos_tracker;
pub mod rdh;
pub mod scan_cdp;
pub mod stats;

pub mod prelude {
    pub use crate::rdh::{RdhCru, BLUE, GREEN};
}

/// A door to fields that are open within this crate only: all of them, in the order of the 64 bytes.
pub fn fields(rdh: &rdh::RdhCru) -> [u64; 26] {
    use rdh::RDH_CRU;
    let (rdh0, rdh1, rdh2, rdh3) = (rdh.rdh0(), rdh.rdh1(), rdh.rdh2(), rdh.rdh3());
    [
        rdh0.header_id.into(),
        rdh0.header_size.into(),
        rdh0.fee_id().into(),
        rdh0.priority_bit.into(),
        rdh0.system_id.into(),
        rdh0.reserved0.into(),
        rdh.offset_new_packet.into(),
        rdh.memory_size.into(),
        rdh.link_id.into(),
        rdh.packet_counter.into(),
        rdh.cru_id().into(),
        rdh.dw().into(),
        rdh1.bc().into(),
        rdh1.reserved0().into(),
        rdh1.orbit.into(),
        rdh.data_format().into(),
        rdh.reserved0(),
        rdh2.trigger_type.into(),
        rdh2.pages_counter.into(),
        rdh2.stop_bit.into(),
        rdh2.reserved0.into(),
        rdh.reserved1(),
        rdh3.detector_field.into(),
        rdh3.par_bit.into(),
        rdh3.reserved0.into(),
        rdh.reserved2(),
    ]
}
