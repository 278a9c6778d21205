//! Stands in for the reference's `lib.rs`, `util` and configuration: it names the modules that are compared, and gives them the names
//! that they take from `crate::util`.

pub mod analyze {
    pub mod validators {
        pub mod rdh;
    }
}

pub mod words {
    pub mod its;
}

pub mod stats {
    pub mod lib;

    pub mod stats_collector {
        pub mod trigger_stats;
        use trigger_stats::TriggerStats;

        /// A door to the comparison, which is open to this module only.
        pub fn validate_other(this: &TriggerStats, other: &TriggerStats) -> Result<(), Vec<String>> {
            this.validate_other(other)
        }
    }
}

/// What the validator asks of a configuration: the functions that it calls, of the reference's `ChecksOpt` and `CustomChecksOpt`.
pub mod config {
    #[allow(non_camel_case_types)]
    pub enum System {
        ITS,
        ITS_Stave,
    }

    /// The reference's has two cases, which differ in nothing that the validator sees.
    pub struct CheckCommands(pub Option<System>);

    impl CheckCommands {
        pub fn target(self) -> Option<System> {
            self.0
        }
    }

    pub trait ChecksOpt {
        fn check(&self) -> Option<CheckCommands>;
    }

    pub trait CustomChecksOpt {
        fn custom_checks_enabled(&'static self) -> bool;
        fn rdh_version(&'static self) -> Option<u8>;
    }
}

mod util {
    pub use crate::config::{ChecksOpt, CustomChecksOpt, System};
    pub use alice_protocol_reader::rdh::rdh0::FeeId;
    pub use alice_protocol_reader::rdh::rdh1::Rdh1;
    pub use alice_protocol_reader::rdh::rdh2::Rdh2;
    pub use alice_protocol_reader::rdh::rdh3::Rdh3;
    pub use alice_protocol_reader::rdh::{Rdh0, RDH};
    pub use std::fmt;
    pub use std::marker::PhantomData;

    // Two derives of the standard library under the names of `serde`'s: the trigger statistics derive them, and nothing uses them.
    pub use std::cmp::Eq as Deserialize;
    pub use std::hash::Hash as Serialize;
}
