//! The unchanged Rust as one side of the comparison.
//!
//! The ten originals come from the folder that `FAH_SRC` names (see `build.rs`);
//! what they need beside them are stand-ins. [`Oracle`] applies a script's
//! calls to them, with a backend that replies as each call says.
mod answers;
mod backend;
mod convert;
pub mod direct;
mod refusals;
mod side;

/// What the originals take from a module that is not among them.
pub mod core {
    pub mod identity {
        use std::cell::Cell;

        thread_local! {
            static FRESH: Cell<Option<u64>> = const { Cell::new(None) };
        }

        /// The session number that a close is handed, or none.
        pub fn fresh() -> Option<u64> {
            FRESH.get()
        }

        pub fn set_fresh(number: Option<u64>) {
            FRESH.set(number);
        }
    }
}

include!(concat!(env!("OUT_DIR"), "/lib/root.rs"));

pub use side::{Oracle, RowView, Stall, View};
