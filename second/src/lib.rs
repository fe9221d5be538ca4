//! Second implementation of the blob cabinet in plain Rust, written from document 01; its store files (request b), the
//! lookup that tells how many rows it visited (request c), the reader of flash configurations (request d) and the trays
//! (request e) from document 02 and the readings of it.
//!
//! The comments cite the rule of docs/PROTOCOL.md that a place follows; the rules were written later, and the code owes
//! them nothing. Where the documents leave a choice, "Reading" and a number point to READINGS.md.

#![deny(unsafe_code)]

macro_rules! implementation {
    ($($module:ident),*) => {$(
        // Nothing may panic for any input: no indexing that could fail, no plain arithmetic that could overflow.
        #[deny(
            clippy::indexing_slicing,
            clippy::arithmetic_side_effects,
            clippy::unwrap_used,
            clippy::expect_used,
            clippy::panic
        )]
        pub mod $module;
    )*};
}

implementation!(code, commands, config, crc, lookup, message, names, run, state, store_file, sweep, tray, wire);

pub mod harness;
#[cfg(feature = "library")]
pub mod library;

pub use commands::{job_outcome, respond};
pub use config::read_config;
pub use lookup::find_session;
pub use state::{is_sound, Memory};
pub use store_file::{load, save_part};
pub use tray::tray;
