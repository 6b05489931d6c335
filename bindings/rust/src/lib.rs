//! MIDI Universal Non-Real-Time System Exclusive frames written, read, and found in a stream.
//!
//! The types have the names of the crate midi-msg 0.9.0, and what they do is done by the proved archive `libpasoreum.a`, which
//! `rt lib` in `crates/pasoreum` makes. Cueing setup and real-time messages are left out. Where midi-msg has a `BString` there is a `Vec<u8>`, and
//! the rate of an extended header is two numbers.
//!
//! ```
//! use pasoreum::*;
//!
//! let request = SystemExclusiveMsg::UniversalNonRealTime {
//!     device: DeviceID::AllCall,
//!     msg: UniversalNonRealTimeMsg::IdentityRequest,
//! };
//! let frame = request.to_midi()?;
//! assert_eq!(frame, [0xF0, 0x7E, 0x7F, 0x06, 0x01, 0xF7]);
//! assert_eq!(SystemExclusiveMsg::read(&frame, Kind::Bank)?, request);
//! # Ok::<(), Refusal>(())
//! ```
//!
//! # Building
//!
//! `cargo build --offline` looks for `libpasoreum.a` in the folder `PASOREUM_LIB_DIR`, or else in `crates/pasoreum/out` of the repository.
//! With rustc alone, in this crate's folder:
//!
//! ```text
//! rustc --edition 2021 --crate-type rlib --crate-name pasoreum src/lib.rs -L native=../../crates/pasoreum/out -l static=pasoreum
//! rustc --edition 2021 examples/capture.rs --extern pasoreum=libpasoreum.rlib
//! ```
//!
//! # Panics
//!
//! No function panics, unless the archive is not of this crate's version and answers a refusal that this version does not have.
#![deny(missing_docs)]
#![deny(unsafe_code)]

#[allow(unsafe_code)]
mod ffi;
mod general_midi;
mod numbers;
mod refusal;
mod system_exclusive;
mod util;
mod walk;

pub use general_midi::*;
pub use refusal::*;
pub use system_exclusive::*;
pub use util::*;
pub use walk::*;
