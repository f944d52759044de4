//! A ROHC decompressor for many links: packets in, IP packets and feedback out.
//!
//! Profiles 0x0000 and 0x0001 of RFC 3095 in U and O mode, over libpolorowan, which is proved. This layer isn't.
//!
//! ```
//! use polorowan::{Gateway, Link, Outcome};
//!
//! let mut gateway = Gateway::new(&[Link::new(1)])?;
//! let answer = gateway.arrive(1, 0, &[0xfc, 0x00, 0xb7, 0x45, 0xaa]);
//! assert_eq!(answer.outcome, Outcome::Delivered { cid: 0 });
//! assert_eq!(answer.packet, Some([0x45, 0xaa].as_slice()));
//! assert_eq!(answer.feedback, Some([0xf1, 0x00].as_slice()));
//! # Ok::<(), polorowan::SetupError>(())
//! ```
//!
//! A gateway may go from thread to thread. Calls that only read take `&self`.

mod answer;
mod counts;
mod ffi;
mod gateway;
mod settings;

pub use answer::{Answer, Context, Outcome, Refusal, State};
pub use counts::{Counts, Word};
pub use gateway::{Gateway, LinkError, NoLink, RestoreError, Restored, SavedError};
pub use settings::{Link, Mode, Range, SetupError, SetupFault};

/// The version of the library, and the digests of the sources and of the logic that it was proved in.
#[must_use]
pub fn version() -> &'static str {
    // SAFETY: the text stays, and ends with an octet 0.
    unsafe { answer::text(ffi::polorowan_version()) }
}
