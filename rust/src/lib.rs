#![doc = include_str!("../README.md")]
#![warn(missing_docs)]

pub mod record;
mod refusal;
mod rho;
mod tau;

/// The library's calls as they are, over a state that is passed by value and buffers that are lent.
#[allow(missing_docs)] // the same file serves hosts without this crate
#[path = "../../include/aspeyruni.rs"]
pub mod raw;

pub use raw::MAX_PAIRS;
pub use refusal::Refusal;
pub use rho::{Rho, RhoReport};
pub use tau::{Outcome, Reason, Report, Tau};

/// An engine may be made in one thread and run in another.
const _: () = {
    const fn can_go_to_a_thread<T: Send + Sync>() {}
    can_go_to_a_thread::<Tau>();
    can_go_to_a_thread::<Rho>();
};
