//! The committed lists of calls, whose answers came from the Rust original, replayed through the crate. Every line goes through `raw`,
//! and besides through an owner, which goes on from line to line, beginning anew where a line sets the state or a buffer. A line that lends
//! buffers of other lengths, or has a state out of its ranges, no owner can take: there `from_parts` has to refuse them, as the line's call
//! is refused.
//!
//! The list of records has its answers from the request's text. Its lines go through `raw` and through the module `record`, which has no
//! call for a kind that is unknown.

#[path = "../../../oracle/inputs.rs"]
mod inputs;
#[path = "../../../oracle/kinds.rs"]
mod kinds;
mod line;
#[path = "../../../oracle/recipe.rs"]
mod recipe;
mod record;
mod rho;
mod tau;
#[path = "../../../oracle/tau_lines.rs"]
mod tau_lines;

/// As the oracle's files name it.
use ::aspeyruni::raw as aspeyruni;

/// What oracle/tau_lines.rs names besides, for states that it makes and no line here takes from it.
mod tau_reference {
    pub fn fresh(partitions: usize, suppress: bool) -> aspeyruni::raw::tau::TauCanceller {
        *aspeyruni::Tau::new(partitions, suppress).unwrap().state()
    }
}

/// How many lines an owner took, and how many none could.
#[derive(Debug, Default, PartialEq)]
struct Owned {
    taken: usize,
    refused: usize,
}
