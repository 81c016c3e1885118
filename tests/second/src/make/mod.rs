//! Jobs, damaged files, replies and whole requests to ask about, from a seed.

mod damage;
mod edits;
mod jobs;
mod nets;
mod replies;
mod requests;
mod rng;
mod sequences;

pub use damage::damage;
pub use edits::edits;
pub use jobs::{channel, edge, full, like, middle, over, p1_connections, small, stacked, Shape};
pub use nets::{crowded, joined, packed, MARKS};
pub use replies::{cuts, reply, spelled};
pub use requests::{batch, enumerated, Asked};
pub use rng::Rng;
