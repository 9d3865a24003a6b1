//! The generator, deterministic by seed: configurations of every size, sessions that go deep, near misses and malformed
//! input of every kind. Only its own random source, the papers' limits and the reference's judgement go into it.

pub mod areas;
pub mod broken;
pub mod calls;
pub mod corners;
pub mod damaged;
pub mod drills;
pub mod greens;
pub mod lengths;
pub mod likely;
pub mod locks;
pub mod memories;
pub mod names;
pub mod records;
pub mod refused;
pub mod rewrites;
pub mod rings;
pub mod rng;
pub mod serial_corners;
pub mod serials;
pub mod sessions;
pub mod stored;
pub mod worlds;

pub use calls::{Call, Calls, Function};
pub use greens::greened;
pub use locks::locking;
pub use records::Want;
pub use rewrites::Rewrite;
pub use rings::ringed;
pub use rng::Rng;
pub use serials::labelled;
pub use sessions::Folder;
pub use worlds::{Size, World};
