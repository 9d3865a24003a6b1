//! The second implementation of the sorter gate, from the papers alone: simple above all, to be compared with the
//! proved one. Nothing in the library prints.
//!
//! Bytes come in, `config` and `operation` make values of them, `questions` ask `state`, `trace`, `closure`, `green`,
//! `effect` makes the state that follows, `writer` makes a file of what stands in `memory`, `gate` and `office` put
//! bytes out. `generate` makes inputs; `faults` are judges that are wrong in one point each, and `coverage` counts what
//! inputs show, the faults noticed among it.

pub mod closure;
pub mod config;
pub mod coverage;
pub mod effect;
pub mod faults;
pub mod gate;
pub mod generate;
pub mod green;
pub mod limits;
pub mod memory;
pub mod office;
pub mod operation;
pub mod questions;
pub mod state;
pub mod tokens;
pub mod trace;
pub mod varint;
pub mod writer;

pub use config::{Config, load};
pub use gate::{first_bad, fresh, load_check, operate, rewrite, state_bytes};
pub use memory::Memory;
pub use office::{report, rewriting};
pub use writer::{Written, coded, write};
