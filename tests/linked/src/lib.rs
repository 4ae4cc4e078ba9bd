//! The proved functions as Rust sees them: safe wrappers (`lock`, `bench`,
//! `convert`, `chain`), and comparisons with the second implementation: of answers
//! (`check`, `many`, and by `beside`, which serves all tools, `moved` and `chained`) and of
//! times (`speed`). `known` tells builds of different age apart.

pub mod arguments;
pub mod bench;
pub mod beside;
pub mod chain;
pub mod chained;
pub mod check;
pub mod convert;
mod declared;
pub mod difference;
pub mod fence;
pub mod known;
pub mod lock;
pub mod many;
pub mod moved;
pub mod program;
pub mod seen;
pub mod speed;
