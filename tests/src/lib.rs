//! A second implementation of the bench, written from the paper alone, so that
//! another one can be judged beside it. Ring slots and queue capacity are those
//! of the plan, of either form.

pub mod chain;
pub mod chosen;
pub mod convert;
pub mod lock;
pub mod looks;
pub mod machine;
pub mod order;
pub mod plan;
pub mod random;
pub mod report;
pub mod run;
pub mod text;
pub mod tool;
pub mod used;
