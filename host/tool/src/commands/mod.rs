//! The commands, a file for each group.

pub mod applying;
pub mod check;
pub mod lag;
pub mod making;
pub mod plan;
pub mod show;
pub mod state;
