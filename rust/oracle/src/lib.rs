//! What the programs compare, stored and bench share.
pub mod check;
pub mod draw;
pub mod face;
pub mod fixed;
pub mod reference;
pub mod runs;
pub mod scipy;
pub mod watch;
