//! What the programs compare, stored, valley and price_list share.
pub mod by_hand;
pub mod check;
pub mod face;
pub mod files;
pub mod model;
pub mod pair;
pub mod program;
pub mod random;
