//! Differential tests of the plan checker Cundvrest.
//!
//! Three implementations judge the same plans: the library under test through
//! its C interface (`c_api`), a second checker written from the rules alone
//! (`reference`), and brute force over every run for small plans (`brute`).

pub mod brute;
pub mod c_api;
pub mod faults;
pub mod generate;
pub mod plan;
pub mod reference;
pub mod side;
pub mod timing;
pub mod traces;
