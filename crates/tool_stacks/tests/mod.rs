//! Tests of crash text with its frames.

mod addresses;
mod fakes;
mod hostile;
mod missing;
mod stacks;
