//! Tests.

mod addresses;
mod contributions;
mod files;
mod names;
mod ranges;
