//! Tests of what no clause says: names and what they spell, from outside.

mod itanium;
mod microsoft;
mod names;
mod templates;
