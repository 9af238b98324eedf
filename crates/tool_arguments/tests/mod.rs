//! Tests of what no clause says: values from outside, and that calls succeed with ample memory.

mod arguments;
mod closest;
mod code_address;
mod commands;
mod fakes;
mod helps;
mod messages;
mod operands;
mod option_names;
mod options;
mod requests;
mod sources_asked;
mod streams_asked;
mod symbol_values;
mod tasks;
mod usage;
mod wildcards;
