//! Tests of what no clause says: values from outside, and that calls succeed with ample memory.

mod cross_module;
mod damaged;
mod files;
mod inlined;
mod inlinees;
mod lines;
mod lists;
mod markers;
mod modules;
mod rising;
mod streams;
