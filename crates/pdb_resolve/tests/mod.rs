//! Tests.

mod code;
mod files;
mod imports;
mod modules;
mod publics;
mod resolver;
mod text;
mod trampolines;
mod variables;
