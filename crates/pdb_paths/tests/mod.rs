//! Tests of names and paths: values that Windows' debuggers and `symstore` use.

mod fakes;
mod file_names;
mod folders;
mod image_paths;
mod symbol_paths;
