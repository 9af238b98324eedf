//! Tests of crash text: lines as debuggers, sanitizers and reports write them.

mod addresses;
mod course;
mod fakes;
mod faults;
mod frame_numbers;
mod headings;
mod hostile;
mod module_names;
mod ranges;
mod references;
mod relative;
mod spans;
mod stacks;
