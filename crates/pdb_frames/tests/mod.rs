//! Tests of records of frame data: those of real files, and made ones.

mod frames;
