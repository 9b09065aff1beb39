//! Carries out a driver script with the crate's own files. This root and the modules beside the crate's files are
//! stand-ins; see tools/compare/README.md.

#![allow(warnings)]

mod blob;
mod driver;
mod iobuf;
mod utils;

pub use blob::{Blob, Error, Handle, ReadOptions, WriteOptions};
pub use bytes::BufMut;
pub use iobuf::{IoBuf, IoBufMut, IoBufs, IoBufsMut};
pub use utils::buffer;

fn main() {
    driver::run();
}
