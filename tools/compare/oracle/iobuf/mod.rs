//! Stand-in for the module that holds the crate's `buf.rs` and `bufs.rs`.

mod buf;
mod bufs;
mod owner;

pub use buf::{IoBuf, IoBufMut};
pub use bufs::{IoBufs, IoBufsMut};

fn panic_advance(cnt: usize, available: usize) -> ! {
    panic!("cannot advance by {cnt} where {available} are left");
}
