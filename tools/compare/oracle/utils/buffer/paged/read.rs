//! Stand-in: no call that is compared replays a blob.

use crate::{Blob, IoBuf, ReadOptions};
use std::marker::PhantomData;
use std::num::NonZeroU16;
use std::sync::Arc;

pub struct PageReader<B>(PhantomData<B>);

impl<B: Blob> PageReader<B> {
    pub fn new(
        _blob: Arc<B>,
        _physical_size: u64,
        _logical_size: u64,
        _partial_page: Option<IoBuf>,
        _buffer_pages: usize,
        _page_size: NonZeroU16,
        _read_options: ReadOptions,
    ) -> Self {
        unimplemented!("replays are left out")
    }
}

pub struct Replay<B>(PhantomData<B>);

impl<B: Blob> Replay<B> {
    pub fn new(_reader: PageReader<B>) -> Self {
        unimplemented!("replays are left out")
    }
}
