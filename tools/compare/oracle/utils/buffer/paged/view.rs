//! Stand-in: no call that is compared reads through a view.

use super::{CacheRef, tip::Buffer};
use crate::{Blob, Error, IoBufMut, IoBufs};
use std::num::NonZeroUsize;
use std::sync::Arc;

pub enum Tail<'a> {
    Buffered(&'a Buffer),
}

pub struct View<'a, B: Blob> {
    pub blob: &'a Arc<B>,
    pub cache_ref: &'a CacheRef,
    pub id: u64,
    pub size: u64,
    pub tail_offset: u64,
    pub tail: Tail<'a>,
}

impl<B: Blob> View<'_, B> {
    pub fn try_read_sync_into(&self, _buf: &mut [u8], _offset: u64) -> bool {
        unimplemented!("views are left out")
    }

    pub async fn read_at(&self, _offset: u64, _len: usize) -> Result<IoBufs, Error> {
        unimplemented!("views are left out")
    }

    pub async fn read_up_to(
        &self,
        _offset: u64,
        _len: usize,
        _bufs: impl Into<IoBufMut> + Send,
    ) -> Result<(IoBufMut, usize), Error> {
        unimplemented!("views are left out")
    }

    pub async fn read_many_into(
        &self,
        _buf: &mut [u8],
        _offsets: &[u64],
        _item_size: NonZeroUsize,
    ) -> Result<usize, Error> {
        unimplemented!("views are left out")
    }

    pub async fn read_ranges_into(
        &self,
        _buf: &mut [u8],
        _ranges: &[(u64, usize)],
    ) -> Result<usize, Error> {
        unimplemented!("views are left out")
    }

    pub fn try_read_many_sync_into(
        &self,
        _buf: &mut [u8],
        _offsets: &[u64],
        _item_size: NonZeroUsize,
    ) -> Vec<usize> {
        unimplemented!("views are left out")
    }

    pub fn try_read_ranges_sync_into(
        &self,
        _buf: &mut [u8],
        _ranges: &[(u64, usize)],
    ) -> Vec<usize> {
        unimplemented!("views are left out")
    }

    pub async fn read_into(&self, _buf: &mut [u8], _offset: u64) -> Result<(), Error> {
        unimplemented!("views are left out")
    }
}
