//! Stand-in for the page cache: it knows the page size and keeps nothing. It also opens a way to the crate's private page
//! read.

use super::{Slot, get_page_with_checksum_from_blob};
use crate::{Blob, Error, ReadOptions};
use std::num::NonZeroU16;

#[derive(Clone)]
pub struct CacheRef {
    page_size: NonZeroU16,
}

/// What a page read gives.
pub struct PageRead {
    /// First is 1, Second is 2.
    pub slot: u8,
    pub len: u16,
    pub check: u32,
    pub bytes: Vec<u8>,
}

impl CacheRef {
    pub fn new(page_size: NonZeroU16) -> Self {
        Self { page_size }
    }

    pub fn page_size(&self) -> NonZeroU16 {
        self.page_size
    }

    pub fn next_id(&self) -> u64 {
        0
    }

    /// Answers how many bytes it took: all.
    pub fn cache_pages<'a>(
        &self,
        _id: u64,
        pages: impl Iterator<Item = &'a [u8]>,
        _offset: u64,
    ) -> usize {
        pages.map(<[u8]>::len).sum()
    }

    /// Answers how many bytes make no whole page.
    pub fn cache(&self, _id: u64, bytes: &[u8], _offset: u64) -> usize {
        bytes.len() % usize::from(self.page_size.get())
    }

    /// The crate's `get_page_with_checksum_from_blob`.
    pub async fn read_page(&self, blob: &impl Blob, page: u64) -> Result<PageRead, Error> {
        let page_size = u64::from(self.page_size.get());
        let (bytes, active) =
            get_page_with_checksum_from_blob(blob, page, page_size, ReadOptions::default()).await?;
        Ok(PageRead {
            slot: match active.slot {
                Slot::First => 1,
                Slot::Second => 2,
            },
            len: active.len,
            check: active.crc,
            bytes: bytes.as_ref().to_vec(),
        })
    }
}
