//! Stand-in for the crate `bytes`: the part that the staged files name.

use std::io::IoSlice;
use std::ops::Deref;
use std::sync::Arc;

/// Shared immutable bytes.
#[derive(Clone)]
pub struct Bytes {
    data: Arc<dyn AsRef<[u8]> + Send + Sync>,
    start: usize,
    len: usize,
}

impl Bytes {
    pub fn new() -> Self {
        Self::from_static(&[])
    }

    pub fn from_static(bytes: &'static [u8]) -> Self {
        Self {
            len: bytes.len(),
            start: 0,
            data: Arc::new(bytes),
        }
    }

    pub fn copy_from_slice(bytes: &[u8]) -> Self {
        Self::from(bytes.to_vec())
    }

    /// `subset` is a part of these bytes.
    pub fn slice_ref(&self, subset: &[u8]) -> Self {
        let offset = subset.as_ptr() as usize - self.as_ptr() as usize;
        assert!(offset + subset.len() <= self.len, "subset is out of bounds");
        Self {
            data: self.data.clone(),
            start: self.start + offset,
            len: subset.len(),
        }
    }
}

impl Deref for Bytes {
    type Target = [u8];

    fn deref(&self) -> &[u8] {
        &(*self.data).as_ref()[self.start..self.start + self.len]
    }
}

impl From<Vec<u8>> for Bytes {
    fn from(vec: Vec<u8>) -> Self {
        Self {
            len: vec.len(),
            start: 0,
            data: Arc::new(vec),
        }
    }
}

impl From<Bytes> for Vec<u8> {
    fn from(bytes: Bytes) -> Self {
        bytes.to_vec()
    }
}

/// Growing bytes.
pub struct BytesMut(Vec<u8>);

impl BytesMut {
    pub fn with_capacity(capacity: usize) -> Self {
        Self(Vec::with_capacity(capacity))
    }

    pub fn extend_from_slice(&mut self, bytes: &[u8]) {
        self.0.extend_from_slice(bytes);
    }

    pub fn capacity(&self) -> usize {
        self.0.capacity()
    }

    pub fn freeze(self) -> Bytes {
        Bytes::from(self.0)
    }
}

impl From<BytesMut> for Vec<u8> {
    fn from(bytes: BytesMut) -> Self {
        bytes.0
    }
}

/// A read asked for more bytes than there are.
#[derive(Debug)]
pub struct TryGetError {
    pub requested: usize,
    pub available: usize,
}

impl std::fmt::Display for TryGetError {
    fn fmt(&self, f: &mut std::fmt::Formatter<'_>) -> std::fmt::Result {
        write!(
            f,
            "{} bytes asked for, {} there",
            self.requested, self.available
        )
    }
}

/// Something to read bytes from.
pub trait Buf {
    fn remaining(&self) -> usize;
    fn chunk(&self) -> &[u8];
    fn advance(&mut self, cnt: usize);

    fn has_remaining(&self) -> bool {
        self.remaining() > 0
    }

    fn chunks_vectored<'a>(&'a self, dst: &mut [IoSlice<'a>]) -> usize {
        if dst.is_empty() || !self.has_remaining() {
            return 0;
        }
        dst[0] = IoSlice::new(self.chunk());
        1
    }

    fn copy_to_slice(&mut self, dst: &mut [u8]) {
        self.try_copy_to_slice(dst).expect("enough bytes");
    }

    fn try_copy_to_slice(&mut self, dst: &mut [u8]) -> Result<(), TryGetError> {
        if self.remaining() < dst.len() {
            return Err(TryGetError {
                requested: dst.len(),
                available: self.remaining(),
            });
        }
        let mut filled = 0;
        while filled < dst.len() {
            let chunk = self.chunk();
            let n = chunk.len().min(dst.len() - filled);
            dst[filled..filled + n].copy_from_slice(&chunk[..n]);
            self.advance(n);
            filled += n;
        }
        Ok(())
    }

    fn copy_to_bytes(&mut self, len: usize) -> Bytes {
        let mut out = vec![0; len];
        self.copy_to_slice(&mut out);
        Bytes::from(out)
    }
}

impl Buf for &[u8] {
    fn remaining(&self) -> usize {
        self.len()
    }

    fn chunk(&self) -> &[u8] {
        self
    }

    fn advance(&mut self, cnt: usize) {
        *self = &self[cnt..];
    }
}

/// Something to write bytes to.
///
/// # Safety
///
/// `chunk_mut` and `advance_mut` must agree.
pub unsafe trait BufMut {
    fn remaining_mut(&self) -> usize;

    /// # Safety
    ///
    /// The next `cnt` bytes must be initialized.
    unsafe fn advance_mut(&mut self, cnt: usize);

    fn chunk_mut(&mut self) -> &mut buf::UninitSlice;

    fn put_slice(&mut self, src: &[u8]) {
        assert!(src.len() <= self.remaining_mut(), "no room");
        let mut rest = src;
        while !rest.is_empty() {
            let chunk = self.chunk_mut();
            let n = chunk.len().min(rest.len());
            // SAFETY: the chunk has room for `n` bytes, and they are filled before the advance.
            unsafe {
                std::ptr::copy_nonoverlapping(rest.as_ptr(), chunk.as_mut_ptr(), n);
                self.advance_mut(n);
            }
            rest = &rest[n..];
        }
    }

    fn put_bytes(&mut self, val: u8, cnt: usize) {
        for _ in 0..cnt {
            self.put_slice(&[val]);
        }
    }

    fn put<T: Buf>(&mut self, mut src: T)
    where
        Self: Sized,
    {
        while src.has_remaining() {
            let n = src.chunk().len();
            self.put_slice(src.chunk());
            src.advance(n);
        }
    }

    fn limit(self, limit: usize) -> buf::Limit<Self>
    where
        Self: Sized,
    {
        buf::Limit { inner: self, limit }
    }

    fn chain_mut<U: BufMut>(self, next: U) -> buf::Chain<Self, U>
    where
        Self: Sized,
    {
        buf::Chain { a: self, b: next }
    }
}

// SAFETY: handed on to the target.
unsafe impl<T: BufMut + ?Sized> BufMut for &mut T {
    fn remaining_mut(&self) -> usize {
        (**self).remaining_mut()
    }

    unsafe fn advance_mut(&mut self, cnt: usize) {
        // SAFETY: as the caller promises.
        unsafe { (**self).advance_mut(cnt) }
    }

    fn chunk_mut(&mut self) -> &mut buf::UninitSlice {
        (**self).chunk_mut()
    }
}

// SAFETY: the chunk is the slice itself.
unsafe impl BufMut for &mut [u8] {
    fn remaining_mut(&self) -> usize {
        self.len()
    }

    unsafe fn advance_mut(&mut self, cnt: usize) {
        let (_, rest) = std::mem::take(self).split_at_mut(cnt);
        *self = rest;
    }

    fn chunk_mut(&mut self) -> &mut buf::UninitSlice {
        buf::UninitSlice::new(self)
    }
}

pub mod buf {
    use super::BufMut;

    /// Bytes to be written, not to be read.
    #[repr(transparent)]
    pub struct UninitSlice([std::mem::MaybeUninit<u8>]);

    impl UninitSlice {
        pub fn new(slice: &mut [u8]) -> &mut Self {
            // SAFETY: the slice is valid for its length.
            unsafe { Self::from_raw_parts_mut(slice.as_mut_ptr(), slice.len()) }
        }

        /// # Safety
        ///
        /// `ptr` must be valid for writes of `len` bytes.
        pub unsafe fn from_raw_parts_mut<'a>(ptr: *mut u8, len: usize) -> &'a mut Self {
            // SAFETY: as the caller promises; the type is transparent.
            unsafe { &mut *(std::ptr::slice_from_raw_parts_mut(ptr, len) as *mut Self) }
        }

        pub fn len(&self) -> usize {
            self.0.len()
        }

        pub fn as_mut_ptr(&mut self) -> *mut u8 {
            self.0.as_mut_ptr().cast()
        }
    }

    /// At most `limit` bytes.
    pub struct Limit<T> {
        pub(super) inner: T,
        pub(super) limit: usize,
    }

    // SAFETY: a shorter chunk of the inner one.
    unsafe impl<T: BufMut> BufMut for Limit<T> {
        fn remaining_mut(&self) -> usize {
            self.inner.remaining_mut().min(self.limit)
        }

        unsafe fn advance_mut(&mut self, cnt: usize) {
            assert!(cnt <= self.limit);
            // SAFETY: as the caller promises.
            unsafe { self.inner.advance_mut(cnt) };
            self.limit -= cnt;
        }

        fn chunk_mut(&mut self) -> &mut UninitSlice {
            let limit = self.limit;
            let chunk = self.inner.chunk_mut();
            let len = chunk.len().min(limit);
            // SAFETY: not longer than the inner chunk.
            unsafe { UninitSlice::from_raw_parts_mut(chunk.as_mut_ptr(), len) }
        }
    }

    /// One after the other.
    pub struct Chain<T, U> {
        pub(super) a: T,
        pub(super) b: U,
    }

    // SAFETY: handed on to the two.
    unsafe impl<T: BufMut, U: BufMut> BufMut for Chain<T, U> {
        fn remaining_mut(&self) -> usize {
            self.a
                .remaining_mut()
                .saturating_add(self.b.remaining_mut())
        }

        unsafe fn advance_mut(&mut self, cnt: usize) {
            let first = cnt.min(self.a.remaining_mut());
            // SAFETY: as the caller promises.
            unsafe {
                self.a.advance_mut(first);
                self.b.advance_mut(cnt - first);
            }
        }

        fn chunk_mut(&mut self) -> &mut UninitSlice {
            if self.a.remaining_mut() > 0 {
                self.a.chunk_mut()
            } else {
                self.b.chunk_mut()
            }
        }
    }
}
