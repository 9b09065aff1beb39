//! Stand-ins for the crate's `Blob`, its options, errors and handles, and the two kinds of blob of a driver script.
//! docs/BLOB.md has the meaning that they keep.

use crate::{IoBufMut, IoBufs, IoBufsMut};
use std::future::Future;
use std::ops::BitOr;
use std::pin::Pin;
use std::sync::{Arc, Mutex};
use std::task::{Context, Poll};

/// Why a call of the crate or of the blob came to nothing.
#[derive(Clone, Copy, Debug, PartialEq, Eq)]
pub enum Error {
    // Made by the crate's text.
    InvalidChecksum,
    OffsetOverflow,
    /// Made by the crate's text, and by a read that ends past the blob.
    BlobInsufficientLength,
    // Made by the blob.
    /// A write would end above the ceiling. Nothing was written.
    AboveCeiling,
    /// A call failed, or was refused for another reason.
    Call {
        call: &'static str,
        offset: u64,
    },
}

#[derive(Clone, Copy, Debug, Default)]
pub struct ReadOptions;

impl ReadOptions {
    pub const DONT_CACHE: Self = Self;
}

#[derive(Clone, Copy, Debug, Default, PartialEq, Eq)]
pub struct WriteOptions(u8);

impl WriteOptions {
    pub const SYNC: Self = Self(1);
    pub const DONT_CACHE: Self = Self(2);

    pub fn contains(self, other: Self) -> bool {
        self.0 & other.0 == other.0
    }

    pub fn without(self, other: Self) -> Self {
        Self(self.0 & !other.0)
    }
}

impl BitOr for WriteOptions {
    type Output = Self;

    fn bitor(self, other: Self) -> Self {
        Self(self.0 | other.0)
    }
}

/// A started call. No call that is compared starts one.
pub struct Handle<T>(Pin<Box<dyn Future<Output = Result<T, Error>> + Send>>);

impl<T: Send + 'static> Handle<T> {
    pub fn from_future(future: impl Future<Output = Result<T, Error>> + Send + 'static) -> Self {
        Self(Box::pin(future))
    }

    pub fn ready(result: Result<T, Error>) -> Self {
        Self(Box::pin(std::future::ready(result)))
    }
}

impl<T> Future for Handle<T> {
    type Output = Result<T, Error>;

    fn poll(mut self: Pin<&mut Self>, cx: &mut Context<'_>) -> Poll<Self::Output> {
        self.0.as_mut().poll(cx)
    }
}

pub trait Blob: Send + Sync + 'static {
    fn read_at(
        &self,
        offset: u64,
        len: usize,
        options: ReadOptions,
    ) -> impl Future<Output = Result<IoBufsMut, Error>> + Send;

    fn write_at(
        &self,
        offset: u64,
        bufs: impl Into<IoBufs> + Send,
        options: WriteOptions,
    ) -> impl Future<Output = Result<(), Error>> + Send;

    fn resize(&self, len: u64) -> impl Future<Output = Result<(), Error>> + Send;

    fn sync(&self) -> impl Future<Output = Result<(), Error>> + Send;

    fn start_sync(&self) -> impl Future<Output = Handle<()>> + Send;
}

impl<B: Blob> Blob for Arc<B> {
    async fn read_at(
        &self,
        offset: u64,
        len: usize,
        options: ReadOptions,
    ) -> Result<IoBufsMut, Error> {
        (**self).read_at(offset, len, options).await
    }

    async fn write_at(
        &self,
        offset: u64,
        bufs: impl Into<IoBufs> + Send,
        options: WriteOptions,
    ) -> Result<(), Error> {
        (**self).write_at(offset, bufs, options).await
    }

    async fn resize(&self, len: u64) -> Result<(), Error> {
        (**self).resize(len).await
    }

    async fn sync(&self) -> Result<(), Error> {
        (**self).sync().await
    }

    async fn start_sync(&self) -> Handle<()> {
        (**self).start_sync().await
    }
}

/// What settle-later is made with. Write-through is settle-later that settles in each call and is never cut.
#[derive(Clone)]
pub enum Kind {
    Through,
    Later { cut: Option<u64>, pattern: Vec<u8> },
}

struct State {
    kind: Kind,
    ceiling: u64,
    working: Vec<u8>,
    settled: Vec<u8>,
    power: bool,
    // Bytes written since the last restart.
    written: u64,
}

/// A blob in memory. Clones are the same blob.
#[derive(Clone)]
pub struct Memory(Arc<Mutex<State>>);

impl Memory {
    pub fn new(kind: Kind, ceiling: u64, bytes: &[u8]) -> Self {
        Self(Arc::new(Mutex::new(State {
            kind,
            ceiling,
            working: bytes.to_vec(),
            settled: bytes.to_vec(),
            power: true,
            written: 0,
        })))
    }

    pub fn shown(&self) -> Vec<u8> {
        self.0.lock().unwrap().working.clone()
    }

    pub fn size(&self) -> u64 {
        self.0.lock().unwrap().working.len() as u64
    }

    pub fn restart(&self) {
        self.0.lock().unwrap().restart();
    }
}

impl State {
    fn through(&self) -> bool {
        matches!(self.kind, Kind::Through)
    }

    fn read(&self, offset: u64, len: usize) -> Result<Vec<u8>, Error> {
        let end = u128::from(offset) + len as u128;
        if end > self.working.len() as u128 {
            return Err(Error::BlobInsufficientLength);
        }
        if !self.power {
            return Err(Error::Call {
                call: "read",
                offset,
            });
        }
        Ok(self.working[offset as usize..end as usize].to_vec())
    }

    fn write(&mut self, offset: u64, bytes: &[u8]) -> Result<(), Error> {
        let failed = Error::Call {
            call: "write",
            offset,
        };
        if u128::from(offset) + bytes.len() as u128 > u128::from(self.ceiling) {
            return Err(Error::AboveCeiling);
        }
        if offset > self.working.len() as u64 || !self.power {
            return Err(failed);
        }
        let stored = match &self.kind {
            Kind::Later { cut: Some(cut), .. } => (cut - self.written).min(bytes.len() as u64),
            _ => bytes.len() as u64,
        };
        self.store(offset as usize, &bytes[..stored as usize]);
        self.written += stored;
        if stored < bytes.len() as u64 {
            self.power = false;
            return Err(failed);
        }
        Ok(())
    }

    fn store(&mut self, offset: usize, bytes: &[u8]) {
        let end = offset + bytes.len();
        if end > self.working.len() {
            self.working.resize(end, 0);
        }
        self.working[offset..end].copy_from_slice(bytes);
        if self.through() {
            self.settled.clone_from(&self.working);
        }
    }

    fn resize(&mut self, len: u64) -> Result<(), Error> {
        if len > self.ceiling || !self.power {
            return Err(Error::Call {
                call: "resize",
                offset: len,
            });
        }
        self.working.resize(len as usize, 0);
        if self.through() {
            self.settled.clone_from(&self.working);
        }
        Ok(())
    }

    fn settle(&mut self) -> Result<(), Error> {
        if !self.power {
            return Err(Error::Call {
                call: "settle",
                offset: 0,
            });
        }
        self.settled.clone_from(&self.working);
        Ok(())
    }

    fn restart(&mut self) {
        let Kind::Later { pattern, .. } = &self.kind else {
            return;
        };
        let bit =
            |k: usize| !pattern.is_empty() && pattern[k / 8 % pattern.len()] >> (k % 8) & 1 == 1;
        let (working, settled) = (&self.working, &self.settled);
        let len = if bit(0) {
            working.len().max(settled.len())
        } else {
            working.len().min(settled.len())
        };
        let left: Vec<u8> = (0..len)
            .map(|place| match (working.get(place), settled.get(place)) {
                (Some(w), Some(s)) => {
                    if bit(place + 1) {
                        *w
                    } else {
                        *s
                    }
                }
                (Some(only), None) | (None, Some(only)) => *only,
                (None, None) => unreachable!("no longer than the longer one"),
            })
            .collect();
        self.working.clone_from(&left);
        self.settled = left;
        self.power = true;
        self.written = 0;
    }
}

impl Blob for Memory {
    async fn read_at(&self, offset: u64, len: usize, _: ReadOptions) -> Result<IoBufsMut, Error> {
        let bytes = self.0.lock().unwrap().read(offset, len)?;
        Ok(IoBufsMut::from(IoBufMut::from(bytes)))
    }

    async fn write_at(
        &self,
        offset: u64,
        bufs: impl Into<IoBufs> + Send,
        options: WriteOptions,
    ) -> Result<(), Error> {
        let bytes = bufs.into().coalesce();
        let mut state = self.0.lock().unwrap();
        state.write(offset, bytes.as_ref())?;
        if options.contains(WriteOptions::SYNC) {
            state.settle()?;
        }
        Ok(())
    }

    async fn resize(&self, len: u64) -> Result<(), Error> {
        self.0.lock().unwrap().resize(len)
    }

    async fn sync(&self) -> Result<(), Error> {
        self.0.lock().unwrap().settle()
    }

    async fn start_sync(&self) -> Handle<()> {
        unimplemented!("started syncs are left out")
    }
}
