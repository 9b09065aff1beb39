//! Stand-in for the crate `commonware_codec`: numbers with their highest byte first, and the names that the staged files
//! use. What only other values of the codec need is left out.

use bytes::{BufMut, Bytes};
use std::any::Any;

#[derive(Debug)]
pub enum Error {
    EndOfBuffer,
}

/// Bytes to decode from.
pub trait Buf: bytes::Buf {
    fn take_owned<T: OwnedBytes>(&mut self, len: usize) -> T;

    fn try_take_owned<T: OwnedBytes>(&mut self, len: usize) -> Result<T, Error> {
        if self.remaining() < len {
            return Err(Error::EndOfBuffer);
        }
        Ok(self.take_owned(len))
    }
}

/// Decodes from borrowed bytes by copying.
pub struct Copying<B>(pub B);

impl<B: bytes::Buf> bytes::Buf for Copying<B> {
    fn remaining(&self) -> usize {
        self.0.remaining()
    }

    fn chunk(&self) -> &[u8] {
        self.0.chunk()
    }

    fn advance(&mut self, cnt: usize) {
        self.0.advance(cnt)
    }
}

impl<B: bytes::Buf> Buf for Copying<B> {
    fn take_owned<T: OwnedBytes>(&mut self, len: usize) -> T {
        T::from_bytes(bytes::Buf::copy_to_bytes(self, len))
    }
}

/// Bytes that a decoded value owns.
pub trait OwnedBytes: Sized + 'static {
    fn from_bytes(bytes: Bytes) -> Self;

    /// The view itself where it is of this type.
    fn claim<V: 'static>(view: V) -> Result<Self, V> {
        let mut view = Some(view);
        match (&mut view as &mut dyn Any).downcast_mut::<Option<Self>>() {
            Some(mine) => Ok(mine.take().expect("it was put there")),
            None => Err(view.expect("it was put there")),
        }
    }
}

/// Something that is decoded once it is no more written.
pub trait Input {
    type Buf;
}

pub trait BufsMut: BufMut {
    fn push(&mut self, chunk: impl Into<Bytes> + 'static);
}

pub trait EncodeSize {
    fn encode_size(&self) -> usize;

    fn encode_inline_size(&self) -> usize {
        self.encode_size()
    }
}

pub trait FixedSize {
    const SIZE: usize;
}

pub trait Write {
    fn write(&self, buf: &mut impl BufMut);

    fn write_bufs(&self, buf: &mut impl BufsMut) {
        self.write(buf);
    }
}

pub trait Read: Sized {
    type Cfg;

    fn read_cfg(buf: &mut impl Buf, cfg: &Self::Cfg) -> Result<Self, Error>;
}

pub trait ReadExt: Read<Cfg = ()> {
    fn read(buf: &mut impl Buf) -> Result<Self, Error> {
        Self::read_cfg(buf, &())
    }
}

impl<T: Read<Cfg = ()>> ReadExt for T {}

pub trait EncodeFixed: Write + FixedSize {
    fn encode_fixed<const N: usize>(&self) -> [u8; N] {
        assert_eq!(N, Self::SIZE);
        let mut bytes = [0; N];
        let mut rest = bytes.as_mut_slice();
        self.write(&mut rest);
        assert!(rest.is_empty());
        bytes
    }
}

impl<T: Write + FixedSize> EncodeFixed for T {}

macro_rules! number {
    ($t:ty) => {
        impl FixedSize for $t {
            const SIZE: usize = size_of::<$t>();
        }

        impl Write for $t {
            fn write(&self, buf: &mut impl BufMut) {
                buf.put_slice(&self.to_be_bytes());
            }
        }

        impl Read for $t {
            type Cfg = ();

            fn read_cfg(buf: &mut impl Buf, _: &()) -> Result<Self, Error> {
                let mut bytes = [0; size_of::<$t>()];
                buf.try_copy_to_slice(&mut bytes)
                    .map_err(|_| Error::EndOfBuffer)?;
                Ok(Self::from_be_bytes(bytes))
            }
        }
    };
}

number!(u16);
number!(u32);

/// The lengths that a decoder takes.
pub struct RangeCfg<T>(pub T);

// Lengths before strings of bytes. No call that is compared encodes such a string.

impl Write for usize {
    fn write(&self, _: &mut impl BufMut) {
        unimplemented!("lengths are not encoded here")
    }
}

impl EncodeSize for usize {
    fn encode_size(&self) -> usize {
        unimplemented!("lengths are not encoded here")
    }
}

impl Read for usize {
    type Cfg = RangeCfg<usize>;

    fn read_cfg(_: &mut impl Buf, _: &RangeCfg<usize>) -> Result<Self, Error> {
        unimplemented!("lengths are not decoded here")
    }
}
