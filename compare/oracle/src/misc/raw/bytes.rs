// Stand-in for misc/raw/bytes.rs: byte strings by how their length is told.
use std::{borrow::Cow, fmt, io, marker::PhantomData};

pub use super::int::LenEnc;
use super::int::packed;
use crate::{
    io::{BufMutExt, ParseBuf},
    misc::unexpected_buf_eof,
    proto::{MyDeserialize, MySerialize},
};

pub trait BytesRepr {
    type Ctx;
    fn deserialize<'a>(ctx: Self::Ctx, buf: &mut ParseBuf<'a>) -> io::Result<&'a [u8]>;
    fn serialize(bytes: &[u8], buf: &mut Vec<u8>);
}

pub struct RawBytes<'a, T: BytesRepr>(pub Cow<'a, [u8]>, PhantomData<T>);

impl<'a, T: BytesRepr> RawBytes<'a, T> {
    pub fn new(x: impl Into<Cow<'a, [u8]>>) -> Self {
        Self(x.into(), PhantomData)
    }

    pub fn as_bytes(&'a self) -> &'a [u8] {
        &self.0
    }

    pub fn as_str(&'a self) -> Cow<'a, str> {
        String::from_utf8_lossy(&self.0)
    }

    pub fn len(&self) -> usize {
        self.0.len()
    }

    pub fn is_empty(&self) -> bool {
        self.0.is_empty()
    }

    pub fn into_owned(self) -> RawBytes<'static, T> {
        RawBytes(Cow::Owned(self.0.into_owned()), PhantomData)
    }
}

impl<T: BytesRepr> Clone for RawBytes<'_, T> {
    fn clone(&self) -> Self {
        Self(self.0.clone(), PhantomData)
    }
}

impl<T: BytesRepr> PartialEq for RawBytes<'_, T> {
    fn eq(&self, other: &Self) -> bool {
        self.0 == other.0
    }
}

impl<T: BytesRepr> Eq for RawBytes<'_, T> {}

impl<T: BytesRepr> std::hash::Hash for RawBytes<'_, T> {
    fn hash<H: std::hash::Hasher>(&self, state: &mut H) {
        self.0.hash(state)
    }
}

impl<T: BytesRepr> fmt::Debug for RawBytes<'_, T> {
    fn fmt(&self, f: &mut fmt::Formatter<'_>) -> fmt::Result {
        self.0.fmt(f)
    }
}

impl<'de, T: BytesRepr> MyDeserialize<'de> for RawBytes<'de, T> {
    const SIZE: Option<usize> = None;
    type Ctx = T::Ctx;

    fn deserialize(ctx: T::Ctx, buf: &mut ParseBuf<'de>) -> io::Result<Self> {
        let bytes = T::deserialize(ctx, buf)?;
        Ok(Self(Cow::Borrowed(bytes), PhantomData))
    }
}

impl<T: BytesRepr> MySerialize for RawBytes<'_, T> {
    fn serialize(&self, buf: &mut Vec<u8>) {
        T::serialize(&self.0, buf)
    }
}

fn eat<'a>(len: usize, buf: &mut ParseBuf<'a>) -> io::Result<&'a [u8]> {
    buf.checked_eat(len).ok_or_else(unexpected_buf_eof)
}

// A length byte, and the bytes.
pub struct U8Bytes;

impl BytesRepr for U8Bytes {
    type Ctx = ();

    fn deserialize<'a>((): (), buf: &mut ParseBuf<'a>) -> io::Result<&'a [u8]> {
        buf.checked_eat_u8_str().ok_or_else(unexpected_buf_eof)
    }

    fn serialize(bytes: &[u8], buf: &mut Vec<u8>) {
        buf.put_u8_str(bytes)
    }
}

// A packed length, and the bytes.
impl BytesRepr for LenEnc {
    type Ctx = ();

    fn deserialize<'a>((): (), buf: &mut ParseBuf<'a>) -> io::Result<&'a [u8]> {
        let len = packed(buf)?;
        eat(len as usize, buf)
    }

    fn serialize(bytes: &[u8], buf: &mut Vec<u8>) {
        buf.put_lenenc_str(bytes)
    }
}

// As many bytes as the caller says.
pub struct BareBytes<const MAX: usize>;

pub type BareU16Bytes = BareBytes<0xffff>;

impl<const MAX: usize> BytesRepr for BareBytes<MAX> {
    type Ctx = usize;

    fn deserialize<'a>(len: usize, buf: &mut ParseBuf<'a>) -> io::Result<&'a [u8]> {
        eat(len, buf)
    }

    fn serialize(bytes: &[u8], buf: &mut Vec<u8>) {
        buf.extend_from_slice(&bytes[..bytes.len().min(MAX)])
    }
}

// The rest.
pub struct EofBytes;

impl BytesRepr for EofBytes {
    type Ctx = ();

    fn deserialize<'a>((): (), buf: &mut ParseBuf<'a>) -> io::Result<&'a [u8]> {
        Ok(buf.eat_all())
    }

    fn serialize(bytes: &[u8], buf: &mut Vec<u8>) {
        buf.extend_from_slice(bytes)
    }
}

// JSON contents alone use it: they are not compared.
pub struct VarLen;

impl BytesRepr for VarLen {
    type Ctx = ();

    fn deserialize<'a>((): (), _: &mut ParseBuf<'a>) -> io::Result<&'a [u8]> {
        Err(io::Error::other("not compared"))
    }

    fn serialize(_: &[u8], _: &mut Vec<u8>) {}
}
