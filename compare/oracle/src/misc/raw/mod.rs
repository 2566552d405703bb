// Stand-in for misc/raw/mod.rs: the wrappers that an event is made of.
use std::{borrow::Cow, fmt, io, marker::PhantomData};

use crate::{
    io::ParseBuf,
    misc::unexpected_buf_eof,
    proto::{MyDeserialize, MySerialize},
};

pub mod bytes;
pub mod int;

pub use self::{bytes::RawBytes, int::RawInt};

impl<'de> MyDeserialize<'de> for ParseBuf<'de> {
    const SIZE: Option<usize> = None;
    type Ctx = usize;

    fn deserialize(len: usize, buf: &mut ParseBuf<'de>) -> io::Result<Self> {
        buf.checked_eat_buf(len).ok_or_else(unexpected_buf_eof)
    }
}

impl<'de> MyDeserialize<'de> for &'de [u8] {
    const SIZE: Option<usize> = None;
    type Ctx = usize;

    fn deserialize(len: usize, buf: &mut ParseBuf<'de>) -> io::Result<Self> {
        buf.checked_eat(len).ok_or_else(unexpected_buf_eof)
    }
}

// JSON contents alone read these: they are not compared.
impl<'de> MyDeserialize<'de> for f64 {
    const SIZE: Option<usize> = Some(8);
    type Ctx = ();

    fn deserialize((): (), buf: &mut ParseBuf<'de>) -> io::Result<Self> {
        Ok(buf.eat_f64_le())
    }
}

#[derive(Debug, Clone, Copy, PartialEq, Eq, Hash)]
pub enum Either<L, R> {
    Left(L),
    Right(R),
}

impl<L: fmt::Debug, R: fmt::Debug> Either<L, R> {
    pub fn unwrap_left(self) -> L {
        match self {
            Either::Left(x) => x,
            other => panic!("{other:?}"),
        }
    }
}

// Bytes that are read and not kept, and written as zeros.
#[derive(Debug, Clone, Copy, PartialEq, Eq, Hash, Default)]
pub struct Skip<const N: usize>;

impl<'de, const N: usize> MyDeserialize<'de> for Skip<N> {
    const SIZE: Option<usize> = Some(N);
    type Ctx = ();

    fn deserialize((): (), buf: &mut ParseBuf<'de>) -> io::Result<Self> {
        buf.skip(N);
        Ok(Skip)
    }
}

impl<const N: usize> MySerialize for Skip<N> {
    fn serialize(&self, buf: &mut Vec<u8>) {
        buf.extend_from_slice(&[0; N]);
    }
}

// A number that stands for an enum T.
#[derive(Clone, Copy, PartialEq, Eq, Hash)]
pub struct RawConst<I, T>(pub I, PhantomData<T>);

impl<I, T> RawConst<I, T> {
    pub fn new(x: I) -> Self {
        Self(x, PhantomData)
    }
}

impl<I: Copy, T: TryFrom<I>> RawConst<I, T> {
    pub fn get(&self) -> Result<T, T::Error> {
        T::try_from(self.0)
    }
}

impl<I: fmt::Debug, T> fmt::Debug for RawConst<I, T> {
    fn fmt(&self, f: &mut fmt::Formatter<'_>) -> fmt::Result {
        self.0.fmt(f)
    }
}

// An enum T that is stored as a number.
#[derive(Debug, Clone, Copy, PartialEq, Eq, Hash)]
pub struct Const<T, R>(pub T, PhantomData<R>);

impl<T, R> Const<T, R> {
    pub fn new(x: T) -> Self {
        Self(x, PhantomData)
    }
}

impl<T, R> std::ops::Deref for Const<T, R> {
    type Target = T;

    fn deref(&self) -> &T {
        &self.0
    }
}

impl<'de, T: TryFrom<u8>> MyDeserialize<'de> for Const<T, u8>
where
    T::Error: std::error::Error + Send + Sync + 'static,
{
    const SIZE: Option<usize> = Some(1);
    type Ctx = ();

    fn deserialize((): (), buf: &mut ParseBuf<'de>) -> io::Result<Self> {
        T::try_from(buf.eat_u8())
            .map(Self::new)
            .map_err(|e| io::Error::new(io::ErrorKind::InvalidData, e))
    }
}

impl<T: Copy + Into<u8>> MySerialize for Const<T, u8> {
    fn serialize(&self, buf: &mut Vec<u8>) {
        buf.push(self.0.into());
    }
}

// Bytes that each stand for an enum T.
#[derive(Debug, Clone, PartialEq, Eq, Hash)]
pub struct RawSeq<'a, I: Clone, T>(pub Cow<'a, [I]>, PhantomData<T>)
where
    [I]: ToOwned<Owned = Vec<I>>;

impl<'a, T> RawSeq<'a, u8, T> {
    pub fn get(&self, at: usize) -> Option<RawConst<u8, T>> {
        self.0.get(at).map(|x| RawConst::new(*x))
    }

    pub fn into_owned(self) -> RawSeq<'static, u8, T> {
        RawSeq(Cow::Owned(self.0.into_owned()), PhantomData)
    }
}

impl<'de, T> MyDeserialize<'de> for RawSeq<'de, u8, T> {
    const SIZE: Option<usize> = None;
    type Ctx = usize;

    fn deserialize(len: usize, buf: &mut ParseBuf<'de>) -> io::Result<Self> {
        let bytes = buf.checked_eat(len).ok_or_else(unexpected_buf_eof)?;
        Ok(Self(Cow::Borrowed(bytes), PhantomData))
    }
}

impl<T> MySerialize for RawSeq<'_, u8, T> {
    fn serialize(&self, buf: &mut Vec<u8>) {
        buf.extend_from_slice(&self.0);
    }
}
