// Stand-in for misc/raw/int.rs: integers of fixed width, read by the functions of io.rs, and packed ones.
use std::{fmt, hash::Hash, io, ops::Deref};

use crate::{
    io::{BufMutExt, ParseBuf, ReadMysqlExt},
    misc::unexpected_buf_eof,
    proto::{MyDeserialize, MySerialize},
};

pub use super::bytes::VarLen;

pub trait IntRepr {
    type Primitive: Copy + fmt::Debug + Eq + Hash;
    const SIZE: Option<usize>;
    fn deserialize(buf: &mut ParseBuf<'_>) -> io::Result<Self::Primitive>;
    fn serialize(value: Self::Primitive, buf: &mut Vec<u8>);
}

pub struct RawInt<T: IntRepr>(pub T::Primitive);

impl<T: IntRepr> RawInt<T> {
    pub fn new(x: T::Primitive) -> Self {
        Self(x)
    }
}

impl<T: IntRepr> Clone for RawInt<T> {
    fn clone(&self) -> Self {
        *self
    }
}

impl<T: IntRepr> Copy for RawInt<T> {}

impl<T: IntRepr> PartialEq for RawInt<T> {
    fn eq(&self, other: &Self) -> bool {
        self.0 == other.0
    }
}

impl<T: IntRepr> Eq for RawInt<T> {}

impl<T: IntRepr> Hash for RawInt<T> {
    fn hash<H: std::hash::Hasher>(&self, state: &mut H) {
        self.0.hash(state)
    }
}

impl<T: IntRepr> fmt::Debug for RawInt<T> {
    fn fmt(&self, f: &mut fmt::Formatter<'_>) -> fmt::Result {
        self.0.fmt(f)
    }
}

impl<T: IntRepr> Deref for RawInt<T> {
    type Target = T::Primitive;

    fn deref(&self) -> &T::Primitive {
        &self.0
    }
}

impl<'de, T: IntRepr> MyDeserialize<'de> for RawInt<T> {
    const SIZE: Option<usize> = T::SIZE;
    type Ctx = ();

    fn deserialize((): (), buf: &mut ParseBuf<'de>) -> io::Result<Self> {
        T::deserialize(buf).map(Self)
    }
}

impl<T: IntRepr> MySerialize for RawInt<T> {
    fn serialize(&self, buf: &mut Vec<u8>) {
        T::serialize(self.0, buf)
    }
}

macro_rules! fixed {
    ($name:ident, $int:ty, $size:literal, $eat:ident) => {
        impl IntRepr for $name {
            type Primitive = $int;
            const SIZE: Option<usize> = Some($size);

            fn deserialize(buf: &mut ParseBuf<'_>) -> io::Result<$int> {
                Ok(buf.$eat())
            }

            fn serialize(value: $int, buf: &mut Vec<u8>) {
                buf.extend_from_slice(&value.to_le_bytes()[..$size])
            }
        }
    };
}

macro_rules! named {
    ($($name:ident)*) => {
        $( #[derive(Debug, Clone, Copy, PartialEq, Eq, Hash)] pub struct $name; )*
    };
}

named!(LeU16 LeI16 LeU24 LeI24 LeU32 LeI32 LeU48 LeU64 LeI64 LenEnc);
fixed!(u8, u8, 1, eat_u8);
fixed!(i8, i8, 1, eat_i8);
fixed!(LeU16, u16, 2, eat_u16_le);
fixed!(LeI16, i16, 2, eat_i16_le);
fixed!(LeU24, u32, 3, eat_u24_le);
fixed!(LeI24, i32, 3, eat_i24_le);
fixed!(LeU32, u32, 4, eat_u32_le);
fixed!(LeI32, i32, 4, eat_i32_le);
fixed!(LeU48, u64, 6, eat_u48_le);
fixed!(LeU64, u64, 8, eat_u64_le);
fixed!(LeI64, i64, 8, eat_i64_le);

// io.rs has two readers of a packed integer, which differ on a first byte of 251 or 255. Which of them misc/raw uses is not supplied, so the program takes either.
pub fn packed(buf: &mut ParseBuf<'_>) -> io::Result<u64> {
    if crate::packed_errs() {
        return buf.read_lenenc_int();
    }
    buf.checked_eat_lenenc_int().ok_or_else(unexpected_buf_eof)
}

impl IntRepr for LenEnc {
    type Primitive = u64;
    const SIZE: Option<usize> = None;

    fn deserialize(buf: &mut ParseBuf<'_>) -> io::Result<u64> {
        packed(buf)
    }

    fn serialize(value: u64, buf: &mut Vec<u8>) {
        buf.put_lenenc_int(value)
    }
}
