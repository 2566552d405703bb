// Stand-in for binlog/decimal.rs: decimals are not compared.
use std::{fmt, io};

#[derive(Debug, Clone, PartialEq, Eq, PartialOrd, Ord, Hash)]
pub struct Decimal;

impl Decimal {
    pub fn read_bin<T: io::Read>(_: T, _: usize, _: usize, _: bool) -> io::Result<Self> {
        Err(io::Error::other("not compared"))
    }

    pub fn read_packed<T: io::Read>(_: T, _: bool) -> io::Result<Self> {
        Err(io::Error::other("not compared"))
    }
}

impl fmt::Display for Decimal {
    fn fmt(&self, _: &mut fmt::Formatter<'_>) -> fmt::Result {
        Ok(())
    }
}
