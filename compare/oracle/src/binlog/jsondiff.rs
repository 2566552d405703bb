// Stand-in for binlog/jsondiff.rs: partial JSON is not compared.
use crate::{io::ParseBuf, proto::MyDeserialize};

#[derive(Debug, Clone, PartialEq)]
pub struct JsonDiff<'a>(&'a [u8]);

impl<'a> JsonDiff<'a> {
    pub fn into_owned(self) -> JsonDiff<'static> {
        JsonDiff(&[])
    }
}

impl<'de> MyDeserialize<'de> for JsonDiff<'de> {
    const SIZE: Option<usize> = None;
    type Ctx = ();

    fn deserialize((): (), buf: &mut ParseBuf<'de>) -> std::io::Result<Self> {
        Ok(Self(buf.eat_all()))
    }
}
