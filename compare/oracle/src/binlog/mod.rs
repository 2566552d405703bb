// Stand-in for binlog/mod.rs: the traits as table_map_event.rs uses them, and how many bytes of metadata a column has.
use crate::{
    constants::ColumnType,
    proto::{MyDeserialize, MySerialize},
};

pub mod consts;
pub mod decimal;
pub mod events;
pub mod jsonb;
pub mod jsondiff;
pub mod misc;
pub mod time;
pub mod value;

use consts::{BinlogVersion, EventType};

pub struct BinlogCtx<'a> {
    pub fde: &'a events::FormatDescriptionEvent,
}

pub trait BinlogEvent<'a>: BinlogStruct<'a> {
    const EVENT_TYPE: EventType;
}

pub trait BinlogStruct<'a>:
    MySerialize + MyDeserialize<'a, Ctx = BinlogCtx<'a>> + 'a
{
    fn len(&self, version: BinlogVersion) -> usize;
}

impl ColumnType {
    // Document 01's table: what is compared through it says nothing about the Rust.
    pub fn get_metadata<'a>(&self, ptr: &'a [u8], _is_array: bool) -> Option<(&'a [u8], usize)> {
        let len = match *self as u8 {
            1..=3 | 7..=14 => 0,
            4 | 5 | 17..=19 | 242 | 245 | 249..=252 | 255 => 1,
            15 | 16 | 246..=248 | 253 | 254 => 2,
            _ => return None,
        };
        ptr.get(..len).map(|x| (x, len))
    }
}
