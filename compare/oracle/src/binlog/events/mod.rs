// Stand-in for binlog/events/mod.rs, which is supplied but names 23 files that are not. The length of a header is its own.
pub mod table_map_event;

pub struct BinlogEventHeader;

impl BinlogEventHeader {
    pub const LEN: usize = 19;
}

// The format description, of which one number is asked.
pub struct FormatDescriptionEvent {
    pub post_header: u8,
}

impl FormatDescriptionEvent {
    pub fn get_event_type_header_length(&self, _: super::consts::EventType) -> u8 {
        self.post_header
    }
}
