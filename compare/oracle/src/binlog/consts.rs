// Stand-in for binlog/consts.rs. The numbers of the optional fields are document 01's.
#[derive(Debug, Clone, Copy, PartialEq, Eq, Hash)]
pub enum BinlogVersion {
    Version4 = 4,
}

#[allow(non_camel_case_types)]
#[derive(Debug, Clone, Copy, PartialEq, Eq, Hash)]
#[repr(u8)]
pub enum EventType {
    TABLE_MAP_EVENT = 19,
}

macro_rules! fields {
    ($($name:ident = $number:literal,)*) => {
        #[allow(non_camel_case_types)]
        #[derive(Debug, Clone, Copy, PartialEq, Eq, Hash)]
        #[repr(u8)]
        pub enum OptionalMetadataFieldType { $( $name = $number, )* }

        impl TryFrom<u8> for OptionalMetadataFieldType {
            type Error = UnknownOptionalMetadataFieldType;

            fn try_from(x: u8) -> Result<Self, Self::Error> {
                match x {
                    $( $number => Ok(Self::$name), )*
                    other => Err(UnknownOptionalMetadataFieldType(other)),
                }
            }
        }
    };
}

#[derive(Debug, Clone, Copy, PartialEq, Eq, thiserror::Error)]
#[error("Unknown optional metadata field type {0}")]
pub struct UnknownOptionalMetadataFieldType(pub u8);

fields! {
    SIGNEDNESS = 1,
    DEFAULT_CHARSET = 2,
    COLUMN_CHARSET = 3,
    COLUMN_NAME = 4,
    SET_STR_VALUE = 5,
    ENUM_STR_VALUE = 6,
    GEOMETRY_TYPE = 7,
    SIMPLE_PRIMARY_KEY = 8,
    PRIMARY_KEY_WITH_PREFIX = 9,
    ENUM_AND_SET_DEFAULT_CHARSET = 10,
    ENUM_AND_SET_COLUMN_CHARSET = 11,
    COLUMN_VISIBILITY = 12,
    VECTOR_DIMENSIONALITY = 13,
}
