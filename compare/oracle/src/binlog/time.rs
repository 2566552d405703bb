// Stand-in for binlog/time.rs, which JSON contents alone use: they are not compared.
use std::fmt;

#[derive(Debug, Clone, Copy, PartialEq, Eq)]
pub struct MysqlTime;

impl MysqlTime {
    pub fn from_int64_date_packed(_: i64) -> Self {
        Self
    }

    pub fn from_int64_time_packed(_: i64) -> Self {
        Self
    }

    pub fn from_int64_datetime_packed(_: i64) -> Self {
        Self
    }
}

impl fmt::Display for MysqlTime {
    fn fmt(&self, _: &mut fmt::Formatter<'_>) -> fmt::Result {
        Ok(())
    }
}
