// Packed integers: the three readers of io.rs, its two writers, and the size of misc/mod.rs.
use crate::{
    ERROR, caught, hex,
    io::{BufMutExt, ParseBuf, ReadMysqlExt, WriteMysqlExt},
    misc::lenenc_int_len,
};

// The answers of `eat_lenenc_int`, `checked_eat_lenenc_int` and `read_lenenc_int`.
pub fn read(bytes: &[u8], at: usize) -> String {
    let rest = bytes.get(at..).unwrap_or_default();
    let told = |value: u64, left: usize| format!("ok {value} {}", at + rest.len() - left);
    let eaten = caught(|| {
        let mut buf = ParseBuf(rest);
        let value = buf.eat_lenenc_int();
        told(value, buf.len())
    });
    let checked = caught(|| {
        let mut buf = ParseBuf(rest);
        match buf.checked_eat_lenenc_int() {
            Some(value) => told(value, buf.len()),
            None => ERROR.into(),
        }
    });
    let read = caught(|| {
        let mut buf = rest;
        match buf.read_lenenc_int() {
            Ok(value) => told(value, buf.len()),
            Err(_) => ERROR.into(),
        }
    });
    [eaten, checked, read].join(" | ")
}

// The bytes of `put_lenenc_int` and of `write_lenenc_int`, and the size that `lenenc_int_len` tells.
pub fn write(value: u64) -> String {
    let mut put = Vec::new();
    put.put_lenenc_int(value);
    let mut written = Vec::new();
    match written.write_lenenc_int(value) {
        Ok(_) => format!(
            "{} | {} | {}",
            hex(&put),
            hex(&written),
            lenenc_int_len(value)
        ),
        Err(_) => ERROR.into(),
    }
}
