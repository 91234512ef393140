//! The packed table: reading it into plain words, and writing it from them.

use crate::bits::{bytes, put, Bits};
use crate::rows::{fields, test_count, test_fields, test_kind, test_table, Known};
use crate::{answer, refuse, refuse_at, success, Answer, Refused};

/// Reads a packed table into plain words, four a flow. The count of the answer is that of the flows.
pub fn read(packed: &[u8], words: &mut [u32]) -> Answer {
    answer(unpack(packed).and_then(|plain| {
        if words.len() < plain.len() {
            return refuse(10);
        }
        words[..plain.len()].copy_from_slice(&plain);
        Ok(success(plain.len() / 4))
    }))
}

/// Writes plain words as a packed table. The count of the answer is that of the bytes.
pub fn write(plan_count: u32, words: &[u32], packed: &mut [u8]) -> Answer {
    answer(test_table(plan_count, words, Known::All).and_then(|()| {
        let bytes = pack(plan_count, words);
        if packed.len() < bytes.len() {
            return refuse(10);
        }
        packed[..bytes.len()].copy_from_slice(&bytes);
        Ok(success(bytes.len()))
    }))
}

/// The plain words of packed bytes.
pub fn unpack(packed: &[u8]) -> Refused<Vec<u32>> {
    let mut bits = Bits::new(packed);
    let Some(count) = bits.field(8) else { return refuse_at(12, 0) };
    let count = test_count(count)?;
    let mut plain = Vec::new();
    for flow in 0..count {
        let words = unpack_row(&mut bits, flow)?;
        test_fields(flow, count, &words)?;
        plain.extend(words);
    }
    if !bits.only_filling() {
        return refuse(16);
    }
    Ok(plain)
}

/// The four words of one packed row: its kind, then its fields, unused words 0.
fn unpack_row(bits: &mut Bits, flow: usize) -> Refused<[u32; 4]> {
    let Some(kind) = bits.field(5) else { return refuse_at(12, flow) };
    test_kind(flow, kind, Known::All)?;
    let mut words = [kind, 0, 0, 0];
    for (word, field) in words[1..].iter_mut().zip(fields(kind)) {
        let Some(number) = bits.field(field.width()) else { return refuse_at(12, flow) };
        *word = number;
    }
    Ok(words)
}

/// The packed bytes of a table that was tested.
fn pack(plan_count: u32, words: &[u32]) -> Vec<u8> {
    let mut bits = Vec::new();
    put(&mut bits, 8, plan_count);
    for words in words.chunks(4) {
        put(&mut bits, 5, words[0]);
        for (field, &word) in fields(words[0]).iter().zip(&words[1..]) {
            put(&mut bits, field.width(), word);
        }
    }
    bytes(&bits)
}
