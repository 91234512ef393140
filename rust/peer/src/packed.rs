//! The packed form, through 64-bit windows.

use crate::plan::{flows, test_row, unfilled, Row};
use crate::{Answer, MOST_FLOWS};

/// The widths of the fields of each kind; 0 where there is no field.
const WIDTHS: [[u32; 3]; 19] = [
    [12, 12, 0],
    [32, 12, 12],
    [6, 6, 0],
    [6, 6, 0],
    [6, 6, 0],
    [6, 6, 0],
    [6, 6, 0],
    [32, 6, 6],
    [6, 6, 12],
    [6, 6, 0],
    [6, 12, 0],
    [6, 32, 12],
    [6, 0, 0],
    [6, 6, 0],
    [6, 6, 0],
    [6, 6, 6],
    [0, 0, 0],
    [6, 6, 12],
    [6, 6, 12],
];

/// The bits of a kind.
const KIND_WIDTH: usize = 5;

/// The bytes of the longest packed table: a count, and 64 rows of 61 bits.
const LONGEST: usize = (8 + MOST_FLOWS * 61_usize).div_ceil(8);

/// The bits of the fields of a kind together.
const fn fields_width(kind: usize) -> usize {
    (WIDTHS[kind][0] + WIDTHS[kind][1] + WIDTHS[kind][2]) as usize
}

/// Packed bytes with room for a whole window behind the last, and a bit place.
struct Window {
    bytes: [u8; LONGEST + 8],
    place: usize,
}

impl Window {
    fn new(packed: &[u8]) -> Self {
        let mut bytes = [0; LONGEST + 8];
        let held = packed.len().min(LONGEST);
        bytes[..held].copy_from_slice(&packed[..held]);
        Window { bytes, place: 0 }
    }

    /// The next bits as a number, at most 32. Bits behind the end are 0; the caller tests for it.
    #[inline]
    fn take(&mut self, width: u32) -> u32 {
        let window = self.bytes[self.place / 8..].first_chunk().map_or(0, |&bytes| u64::from_be_bytes(bytes));
        let number = (window << (self.place % 8)) >> 1 >> (63 - width);
        self.place += width as usize;
        number as u32
    }
}

/// Reads a packed table into plain words, four a flow. The count of the answer is that of the flows.
pub fn read(packed: &[u8], words: &mut [u32]) -> Answer {
    let mut plain = [[0; 4]; MOST_FLOWS];
    match unpack(packed, &mut plain) {
        Ok(flows) if words.len() < 4 * flows => Answer::number(10),
        Ok(flows) => {
            words[..4 * flows].copy_from_slice(plain[..flows].as_flattened());
            Answer::success(flows)
        }
        Err(refusal) => refusal,
    }
}

/// Reads a packed table into rows, and gives how many there are.
pub fn unpack(packed: &[u8], plain: &mut [Row; MOST_FLOWS]) -> Result<usize, Answer> {
    let &count = packed.first().ok_or(Answer::at(12, 0))?;
    let flows = flows(u32::from(count))?;
    let bits = packed.len().saturating_mul(8);
    let mut window = Window::new(packed);
    window.place = 8;
    for (flow, row) in plain[..flows].iter_mut().enumerate() {
        if window.place + KIND_WIDTH > bits {
            return Err(Answer::at(12, flow));
        }
        let kind = window.take(KIND_WIDTH as u32);
        let Some(&[x, y, z]) = WIDTHS.get(kind as usize) else {
            return Err(Answer::at(13, flow));
        };
        if window.place + (x + y + z) as usize > bits {
            return Err(Answer::at(12, flow));
        }
        *row = [kind, window.take(x), window.take(y), window.take(z)];
        test_row::<true>(flow, flows, row)?;
    }
    let filling = window.place.wrapping_neg() % 8;
    if window.take(filling as u32) != 0 || packed.len() != window.place / 8 {
        return Err(Answer::number(16));
    }
    Ok(flows)
}

/// Writes plain words as a packed table. The count of the answer is that of the bytes.
pub fn write(plan_count: u32, words: &[u32], packed: &mut [u8]) -> Answer {
    let rows = match unfilled(plan_count, words) {
        Ok(rows) => rows,
        Err(refusal) => return refusal,
    };
    let bits = 8 + rows.iter().map(|row| KIND_WIDTH + fields_width(row[0] as usize)).sum::<usize>();
    let Some(packed) = packed.get_mut(..bits.div_ceil(8)) else {
        return Answer::number(10);
    };
    pack(rows, packed);
    Answer::success(packed.len())
}

/// Packs tested rows into exactly the bytes they need.
fn pack(rows: &[Row], packed: &mut [u8]) {
    let (chunks, rest) = packed.as_chunks_mut::<4>();
    let mut chunks = chunks.iter_mut();
    // The lowest `held` bits of `window` are still to be written; below 32 between fields.
    let (mut window, mut held) = (rows.len() as u64, 8);
    let mut put = |width: u32, number: u32| {
        window = window << width | u64::from(number);
        held += width;
        if held >= 32 {
            held -= 32;
            if let Some(chunk) = chunks.next() {
                *chunk = ((window >> held) as u32).to_be_bytes();
            }
        }
    };
    for &[kind, x, y, z] in rows {
        let [width_x, width_y, width_z] = WIDTHS[kind as usize];
        put(KIND_WIDTH as u32, kind);
        put(width_x, x);
        put(width_y, y);
        put(width_z, z);
    }
    let last = ((window << (32 - held)) as u32).to_be_bytes();
    match chunks.next() {
        Some(chunk) => *chunk = last,
        None => rest.copy_from_slice(&last[..rest.len()]),
    }
}
