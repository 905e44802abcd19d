//! Sheets, which the Rust does not have: time a record.
use crate::raw::{taxolbin_add, taxolbin_read, taxolbin_start};
use crate::timing::alone;
use std::hint::black_box as bb;

const RECORDS: usize = 1_000;
const WORDS: usize = 128;
const STORE: usize = 192;

/// Adds the r-th record: every kind in turn, some 60 places from 0 on, and each twelfth a remark.
fn add(buffer: &mut [u8], length: &mut usize, r: usize) {
    let kind = r % 12;
    let duty = (kind != 0) as u32;
    let (p, k) = ((r * 61 % 4000) as u32, (r % 7) as u32);
    let (width, size) = (r % 65, 64 * WORDS - r % 3);
    let flag = (r / 12 % 2) as u32;
    let payload = b"a note";
    let number = unsafe {
        taxolbin_add(buffer.as_mut_ptr(), buffer.len(), length, duty, kind, p, k, flag, width, 0x5a5a, size, payload.as_ptr(), payload.len())
    };
    assert_eq!(number, 0, "record {r}");
}

/// A sheet of 1,000 records in the buffer; its length.
fn written(buffer: &mut [u8]) -> usize {
    let mut length = 0;
    assert_eq!(unsafe { taxolbin_start(buffer.as_mut_ptr(), buffer.len(), &mut length) }, 0);
    for r in 0..RECORDS {
        add(buffer, &mut length, r);
    }
    length
}

/// Reads a sheet from an empty bitmap; the records read.
fn read(sheet: &[u8], store: &mut [u64]) -> usize {
    let (mut at, mut count) = (0, 0);
    let old = [0u64; 1];
    let number = unsafe {
        taxolbin_read(2, sheet.as_ptr(), sheet.len(), old.as_ptr(), 1, 0, store.as_mut_ptr(), store.len(), &mut at, &mut count)
    };
    assert_eq!(number, 0, "record {at}");
    at
}

pub fn times() {
    println!();
    println!("{:<34} {:>9} {:>12}", "sheet", "records", "ns a record");
    let mut buffer = vec![0u8; 65_535];
    let length = written(&mut buffer);
    let sheet = buffer[..length].to_vec();
    let mut store = vec![0u64; STORE];
    assert_eq!(read(&sheet, &mut store), RECORDS);
    alone("read, edition 2", RECORDS, || read(bb(&sheet), bb(&mut store)) as u64);
    alone("add, from start", RECORDS, || written(bb(&mut buffer)) as u64);
    let end = length;
    let mut one = vec![0u8; length + 16];
    one[..length].copy_from_slice(&sheet);
    alone("add to 1,000 records", 1, || {
        one[2..4].copy_from_slice(&(RECORDS as u16).to_be_bytes());
        let mut length = end;
        add(bb(&mut one), &mut length, 1);
        length as u64
    });
}
