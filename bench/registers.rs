//! The printed register, which the Rust does not have, beside list text of the same set: time a call and a byte. The ratio is of the times a byte.
use crate::cases::DENSITIES;
use crate::ffi;
use crate::timing::{least, random};
use std::hint::black_box as bb;
use vbitmap::Bitmap64;

const PAGE: usize = 3650;

pub fn times() {
    println!();
    println!("{:<34} {:>9} {:>12} {:>14} {:>12} {:>7}", "printed", "words", "bytes", "ns a call", "ns a byte", "ratio");
    for n in [1_000, 1_000_000] {
        for (k, name) in DENSITIES {
            beside_list(n, k, name);
        }
    }
}

fn beside_list(n: usize, k: u32, density: &str) {
    let words = random(n, k, 4);
    let text = Bitmap64::from_slice(&words).format_list();
    // a comma stands between two runs
    let runs = text.matches(',').count() + 1;
    let (mut list, mut register) = (vec![0u8; text.len()], vec![0u8; PAGE * runs.div_ceil(49)]);
    let printed = || ffi::write_register(bb(&words), bb(&mut register)) as u64;
    let (ours, beside) = least(printed, || ffi::write_list(bb(&words), bb(&mut list)) as u64);
    let (a_byte, list_byte) = (ours / register.len() as f64, beside / list.len() as f64);
    let name = format!("write_list, {density}");
    println!("{name:<34} {n:>9} {:>12} {beside:>14.0} {list_byte:>12.4}", list.len());
    let name = format!("write_register, {density}");
    println!("{name:<34} {n:>9} {:>12} {ours:>14.0} {a_byte:>12.4} {:>7.2}", register.len(), a_byte / list_byte);
    assert_eq!(list, text.as_bytes());
}
