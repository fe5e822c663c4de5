//! Reads a stamp and writes it as text.

#[link(name = "stamp")]
extern "C" {
    fn stamp_read(kind: u32, octets: *const u8, length: usize, parts: *mut [i64; 8]) -> u32;
    fn stamp_write(
        kind: u32, year: u32, month: u32, day: u32, micros: u64, offset: i32,
        binary: bool, version: u32, digits: u32, octets: *mut u8, room: usize, count: *mut usize,
    ) -> u32;
}

fn main() {
    let lent = [0xFE, 0xF2, 0xFF, 0xFF, 0xFF, 0xFF, 0xFF];
    let (mut parts, mut text, mut count) = ([0; 8], [0; 32], 0);
    let read = unsafe { stamp_read(5, lent.as_ptr(), lent.len(), &mut parts) };
    assert_eq!(read, 0, "refused");
    let [kind, _form, _digits, year, month, day, micros, offset] = parts;
    let written = unsafe {
        stamp_write(
            kind as u32, year as u32, month as u32, day as u32, micros as u64, offset as i32,
            false, 0, 3, text.as_mut_ptr(), text.len(), &mut count,
        )
    };
    assert_eq!(written, 0, "refused");
    println!("{}", String::from_utf8_lossy(&text[..count]));
}
