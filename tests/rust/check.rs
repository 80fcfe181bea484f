//! The library from Rust: four safe functions over the C ones, and a few answers.

use std::cmp::Ordering;
use std::mem::MaybeUninit;

/// A part of a lent text, as C has it.
#[repr(C)]
struct Part {
    start: *const u8,
    len: usize,
}

extern "C" {
    fn decimal128_read(text: *const u8, len: usize, out: *mut [u8; 16], place: *mut usize) -> u32;
    fn decimal128_write(bytes: *const [u8; 16], buf: *mut u8, cap: usize, len: *mut usize) -> u32;
    fn decimal128_compare(a: *const [u8; 16], b: *const [u8; 16], order: *mut i32) -> u32;
    fn decimal128_larger(a: *const u8, alen: usize, b: *const u8, blen: usize, part: *mut Part);
}

/// The number of a refusal, and its place in the text.
type Refusal = (u32, usize);

/// The 16 stored bytes, or the refusal.
fn read(text: &[u8]) -> Result<[u8; 16], Refusal> {
    let mut out = [0; 16];
    let mut place = 0;
    match unsafe { decimal128_read(text.as_ptr(), text.len(), &mut out, &mut place) } {
        0 => Ok(out),
        number => Err((number, place)),
    }
}

/// No text is longer than 42 bytes, so there is always room.
fn write(bytes: &[u8; 16]) -> String {
    let mut buf = [0; 42];
    let mut len = 0;
    unsafe { decimal128_write(bytes, buf.as_mut_ptr(), buf.len(), &mut len) };
    String::from_utf8_lossy(&buf[..len]).into_owned()
}

/// The order by value; with a NaN the number 11.
fn compare(a: &[u8; 16], b: &[u8; 16]) -> Result<Ordering, u32> {
    let mut order = 0;
    match unsafe { decimal128_compare(a, b, &mut order) } {
        0 => Ok(order.cmp(&0)),
        number => Err(number),
    }
}

/// The larger of two texts, itself; an empty part of the first where either is refused or NaN.
fn larger<'t>(a: &'t [u8], b: &'t [u8]) -> &'t [u8] {
    let mut part = MaybeUninit::uninit();
    unsafe {
        decimal128_larger(a.as_ptr(), a.len(), b.as_ptr(), b.len(), part.as_mut_ptr());
        let Part { start, len } = part.assume_init();
        std::slice::from_raw_parts(start, len)
    }
}

/// The text itself, not a copy.
fn is_lent(part: &[u8], text: &str) {
    assert_eq!((part.as_ptr(), part.len()), (text.as_ptr(), text.len()), "{text:?}");
}

fn main() {
    for text in ["0.70", "1E6144", "-Infinity"] {
        let bytes = read(text.as_bytes()).expect(text);
        println!("{text:?} is stored as {bytes:02x?} and written {}", write(&bytes));
    }
    for (text, refusal) in [("1E-6177", (6, 0)), ("1.2.3", (3, 3)), ("-1E6145", (4, 3)), ("12x", (7, 2)), ("", (7, 0))] {
        assert_eq!(read(text.as_bytes()), Err(refusal), "{text:?}");
        println!("{text:?} is refused with {} at {}", refusal.0, refusal.1);
    }
    let (less, equal, greater) = (Ok(Ordering::Less), Ok(Ordering::Equal), Ok(Ordering::Greater));
    for (a, b, order) in [
        ("0.70", "0.7", equal),
        ("-0", "0", equal),
        ("-1", "-2", greater),
        ("137.25", "1E+3", less),
        ("-Infinity", "-9E6144", less),
        ("NaN", "1", Err(11)),
        ("1", "NaN", Err(11)),
    ] {
        let (value, other) = (read(a.as_bytes()).expect(a), read(b.as_bytes()).expect(b));
        assert_eq!(compare(&value, &other), order, "{a:?} and {b:?}");
        let text = larger(a.as_bytes(), b.as_bytes());
        is_lent(text, if order == less { b } else if order.is_ok() { a } else { &a[..0] });
        println!("of {a:?} and {b:?} the larger is {:?}", String::from_utf8_lossy(text));
    }
    for (a, b) in [("12x", "1"), ("1", "12x"), ("", "1"), ("1", "")] {
        is_lent(larger(a.as_bytes(), b.as_bytes()), &a[..0]);
    }
}
