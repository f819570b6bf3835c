//! The C face against the second program on what libFuzzer comes upon: it
//! looks for new paths of the second program, and a difference or an access
//! beyond a lent file is a crash. `./run 180` builds it and runs it for 180
//! seconds; it is outside the gate.
//!
//! An input is the function, two bytes for a length, and the files; for the
//! controller place, left and four readings come first, with a start file the
//! index before them; for the makers a byte for the form, and for that of start
//! files one for the buffer's length behind it.

#![no_main]

use second::plant::read_plant;
use side::seen::Seen;

extern "C" {
    fn mmap(at: *mut u8, length: usize, access: i32, flags: i32, file: i32, offset: i64) -> *mut u8;
    fn mprotect(at: *mut u8, length: usize, access: i32) -> i32;
    fn munmap(at: *mut u8, length: usize) -> i32;
}

/// So many bytes of a file at most, whole pages.
const MOST: usize = 1 << 15;
const PAGE: usize = 4096;

/// A copy of a file that ends where memory that may be read ends.
struct Guarded {
    pages: *mut u8,
    length: usize,
}

impl Guarded {
    fn new(bytes: &[u8]) -> Guarded {
        assert!(bytes.len() <= MOST);
        unsafe {
            // readable and writable, private, without a file
            let pages = mmap(std::ptr::null_mut(), MOST + PAGE, 3, 0x22, -1, 0);
            assert!(pages as isize != -1 && mprotect(pages.add(MOST), PAGE, 0) == 0);
            std::ptr::copy_nonoverlapping(bytes.as_ptr(), pages.add(MOST - bytes.len()), bytes.len());
            Guarded { pages, length: bytes.len() }
        }
    }

    fn bytes(&self) -> &[u8] {
        unsafe { std::slice::from_raw_parts(self.pages.add(MOST - self.length), self.length) }
    }
}

impl Drop for Guarded {
    fn drop(&mut self) {
        unsafe { munmap(self.pages, MOST + PAGE) };
    }
}

/// Whether the maker's search is short enough to be tried.
fn small(plant: &[u8]) -> bool {
    read_plant(plant).map_or(true, |plant| plant.modes.pow(plant.k as u32) <= 1 << 12)
}

/// Four counts of two bytes.
fn reading(bytes: &[u8]) -> [i64; 4] {
    std::array::from_fn(|i| i16::from_le_bytes([bytes[2 * i], bytes[2 * i + 1]]).into())
}

#[no_mangle]
pub extern "C" fn LLVMFuzzerTestOneInput(data: *const u8, length: usize) -> i32 {
    let data = if length == 0 { &[] } else { unsafe { std::slice::from_raw_parts(data, length) } };
    let [function, low, high, rest @ ..] = data else { return 0 };
    let mut seen = Seen::default();
    let size = usize::from(*low) + 256 * usize::from(*high);
    let one = |bytes: &[u8]| Guarded::new(bytes);
    let two = |bytes: &[u8]| {
        let (plant, table) = bytes.split_at(size.min(bytes.len()));
        (Guarded::new(plant), Guarded::new(table))
    };
    match (function % 8, rest) {
        (0, _) => {
            seen.plant(one(rest).bytes());
        }
        (1, _) => {
            seen.sheet(one(rest).bytes(), size % 1_200);
        }
        (2, [form, plant @ ..]) if small(plant) => {
            seen.make(one(plant).bytes(), (*form).into(), size);
        }
        (3, _) => {
            let (plant, table) = two(rest);
            seen.check(plant.bytes(), table.bytes());
        }
        (4, [place, left, x @ ..]) if x.len() >= 8 => {
            let (plant, table) = two(&x[8..]);
            seen.control(plant.bytes(), table.bytes(), (*place).into(), (*left).into(), reading(x));
        }
        (5, [form, buffer, files @ ..]) => {
            let (plant, chain) = two(files);
            if small(plant.bytes()) {
                seen.start_make(plant.bytes(), chain.bytes(), (*form).into(), 8 * usize::from(*buffer));
            }
        }
        (6, _) => {
            let (plant, start) = two(rest);
            seen.start_check(plant.bytes(), start.bytes());
        }
        (7, [index, place, left, x @ ..]) if x.len() >= 8 => {
            let (plant, start) = two(&x[8..]);
            let standing = [index, place, left].map(|number| u64::from(*number));
            seen.start_control(plant.bytes(), start.bytes(), standing, reading(x));
        }
        _ => {}
    }
    0
}
