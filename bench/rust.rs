// The Rust crate behind four calls that a C program can make. What is measured is `rust_pack` and `rust_unpack`; the others make ready and clear
// away.

extern crate tsz;

use std::slice::{from_raw_parts, from_raw_parts_mut};
use tsz::stream::{BufferedReader, BufferedWriter};
use tsz::{DataPoint, Decode, Encode, StdDecoder, StdEncoder};

// A writer with room for the whole stream, so that it never grows.
#[no_mangle]
pub extern "C" fn rust_writer(bytes: usize) -> *mut BufferedWriter {
    Box::into_raw(Box::new(BufferedWriter::with_capacity(bytes)))
}

// Packs n points and uses the writer up.
#[no_mangle]
pub unsafe extern "C" fn rust_pack(start: u64, times: *const u64, values: *const u64, n: usize, w: *mut BufferedWriter) -> *mut Box<[u8]> {
    let times = from_raw_parts(times, n);
    let values = from_raw_parts(values, n);
    let mut encoder = StdEncoder::new(start, *Box::from_raw(w));
    for (t, v) in times.iter().zip(values) {
        encoder.encode(DataPoint::new(*t, f64::from_bits(*v)));
    }
    Box::into_raw(Box::new(encoder.close()))
}

// Whether a packed stream has just these bytes. Clears it away.
#[no_mangle]
pub unsafe extern "C" fn rust_same(packed: *mut Box<[u8]>, bytes: *const u8, n: usize) -> bool {
    **Box::from_raw(packed) == *from_raw_parts(bytes, n)
}

// A reader of a copy of the bytes.
#[no_mangle]
pub unsafe extern "C" fn rust_reader(bytes: *const u8, n: usize) -> *mut BufferedReader {
    let copy = from_raw_parts(bytes, n).to_vec().into_boxed_slice();
    Box::into_raw(Box::new(BufferedReader::new(copy)))
}

// Unpacks into two lists of n entries and uses the reader up. Answers how many points there were.
#[no_mangle]
pub unsafe extern "C" fn rust_unpack(r: *mut BufferedReader, times: *mut u64, values: *mut u64, n: usize) -> usize {
    let times = from_raw_parts_mut(times, n);
    let values = from_raw_parts_mut(values, n);
    let mut decoder = StdDecoder::new(*Box::from_raw(r));
    let mut i = 0;
    while let Ok(p) = decoder.next() {
        if i < n {
            times[i] = p.get_time();
            values[i] = p.get_value().to_bits();
        }
        i += 1;
    }
    i
}
