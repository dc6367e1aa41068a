//! The six calls as the library has them: lent buffers in, eight numbers out.
//!
//! The one file with unsafe code. Each wrapper hands on the pointer and the length of slices that
//! Rust itself keeps: aligned, not null, and apart where they are written. The library's functions
//! are proved to touch nothing beyond them and to return, whatever the bytes say, so every wrapper
//! is safe for every argument.

/// Number, place, second place, then the values; 0 in every place that is left.
pub type Answer = [i64; 8];

/// No place of an answer is this, so one that a call left as it was would show.
const UNWRITTEN: Answer = [i64::MIN; 8];

extern "C" {
    fn platelayer_read(book: *const u8, book_len: usize, answer: *mut Answer);
    fn platelayer_price(
        book: *const u8,
        book_len: usize,
        side: *const u8,
        side_len: usize,
        answer: *mut Answer,
    );
    fn platelayer_move(
        book: *const u8,
        book_len: usize,
        side: *const u8,
        side_len: usize,
        module: u32,
        answer: *mut Answer,
    );
    fn platelayer_split(
        book: *const u8,
        book_len: usize,
        near: *mut u8,
        near_len: usize,
        far: *mut u8,
        far_len: usize,
        flow: *mut i32,
        flow_len: usize,
        answer: *mut Answer,
    );
    fn platelayer_check(
        book: *const u8,
        book_len: usize,
        side: *const u8,
        side_len: usize,
        flow: *const i32,
        flow_len: usize,
        price: u32,
        answer: *mut Answer,
    );
    fn platelayer_walk(
        book: *const u8,
        book_len: usize,
        gate: u32,
        a: f64,
        b: f64,
        side: *mut u8,
        side_len: usize,
        rows: *mut u8,
        rows_len: usize,
        answer: *mut Answer,
    );
}

/// Values: modules, nets, pins.
pub fn read(book: &[u8]) -> Answer {
    let mut answer = UNWRITTEN;
    // SAFETY: a pointer and its length are those of one slice; the answer is eight numbers.
    unsafe { platelayer_read(book.as_ptr(), book.len(), &mut answer) };
    answer
}

/// Value: the price.
pub fn price(book: &[u8], side: &[u8]) -> Answer {
    let mut answer = UNWRITTEN;
    // SAFETY: as in `read`.
    unsafe {
        platelayer_price(
            book.as_ptr(),
            book.len(),
            side.as_ptr(),
            side.len(),
            &mut answer,
        );
    }
    answer
}

/// Value: the signed change. `move` is a word of the language.
pub fn change(book: &[u8], side: &[u8], module: u32) -> Answer {
    let mut answer = UNWRITTEN;
    // SAFETY: as in `read`.
    unsafe {
        platelayer_move(
            book.as_ptr(),
            book.len(),
            side.as_ptr(),
            side.len(),
            module,
            &mut answer,
        );
    }
    answer
}

/// Value: the price.
pub fn split(book: &[u8], near: &mut [u8], far: &mut [u8], flow: &mut [i32]) -> Answer {
    let mut answer = UNWRITTEN;
    // SAFETY: as in `read`; what is written is lent as `&mut`, so nothing else overlaps it.
    unsafe {
        platelayer_split(
            book.as_ptr(),
            book.len(),
            near.as_mut_ptr(),
            near.len(),
            far.as_mut_ptr(),
            far.len(),
            flow.as_mut_ptr(),
            flow.len(),
            &mut answer,
        );
    }
    answer
}

/// No value.
pub fn check(book: &[u8], side: &[u8], flow: &[i32], price: u32) -> Answer {
    let mut answer = UNWRITTEN;
    // SAFETY: as in `read`.
    unsafe {
        platelayer_check(
            book.as_ptr(),
            book.len(),
            side.as_ptr(),
            side.len(),
            flow.as_ptr(),
            flow.len(),
            price,
            &mut answer,
        );
    }
    answer
}

/// The gate is 0 open, 1 share (a = r, b = e), 2 bounds (a = low, b = high). Values: price, rounds.
pub fn walk(
    book: &[u8],
    (gate, a, b): (u32, f64, f64),
    side: &mut [u8],
    rows: &mut [u8],
) -> Answer {
    let mut answer = UNWRITTEN;
    // SAFETY: as in `split`.
    unsafe {
        platelayer_walk(
            book.as_ptr(),
            book.len(),
            gate,
            a,
            b,
            side.as_mut_ptr(),
            side.len(),
            rows.as_mut_ptr(),
            rows.len(),
            &mut answer,
        );
    }
    answer
}
