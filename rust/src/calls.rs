//! The calls of `libdrecerunya.a` over slices. `include/drecerunya.h` declares them side by side.

extern "C" {
    fn drecerunya_set_up(pool: *mut u32, len: usize) -> u32;
    fn drecerunya_check(pool: *const u32, len: usize) -> u32;
    fn drecerunya_insert(pool: *mut u32, len: usize, x: u32, y: u32, answer: *mut [u32; 5]) -> u32;
    fn drecerunya_delete(pool: *mut u32, len: usize, x: u32, y: u32, answer: *mut [u32; 5]) -> u32;
    fn drecerunya_smallest_x(pool: *const u32, len: usize, x0: u32, x1: u32, y1: u32, answer: *mut [u32; 5]) -> u32;
    fn drecerunya_largest_x(pool: *const u32, len: usize, x0: u32, x1: u32, y1: u32, answer: *mut [u32; 5]) -> u32;
    fn drecerunya_smallest_y(pool: *const u32, len: usize, x0: u32, x1: u32, answer: *mut [u32; 5]) -> u32;
    fn drecerunya_listing(
        pool: *const u32,
        len: usize,
        x0: u32,
        x1: u32,
        y1: u32,
        out: *mut u32,
        out_len: usize,
        answer: *mut [u32; 5],
    ) -> u32;
    fn drecerunya_open(pool: *mut u32, len: usize, start: u32, end: u32, number: u32, answer: *mut [u32; 5]) -> u32;
    fn drecerunya_close(pool: *mut u32, len: usize, start: u32, end: u32, number: u32, answer: *mut [u32; 5]) -> u32;
    fn drecerunya_first_to_end(pool: *const u32, len: usize, u: u32, answer: *mut [u32; 5]) -> u32;
    fn drecerunya_last_to_end(pool: *const u32, len: usize, u: u32, e: u32, answer: *mut [u32; 5]) -> u32;
    fn drecerunya_list_covers(pool: *const u32, len: usize, u: u32, out: *mut u32, out_len: usize, answer: *mut [u32; 5]) -> u32;
    fn drecerunya_list_meets(pool: *const u32, len: usize, u: u32, v: u32, out: *mut u32, out_len: usize, answer: *mut [u32; 5]) -> u32;
    fn drecerunya_list_contains(pool: *const u32, len: usize, u: u32, v: u32, out: *mut u32, out_len: usize, answer: *mut [u32; 5]) -> u32;
    fn drecerunya_earliest_start(pool: *const u32, len: usize, u: u32, v: u32, answer: *mut [u32; 5]) -> u32;
    fn drecerunya_save(pool: *const u32, len: usize, bytes: *mut u8, bytes_len: usize, answer: *mut [u32; 5]) -> u32;
}

/// Lends an array of five to a call, and gives what the call wrote there.
fn told(call: impl FnOnce(*mut [u32; 5]) -> u32) -> [u32; 5] {
    let mut answer = [0; 5];
    call(&mut answer);
    answer
}

// SAFETY, of every call below: each pointer goes with the length of the slice that it is from; a slice that the call may write is
// borrowed uniquely, so no two of them overlap, and neither does the array of five, which is `told`'s own; the call keeps none of
// them, accepts whatever they hold, and always returns.

pub(crate) fn set_up(pool: &mut [u32]) -> u32 {
    unsafe { drecerunya_set_up(pool.as_mut_ptr(), pool.len()) }
}

pub(crate) fn check(pool: &[u32]) -> u32 {
    unsafe { drecerunya_check(pool.as_ptr(), pool.len()) }
}

pub(crate) fn insert(pool: &mut [u32], x: u32, y: u32) -> [u32; 5] {
    told(|answer| unsafe { drecerunya_insert(pool.as_mut_ptr(), pool.len(), x, y, answer) })
}

pub(crate) fn delete(pool: &mut [u32], x: u32, y: u32) -> [u32; 5] {
    told(|answer| unsafe { drecerunya_delete(pool.as_mut_ptr(), pool.len(), x, y, answer) })
}

pub(crate) fn smallest_x(pool: &[u32], x0: u32, x1: u32, y1: u32) -> [u32; 5] {
    told(|answer| unsafe { drecerunya_smallest_x(pool.as_ptr(), pool.len(), x0, x1, y1, answer) })
}

pub(crate) fn largest_x(pool: &[u32], x0: u32, x1: u32, y1: u32) -> [u32; 5] {
    told(|answer| unsafe { drecerunya_largest_x(pool.as_ptr(), pool.len(), x0, x1, y1, answer) })
}

pub(crate) fn smallest_y(pool: &[u32], x0: u32, x1: u32) -> [u32; 5] {
    told(|answer| unsafe { drecerunya_smallest_y(pool.as_ptr(), pool.len(), x0, x1, answer) })
}

pub(crate) fn listing(pool: &[u32], x0: u32, x1: u32, y1: u32, out: &mut [u32]) -> [u32; 5] {
    told(|answer| unsafe { drecerunya_listing(pool.as_ptr(), pool.len(), x0, x1, y1, out.as_mut_ptr(), out.len(), answer) })
}

pub(crate) fn open(pool: &mut [u32], start: u32, end: u32, number: u32) -> [u32; 5] {
    told(|answer| unsafe { drecerunya_open(pool.as_mut_ptr(), pool.len(), start, end, number, answer) })
}

pub(crate) fn close(pool: &mut [u32], start: u32, end: u32, number: u32) -> [u32; 5] {
    told(|answer| unsafe { drecerunya_close(pool.as_mut_ptr(), pool.len(), start, end, number, answer) })
}

pub(crate) fn first_to_end(pool: &[u32], u: u32) -> [u32; 5] {
    told(|answer| unsafe { drecerunya_first_to_end(pool.as_ptr(), pool.len(), u, answer) })
}

pub(crate) fn last_to_end(pool: &[u32], u: u32, e: u32) -> [u32; 5] {
    told(|answer| unsafe { drecerunya_last_to_end(pool.as_ptr(), pool.len(), u, e, answer) })
}

pub(crate) fn list_covers(pool: &[u32], u: u32, out: &mut [u32]) -> [u32; 5] {
    told(|answer| unsafe { drecerunya_list_covers(pool.as_ptr(), pool.len(), u, out.as_mut_ptr(), out.len(), answer) })
}

pub(crate) fn list_meets(pool: &[u32], u: u32, v: u32, out: &mut [u32]) -> [u32; 5] {
    told(|answer| unsafe { drecerunya_list_meets(pool.as_ptr(), pool.len(), u, v, out.as_mut_ptr(), out.len(), answer) })
}

pub(crate) fn list_contains(pool: &[u32], u: u32, v: u32, out: &mut [u32]) -> [u32; 5] {
    told(|answer| unsafe { drecerunya_list_contains(pool.as_ptr(), pool.len(), u, v, out.as_mut_ptr(), out.len(), answer) })
}

pub(crate) fn earliest_start(pool: &[u32], u: u32, v: u32) -> [u32; 5] {
    told(|answer| unsafe { drecerunya_earliest_start(pool.as_ptr(), pool.len(), u, v, answer) })
}

pub(crate) fn save(pool: &[u32], bytes: &mut [u8]) -> [u32; 5] {
    told(|answer| unsafe { drecerunya_save(pool.as_ptr(), pool.len(), bytes.as_mut_ptr(), bytes.len(), answer) })
}
