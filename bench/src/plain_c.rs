//! The calls in plain C (`../plain/`), with the answers of the C functions, as those of the library in
//! `spatialjoin::numbers`.

use spatialjoin::{Node, Settings};

mod c {
    use spatialjoin::Node;

    unsafe extern "C" {
        pub fn plain_load(
            frame: *const u8,
            frame_len: usize,
            plan: *mut u8,
            plan_len: usize,
            table: *mut Node,
            table_len: usize,
        ) -> i64;
        pub fn plain_extract(
            plan: *mut u8,
            plan_len: usize,
            n: usize,
            scratch: *mut u8,
            scratch_len: usize,
            table: *const Node,
            table_len: usize,
            kinds: u8,
            default_k: u32,
            greatest_k: u32,
        ) -> i64;
        pub fn plain_exchange(
            plan: *mut u8,
            plan_len: usize,
            n: usize,
            scratch: *mut u8,
            scratch_len: usize,
        ) -> i64;
        pub fn plain_logical(frame: *const u8, frame_len: usize) -> i64;
        pub fn plain_print(
            frame: *const u8,
            frame_len: usize,
            text: *mut u8,
            text_len: usize,
        ) -> i64;
        pub fn plain_merge(
            frame: *const u8,
            frame_len: usize,
            plan: *mut u8,
            plan_len: usize,
            n: usize,
            scratch: *mut u8,
            scratch_len: usize,
            table: *mut Node,
            table_len: usize,
        ) -> i64;
        pub fn plain_project(
            plan: *mut u8,
            plan_len: usize,
            n: usize,
            scratch: *mut u8,
            scratch_len: usize,
            left: *const u16,
            left_len: usize,
            right: *const u16,
            right_len: usize,
        ) -> i64;
        pub fn plain_put(
            queues: *mut u8,
            queues_len: usize,
            queue: u8,
            frame: *const u8,
            frame_len: usize,
        ) -> i64;
        pub fn plain_serve(queues: *mut u8, queues_len: usize, out: *mut u8, out_len: usize)
        -> i64;
        pub fn plain_extract_all(
            frame: *const u8,
            frame_len: usize,
            out: *mut u8,
            out_len: usize,
            kinds: u8,
            default_k: u32,
            greatest_k: u32,
        ) -> i64;
        pub fn plain_explain(
            frame: *const u8,
            frame_len: usize,
            verdicts: *mut u8,
            verdicts_len: usize,
            kinds: u8,
            default_k: u32,
            greatest_k: u32,
        ) -> i64;
    }
}

// Each call is safe because a slice is memory of its length that is lent for the call, and slices
// that are lent for writing overlap with no other.

pub fn load(frame: &[u8], plan: &mut [u8], table: &mut [Node]) -> i64 {
    let (frame, frame_len) = (frame.as_ptr(), frame.len());
    let (plan, plan_len) = (plan.as_mut_ptr(), plan.len());
    let (table, table_len) = (table.as_mut_ptr(), table.len());
    unsafe { c::plain_load(frame, frame_len, plan, plan_len, table, table_len) }
}

pub fn extract(
    plan: &mut [u8],
    n: usize,
    scratch: &mut [u8],
    table: &[Node],
    settings: Settings,
) -> i64 {
    let (plan, plan_len) = (plan.as_mut_ptr(), plan.len());
    let (scratch, scratch_len) = (scratch.as_mut_ptr(), scratch.len());
    let (table, table_len) = (table.as_ptr(), table.len());
    unsafe {
        c::plain_extract(
            plan,
            plan_len,
            n,
            scratch,
            scratch_len,
            table,
            table_len,
            settings.kinds.bits(),
            settings.default_k,
            settings.greatest_k,
        )
    }
}

pub fn exchange(plan: &mut [u8], n: usize, scratch: &mut [u8]) -> i64 {
    let (plan, plan_len) = (plan.as_mut_ptr(), plan.len());
    unsafe { c::plain_exchange(plan, plan_len, n, scratch.as_mut_ptr(), scratch.len()) }
}

pub fn logical(frame: &[u8]) -> i64 {
    unsafe { c::plain_logical(frame.as_ptr(), frame.len()) }
}

pub fn print(frame: &[u8], text: &mut [u8]) -> i64 {
    unsafe { c::plain_print(frame.as_ptr(), frame.len(), text.as_mut_ptr(), text.len()) }
}

pub fn merge(
    frame: &[u8],
    plan: &mut [u8],
    n: usize,
    scratch: &mut [u8],
    table: &mut [Node],
) -> i64 {
    let (frame, frame_len) = (frame.as_ptr(), frame.len());
    let (plan, plan_len) = (plan.as_mut_ptr(), plan.len());
    let (scratch, scratch_len) = (scratch.as_mut_ptr(), scratch.len());
    let (table, table_len) = (table.as_mut_ptr(), table.len());
    unsafe {
        c::plain_merge(
            frame,
            frame_len,
            plan,
            plan_len,
            n,
            scratch,
            scratch_len,
            table,
            table_len,
        )
    }
}

pub fn project(plan: &mut [u8], n: usize, scratch: &mut [u8], left: &[u16], right: &[u16]) -> i64 {
    let (plan, plan_len) = (plan.as_mut_ptr(), plan.len());
    let (scratch, scratch_len) = (scratch.as_mut_ptr(), scratch.len());
    let (left, left_len) = (left.as_ptr(), left.len());
    let (right, right_len) = (right.as_ptr(), right.len());
    unsafe {
        c::plain_project(
            plan,
            plan_len,
            n,
            scratch,
            scratch_len,
            left,
            left_len,
            right,
            right_len,
        )
    }
}

pub fn put(queues: &mut [u8], queue: u8, frame: &[u8]) -> i64 {
    let (queues, queues_len) = (queues.as_mut_ptr(), queues.len());
    unsafe { c::plain_put(queues, queues_len, queue, frame.as_ptr(), frame.len()) }
}

pub fn serve(queues: &mut [u8], out: &mut [u8]) -> i64 {
    let (queues, queues_len) = (queues.as_mut_ptr(), queues.len());
    unsafe { c::plain_serve(queues, queues_len, out.as_mut_ptr(), out.len()) }
}

pub fn extract_all(frame: &[u8], out: &mut [u8], settings: Settings) -> i64 {
    let (frame, frame_len) = (frame.as_ptr(), frame.len());
    let (out, out_len) = (out.as_mut_ptr(), out.len());
    unsafe {
        c::plain_extract_all(
            frame,
            frame_len,
            out,
            out_len,
            settings.kinds.bits(),
            settings.default_k,
            settings.greatest_k,
        )
    }
}

pub fn explain(frame: &[u8], verdicts: &mut [u8], settings: Settings) -> i64 {
    let (frame, frame_len) = (frame.as_ptr(), frame.len());
    let (verdicts, verdicts_len) = (verdicts.as_mut_ptr(), verdicts.len());
    unsafe {
        c::plain_explain(
            frame,
            frame_len,
            verdicts,
            verdicts_len,
            settings.kinds.bits(),
            settings.default_k,
            settings.greatest_k,
        )
    }
}
