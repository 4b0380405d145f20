//! The calls with the answers of the C functions: a length (of [`logical`]: mask, count and side in
//! one number), or minus the refusal's number; of [`extract`] each with the walk, of [`serve`] with the
//! queue, of [`extract_all`] with the rounds; and of [`explain`], which has no length, line, position and
//! conjuncts. The functions at the end take them apart.
//! `include/spatialjoin.h` says what they do.

use crate::{Node, Settings};

mod c {
    use crate::Node;

    unsafe extern "C" {
        pub fn spatialjoin_load(
            frame: *const u8,
            frame_len: usize,
            plan: *mut u8,
            plan_len: usize,
            table: *mut Node,
            table_len: usize,
        ) -> i64;
        pub fn spatialjoin_extract(
            plan: *mut u8,
            plan_len: usize,
            n: usize,
            scratch: *mut u8,
            scratch_len: usize,
            table: *const Node,
            table_len: usize,
            kinds: u8,
            default_k: u32,
            greatest_k: u32,
        ) -> i64;
        pub fn spatialjoin_exchange(
            plan: *mut u8,
            plan_len: usize,
            n: usize,
            scratch: *mut u8,
            scratch_len: usize,
        ) -> i64;
        pub fn spatialjoin_logical(frame: *const u8, frame_len: usize) -> i64;
        pub fn spatialjoin_print(
            frame: *const u8,
            frame_len: usize,
            text: *mut u8,
            text_len: usize,
        ) -> i64;
        pub fn spatialjoin_merge(
            frame: *const u8,
            frame_len: usize,
            plan: *mut u8,
            plan_len: usize,
            n: usize,
            scratch: *mut u8,
            scratch_len: usize,
            table: *mut Node,
            table_len: usize,
        ) -> i64;
        pub fn spatialjoin_project(
            plan: *mut u8,
            plan_len: usize,
            n: usize,
            scratch: *mut u8,
            scratch_len: usize,
            left: *const u16,
            left_len: usize,
            right: *const u16,
            right_len: usize,
        ) -> i64;
        pub fn spatialjoin_put(
            queues: *mut u8,
            queues_len: usize,
            queue: u8,
            frame: *const u8,
            frame_len: usize,
        ) -> i64;
        pub fn spatialjoin_serve(
            queues: *mut u8,
            queues_len: usize,
            out: *mut u8,
            out_len: usize,
        ) -> i64;
        pub fn spatialjoin_extract_all(
            frame: *const u8,
            frame_len: usize,
            out: *mut u8,
            out_len: usize,
            kinds: u8,
            default_k: u32,
            greatest_k: u32,
        ) -> i64;
        pub fn spatialjoin_explain(
            frame: *const u8,
            frame_len: usize,
            verdicts: *mut u8,
            verdicts_len: usize,
            kinds: u8,
            default_k: u32,
            greatest_k: u32,
        ) -> i64;
        pub fn spatialjoin_version() -> i64;
    }
}

// Each call is safe because a slice is memory of its length that is lent for the call, and slices
// that are lent for writing overlap with no other.

pub fn load(frame: &[u8], plan: &mut [u8], table: &mut [Node]) -> i64 {
    let (frame, frame_len) = (frame.as_ptr(), frame.len());
    let (plan, plan_len) = (plan.as_mut_ptr(), plan.len());
    let (table, table_len) = (table.as_mut_ptr(), table.len());
    unsafe { c::spatialjoin_load(frame, frame_len, plan, plan_len, table, table_len) }
}

pub fn extract(
    plan: &mut [u8],
    n: usize,
    scratch: &mut [u8],
    table: &[Node],
    settings: Settings,
) -> i64 {
    let (plan, plan_len) = (plan.as_mut_ptr(), plan.len());
    let (scratch, scratch_len) = (scratch.as_mut_ptr(), scratch.len());
    let (table, table_len) = (table.as_ptr(), table.len());
    unsafe {
        c::spatialjoin_extract(
            plan,
            plan_len,
            n,
            scratch,
            scratch_len,
            table,
            table_len,
            settings.kinds.bits(),
            settings.default_k,
            settings.greatest_k,
        )
    }
}

pub fn exchange(plan: &mut [u8], n: usize, scratch: &mut [u8]) -> i64 {
    let (plan, plan_len) = (plan.as_mut_ptr(), plan.len());
    unsafe { c::spatialjoin_exchange(plan, plan_len, n, scratch.as_mut_ptr(), scratch.len()) }
}

pub fn logical(frame: &[u8]) -> i64 {
    unsafe { c::spatialjoin_logical(frame.as_ptr(), frame.len()) }
}

pub fn print(frame: &[u8], text: &mut [u8]) -> i64 {
    unsafe { c::spatialjoin_print(frame.as_ptr(), frame.len(), text.as_mut_ptr(), text.len()) }
}

pub fn merge(
    frame: &[u8],
    plan: &mut [u8],
    n: usize,
    scratch: &mut [u8],
    table: &mut [Node],
) -> i64 {
    let (frame, frame_len) = (frame.as_ptr(), frame.len());
    let (plan, plan_len) = (plan.as_mut_ptr(), plan.len());
    let (scratch, scratch_len) = (scratch.as_mut_ptr(), scratch.len());
    let (table, table_len) = (table.as_mut_ptr(), table.len());
    unsafe {
        c::spatialjoin_merge(
            frame,
            frame_len,
            plan,
            plan_len,
            n,
            scratch,
            scratch_len,
            table,
            table_len,
        )
    }
}

pub fn project(plan: &mut [u8], n: usize, scratch: &mut [u8], left: &[u16], right: &[u16]) -> i64 {
    let (plan, plan_len) = (plan.as_mut_ptr(), plan.len());
    let (scratch, scratch_len) = (scratch.as_mut_ptr(), scratch.len());
    let (left, left_len) = (left.as_ptr(), left.len());
    let (right, right_len) = (right.as_ptr(), right.len());
    unsafe {
        c::spatialjoin_project(
            plan,
            plan_len,
            n,
            scratch,
            scratch_len,
            left,
            left_len,
            right,
            right_len,
        )
    }
}

pub fn put(queues: &mut [u8], queue: u8, frame: &[u8]) -> i64 {
    let (queues, queues_len) = (queues.as_mut_ptr(), queues.len());
    unsafe { c::spatialjoin_put(queues, queues_len, queue, frame.as_ptr(), frame.len()) }
}

pub fn serve(queues: &mut [u8], out: &mut [u8]) -> i64 {
    let (queues, queues_len) = (queues.as_mut_ptr(), queues.len());
    unsafe { c::spatialjoin_serve(queues, queues_len, out.as_mut_ptr(), out.len()) }
}

pub fn extract_all(frame: &[u8], out: &mut [u8], settings: Settings) -> i64 {
    let (frame, frame_len) = (frame.as_ptr(), frame.len());
    let (out, out_len) = (out.as_mut_ptr(), out.len());
    unsafe {
        c::spatialjoin_extract_all(
            frame,
            frame_len,
            out,
            out_len,
            settings.kinds.bits(),
            settings.default_k,
            settings.greatest_k,
        )
    }
}

pub fn explain(frame: &[u8], verdicts: &mut [u8], settings: Settings) -> i64 {
    let (frame, frame_len) = (frame.as_ptr(), frame.len());
    let (verdicts, verdicts_len) = (verdicts.as_mut_ptr(), verdicts.len());
    unsafe {
        c::spatialjoin_explain(
            frame,
            frame_len,
            verdicts,
            verdicts_len,
            settings.kinds.bits(),
            settings.default_k,
            settings.greatest_k,
        )
    }
}

/// The archive's version: major · 65,536 + minor · 256 + patch.
pub fn version() -> i64 {
    unsafe { c::spatialjoin_version() }
}

/// The length in an answer of any call but [`logical`] and [`explain`]; 0 where the call was refused.
pub fn length_of(answer: i64) -> usize {
    match answer {
        0.. => (answer % 65_536) as usize,
        _ => 0,
    }
}

/// The walk in an answer of [`extract`], accepted or refused; 0 in that of any other call but
/// [`logical`], [`serve`], [`extract_all`] and [`explain`].
pub fn walk_of(answer: i64) -> u32 {
    match answer {
        0.. => (answer / 65_536) as u32,
        _ => (answer.unsigned_abs() / 256) as u32,
    }
}

/// The refusal's number in an answer of any call; 0 where the call was accepted.
pub fn refusal_of(answer: i64) -> u8 {
    match answer {
        0.. => 0,
        _ => (answer.unsigned_abs() % 256) as u8,
    }
}

/// The queue in an answer of [`serve`] that has a frame; one of 0 says that both are empty.
pub fn queue_of(answer: i64) -> u32 {
    match answer {
        0.. => (answer / 65_536) as u32,
        _ => 0,
    }
}

/// The rounds in an answer of [`extract_all`]; 0 where it was refused.
pub fn rounds_of(answer: i64) -> u32 {
    match answer {
        0.. => (answer / 65_536) as u32,
        _ => 0,
    }
}

/// How many conjuncts a frame has, in an answer of [`explain`]; 0 where it was refused.
pub fn conjuncts_of(answer: i64) -> u32 {
    match answer {
        0.. => (answer % 65_536) as u32,
        _ => 0,
    }
}

/// The first byte of the extraction that [`extract`] would leave, in an answer of [`explain`]; 0 where
/// nothing matches, and where it was refused.
pub fn line_of(answer: i64) -> u8 {
    match answer {
        0.. => (answer / 4_294_967_296) as u8,
        _ => 0,
    }
}

/// The position, from 0, of the conjunct that [`extract`] would take, likewise.
pub fn taken_of(answer: i64) -> u16 {
    match answer {
        0.. => (answer / 65_536 % 65_536) as u16,
        _ => 0,
    }
}
