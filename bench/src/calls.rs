//! The calls of the header, whoever has written them: what takes part works on any.

use spatialjoin::{Node, Settings, numbers};

use crate::plain_c;

/// With the answers of the C functions.
pub trait Calls: 'static {
    /// Who they are, in a sentence.
    const WHO: &str;

    fn load(frame: &[u8], plan: &mut [u8], table: &mut [Node]) -> i64;
    fn extract(plan: &mut [u8], n: usize, scratch: &mut [u8], table: &[Node], set: Settings)
    -> i64;
    fn exchange(plan: &mut [u8], n: usize, scratch: &mut [u8]) -> i64;
    fn logical(frame: &[u8]) -> i64;
    fn print(frame: &[u8], text: &mut [u8]) -> i64;
    fn merge(new: &[u8], plan: &mut [u8], n: usize, scratch: &mut [u8], table: &mut [Node]) -> i64;
    fn project(plan: &mut [u8], n: usize, scratch: &mut [u8], left: &[u16], right: &[u16]) -> i64;
    fn put(queues: &mut [u8], queue: u8, frame: &[u8]) -> i64;
    fn serve(queues: &mut [u8], out: &mut [u8]) -> i64;
    fn extract_all(frame: &[u8], out: &mut [u8], set: Settings) -> i64;
    fn explain(frame: &[u8], verdicts: &mut [u8], set: Settings) -> i64;
}

/// Those of a module that has a function for each.
macro_rules! calls_of {
    ($name:ident, $module:ident, $who:literal) => {
        pub struct $name;

        impl Calls for $name {
            const WHO: &str = $who;

            fn load(frame: &[u8], plan: &mut [u8], table: &mut [Node]) -> i64 {
                $module::load(frame, plan, table)
            }

            fn extract(
                plan: &mut [u8],
                n: usize,
                scratch: &mut [u8],
                table: &[Node],
                set: Settings,
            ) -> i64 {
                $module::extract(plan, n, scratch, table, set)
            }

            fn exchange(plan: &mut [u8], n: usize, scratch: &mut [u8]) -> i64 {
                $module::exchange(plan, n, scratch)
            }

            fn logical(frame: &[u8]) -> i64 {
                $module::logical(frame)
            }

            fn print(frame: &[u8], text: &mut [u8]) -> i64 {
                $module::print(frame, text)
            }

            fn merge(
                new: &[u8],
                plan: &mut [u8],
                n: usize,
                scratch: &mut [u8],
                table: &mut [Node],
            ) -> i64 {
                $module::merge(new, plan, n, scratch, table)
            }

            fn project(
                plan: &mut [u8],
                n: usize,
                scratch: &mut [u8],
                left: &[u16],
                right: &[u16],
            ) -> i64 {
                $module::project(plan, n, scratch, left, right)
            }

            fn put(queues: &mut [u8], queue: u8, frame: &[u8]) -> i64 {
                $module::put(queues, queue, frame)
            }

            fn serve(queues: &mut [u8], out: &mut [u8]) -> i64 {
                $module::serve(queues, out)
            }

            fn extract_all(frame: &[u8], out: &mut [u8], set: Settings) -> i64 {
                $module::extract_all(frame, out, set)
            }

            fn explain(frame: &[u8], verdicts: &mut [u8], set: Settings) -> i64 {
                $module::explain(frame, verdicts, set)
            }
        }
    };
}

calls_of!(Library, numbers, "ours");
calls_of!(PlainC, plain_c, "plain C");
