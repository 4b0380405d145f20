//! The verdicts of a frame's conjuncts.

use std::hint::black_box;

use reading::frame::MAX_NODES;
use spatialjoin::Settings;

use crate::calls::{Calls, Library, PlainC};
use crate::frames::Group;
use crate::measure::{Contender, Task, Work};
use crate::operations::{copy, in_turn, task};
use crate::ours::Ours;
use crate::plain;

/// The call on each frame in turn.
fn work<C: Calls>(frames: &[Vec<u8>]) -> Work<'_> {
    let mut verdicts = vec![0; MAX_NODES];
    in_turn(frames.len(), move |i| {
        let frame = black_box(&frames[i]);
        black_box(C::explain(frame, &mut verdicts, Settings::default()));
        black_box(&mut verdicts);
    })
}

/// Ours, plain Rust, plain C, and, to compare, one load and extract of ours of the same frames.
pub fn explain(group: &Group) -> Task<'_> {
    let frames = &group.frames;
    let mut verdicts = vec![0; MAX_NODES];
    let plain = in_turn(frames.len(), move |i| {
        let settings = black_box(Settings::default());
        let _ = black_box(plain::explain(
            black_box(&frames[i]),
            &mut verdicts,
            settings,
        ));
        black_box(&mut verdicts);
    });
    let mut held = Ours::new();
    let once = in_turn(frames.len(), move |i| {
        held.load(black_box(&frames[i]));
        held.extract();
    });
    let works = vec![
        (Contender::Ours, work::<Library>(frames)),
        (Contender::PlainRust, plain),
        (Contender::PlainC, work::<PlainC>(frames)),
        (Contender::LoadAndExtract, once),
        (Contender::Copy, copy(frames)),
    ];
    task(group.name, frames, works)
}
