//! All conjuncts of a frame: of the mix, in which one matches, and of frames in which all do.

use std::hint::black_box;

use reading::frame::MAX_BYTES;
use spatialjoin::Settings;

use crate::calls::{Calls, Library, PlainC};
use crate::frames::Group;
use crate::measure::{Contender, Task, Work};
use crate::operations::{copy, in_turn, task};
use crate::ours::Ours;
use crate::plain;

/// The call on each frame in turn.
fn work<C: Calls>(frames: &[Vec<u8>]) -> Work<'_> {
    let mut out = vec![0; MAX_BYTES];
    in_turn(frames.len(), move |i| {
        let frame = black_box(&frames[i]);
        black_box(C::extract_all(frame, &mut out, Settings::default()));
        black_box(&mut out);
    })
}

/// Ours, plain Rust, plain C, and, to compare, one load and extract of ours of the same frames.
pub fn all(group: &Group) -> Task<'_> {
    let frames = &group.frames;
    let mut out = vec![0; MAX_BYTES];
    let plain = in_turn(frames.len(), move |i| {
        let settings = black_box(Settings::default());
        let _ = black_box(plain::extract_all(
            black_box(&frames[i]),
            &mut out,
            settings,
        ));
        black_box(&mut out);
    });
    let mut held = Ours::new();
    let once = in_turn(frames.len(), move |i| {
        held.load(black_box(&frames[i]));
        held.extract();
    });
    let works = vec![
        (Contender::Ours, work::<Library>(frames)),
        (Contender::PlainRust, plain),
        (Contender::PlainC, work::<PlainC>(frames)),
        (Contender::LoadAndExtract, once),
        (Contender::Copy, copy(frames)),
    ];
    task(group.name, frames, works)
}
