//! The operations, and what each contender does for them.

use std::hint::black_box;

use datafusion_physical_plan::joins::utils::JoinFilter;
use driver::answer::put_filter;
use driver::host::{LogicalJoin, logical_join};
use driver::original::{Extracted, exchange_filter, names_and_side};
use reading::frame::MAX_BYTES;
use reading::merge::merged;
use reading::{decode, encode};
use spatialjoin::MOST_TEXT;

use crate::calls::{Calls, Library, PlainC};
use crate::frames::{Group, Pairs};
use crate::measure::{Contender, Task, Work, Works};
use crate::original::{self, Functions};
use crate::ours::{self, Console, Lent, Ours};
use crate::plain::{self, Plain, plans};

/// Does the work on one frame after the other, from the first again after the last.
pub fn in_turn<'a>(count: usize, mut one: impl FnMut(usize) + 'a) -> Work<'a> {
    let mut next = 0;
    Box::new(move |times| {
        for _ in 0..times {
            one(next);
            next += 1;
            if next == count {
                next = 0;
            }
        }
    })
}

pub fn copy(frames: &[Vec<u8>]) -> Work<'_> {
    let mut buffer = vec![0; MAX_BYTES];
    in_turn(frames.len(), move |i| {
        let frame = black_box(&frames[i]);
        buffer[..frame.len()].copy_from_slice(frame);
        black_box(&mut buffer);
    })
}

/// What is done with a group, on its frames or on plans made of them.
pub fn task<'a>(name: &'static str, bytes: &[Vec<u8>], works: Works<'a>) -> Task<'a> {
    let total: usize = bytes.iter().map(Vec::len).sum();
    Task {
        name,
        bytes: total as f64 / bytes.len() as f64,
        works,
    }
}

/// A group of physical frames, with the original's trees of them.
pub struct Physical {
    pub group: Group,
    pub functions: Functions,
    filters: Vec<JoinFilter>,
    /// The plans after an extract.
    pub extractions: Vec<Vec<u8>>,
}

impl Physical {
    pub fn new(group: Group) -> Self {
        let decode = |frame: &Vec<u8>| decode::physical(frame).expect("the frames are good");
        let frames: Vec<_> = group.frames.iter().map(decode).collect();
        let functions = Functions::of(frames.iter().map(|frame| &frame.expr));
        let filter = |frame: &Vec<u8>| original::join_filter(frame, &functions);
        let filters: Option<Vec<_>> = group.frames.iter().map(filter).collect();
        let filters = filters.expect("the frames are good");
        let bytes = |filter: &JoinFilter| {
            let mut out = Vec::new();
            original::extract(filter).put(&mut out);
            out
        };
        Physical {
            extractions: filters.iter().map(bytes).collect(),
            group,
            functions,
            filters,
        }
    }

    fn each<'a>(&self, one: impl FnMut(usize) + 'a) -> Work<'a> {
        in_turn(self.group.frames.len(), one)
    }

    /// Buffers that hold each frame, extracted or not.
    fn held<C: Calls>(&self, extracted: bool) -> Vec<Lent<C>> {
        let held = |frame: &Vec<u8>| {
            let mut lent = Lent::new();
            lent.load(frame);
            if extracted {
                lent.extract();
            }
            lent
        };
        self.group.frames.iter().map(held).collect()
    }

    fn extracted(&self) -> Vec<Extracted> {
        self.filters.iter().map(original::extract).collect()
    }

    fn loading<C: Calls>(&self) -> Work<'_> {
        let frames = &self.group.frames;
        let mut lent = Lent::<C>::new();
        self.each(move |i| lent.load(black_box(&frames[i])))
    }

    pub fn load(&self) -> Task<'_> {
        let frames = &self.group.frames;
        let from_bytes = self.each(|i| {
            black_box(original::join_filter(
                black_box(&frames[i]),
                &self.functions,
            ));
        });
        let mut held = Plain::new();
        let plain = self.each(move |i| {
            held.load(black_box(&frames[i]));
            black_box(&mut held);
        });
        let works = vec![
            (Contender::Ours, self.loading::<Library>()),
            (Contender::RustFromBytes, from_bytes),
            (Contender::PlainRust, plain),
            (Contender::PlainC, self.loading::<PlainC>()),
            (Contender::Copy, copy(frames)),
        ];
        task(self.group.name, &self.group.frames, works)
    }

    fn printing<C: Calls>(&self) -> Work<'_> {
        let frames = &self.group.frames;
        let mut console = Console::<C>::new();
        self.each(move |i| {
            console.print(black_box(&frames[i]));
            black_box(console.text());
        })
    }

    /// From the same bytes: our print, plain Rust's and, to compare, our load.
    pub fn print(&self) -> Task<'_> {
        let frames = &self.group.frames;
        let mut text = vec![0; MOST_TEXT];
        let plain = self.each(move |i| {
            let _ = black_box(plain::print(black_box(&frames[i]), &mut text));
            black_box(&mut text);
        });
        let works = vec![
            (Contender::Ours, self.printing::<Library>()),
            (Contender::PlainRust, plain),
            (Contender::PlainC, self.printing::<PlainC>()),
            (Contender::Load, self.loading::<Library>()),
            (Contender::Copy, copy(frames)),
        ];
        task(self.group.name, frames, works)
    }

    fn loading_and_extracting<C: Calls>(&self) -> Work<'_> {
        let frames = &self.group.frames;
        let mut lent = Lent::<C>::new();
        self.each(move |i| {
            lent.load(black_box(&frames[i]));
            lent.extract();
        })
    }

    pub fn load_and_extract(&self) -> Task<'_> {
        let frames = &self.group.frames;
        let mut held = Plain::new();
        let plain = self.each(move |i| {
            held.load(black_box(&frames[i]));
            black_box(&mut held).extract();
            black_box(&mut held);
        });
        self.against_extraction(
            self.loading_and_extracting::<Library>(),
            self.loading_and_extracting::<PlainC>(),
            plain,
        )
    }

    fn extracting<C: Calls>(&self) -> Work<'_> {
        let mut held = self.held::<C>(false);
        self.each(move |i| held[i].extract_and_return())
    }

    pub fn extract(&self) -> Task<'_> {
        let mut held = plans(&self.group.frames);
        let plain = self.each(move |i| {
            held[i].extract();
            held[i].go_back();
            black_box(&mut held);
        });
        let [ours, plain_c] = [self.extracting::<Library>(), self.extracting::<PlainC>()];
        self.against_extraction(ours, plain_c, plain)
    }

    /// Ours, plain C and plain Rust, and what the original does for an extraction.
    fn against_extraction<'a>(
        &'a self,
        ours: Work<'a>,
        plain_c: Work<'a>,
        plain: Work<'a>,
    ) -> Task<'a> {
        let frames = &self.group.frames;
        let from_bytes =
            self.writing(|i, out| extract_from_bytes(black_box(&frames[i]), &self.functions, out));
        let call = self.each(|i| {
            black_box(original::extract(black_box(&self.filters[i])));
        });
        let extracted = self.extracted();
        let answer = self.writing(move |i, out| black_box(&extracted[i]).put(out));
        let mut task = self.task_of_all(frames, [ours, plain_c, from_bytes, call, answer]);
        task.works.push((Contender::PlainRust, plain));
        task
    }

    fn exchanging<C: Calls>(&self, extracted: bool) -> Work<'_> {
        let mut held = self.held::<C>(extracted);
        self.each(move |i| held[i].exchange())
    }

    pub fn exchange_frame(&self) -> Task<'_> {
        let frames = &self.group.frames;
        let ours = self.exchanging::<Library>(false);
        let plain_c = self.exchanging::<PlainC>(false);
        let from_bytes = self
            .writing(|i, out| exchange_frame_bytes(black_box(&frames[i]), &self.functions, out));
        let call = self.each(|i| {
            black_box(exchange_filter(black_box(&self.filters[i])));
        });
        let answer = self.writing(|i, out| put_filter(black_box(&self.filters[i]), out));
        self.task_of_all(frames, [ours, plain_c, from_bytes, call, answer])
    }

    pub fn exchange_extraction(&self) -> Task<'_> {
        let plans = &self.extractions;
        let ours = self.exchanging::<Library>(true);
        let plain_c = self.exchanging::<PlainC>(true);
        let from_bytes = self.writing(|i, out| {
            exchange_extraction_bytes(black_box(&plans[i]), &self.functions, out)
        });
        let mut extracted = self.extracted();
        let call = self.each(move |i| black_box(&mut extracted[i]).exchange());
        let extracted = self.extracted();
        let answer = self.writing(move |i, out| black_box(&extracted[i]).put(out));
        self.task_of_all(plans, [ours, plain_c, from_bytes, call, answer])
    }

    /// Writes each answer over the one before.
    fn writing<'a>(&self, mut write: impl FnMut(usize, &mut Vec<u8>) + 'a) -> Work<'a> {
        let mut out = Vec::new();
        self.each(move |i| {
            out.clear();
            write(i, &mut out);
            black_box(&out);
        })
    }

    fn task_of_all<'a>(&self, bytes: &'a [Vec<u8>], works: [Work<'a>; 5]) -> Task<'a> {
        let contenders = [
            Contender::Ours,
            Contender::PlainC,
            Contender::RustFromBytes,
            Contender::RustCall,
            Contender::RustAnswer,
        ];
        let mut works: Works<'a> = contenders.into_iter().zip(works).collect();
        works.push((Contender::Copy, copy(bytes)));
        task(self.group.name, bytes, works)
    }
}

/// From a frame's bytes to those of its extraction, by the original.
pub fn extract_from_bytes(frame: &[u8], functions: &Functions, out: &mut Vec<u8>) {
    let filter = original::join_filter(frame, functions).expect("the frames are good");
    original::extract(&filter).put(out);
}

pub fn exchange_frame_bytes(frame: &[u8], functions: &Functions, out: &mut Vec<u8>) {
    let filter = original::join_filter(frame, functions).expect("the frames are good");
    put_filter(&exchange_filter(&filter), out);
}

pub fn exchange_extraction_bytes(plan: &[u8], functions: &Functions, out: &mut Vec<u8>) {
    let mut extracted = original::extraction(plan, functions).expect("the plans are good");
    extracted.exchange();
    extracted.put(out);
}

/// Pairs of frames, and what becomes of them.
pub struct Merges {
    pub pairs: Pairs,
    merged: Vec<Vec<u8>>,
}

impl Merges {
    pub fn new(pairs: Pairs) -> Self {
        let merge = |(held, new): (&Vec<u8>, &Vec<u8>)| {
            let decode = |frame: &[u8]| decode::physical(frame).expect("the frames are good");
            encode::physical(&merged(&decode(held), &decode(new)))
        };
        Merges {
            merged: pairs.held.iter().zip(&pairs.new).map(merge).collect(),
            pairs,
        }
    }

    fn merging<C: Calls>(&self) -> Work<'_> {
        let frames = &self.pairs.new;
        let mut held = self.held::<C>();
        in_turn(frames.len(), move |i| {
            held[i].merge_and_return(black_box(&frames[i]));
            black_box(&held[i]);
        })
    }

    /// Our merge, plain Rust's and plain C's, a frame held, and, to compare, our load of the merged frame.
    pub fn merge(&self) -> Task<'_> {
        let (frames, merged) = (&self.pairs.new, &self.merged);
        let mut held = plans(&self.pairs.held);
        let plain = in_turn(frames.len(), move |i| {
            held[i].merge(black_box(&frames[i]));
            held[i].go_back();
            black_box(&mut held);
        });
        let mut loading = Ours::new();
        let load = in_turn(frames.len(), move |i| loading.load(black_box(&merged[i])));
        let works = vec![
            (Contender::Ours, self.merging::<Library>()),
            (Contender::PlainRust, plain),
            (Contender::PlainC, self.merging::<PlainC>()),
            (Contender::Load, load),
            (Contender::Copy, copy(merged)),
        ];
        task(self.pairs.name, merged, works)
    }

    /// Buffers that hold each frame.
    fn held<C: Calls>(&self) -> Vec<Lent<C>> {
        let held = |frame: &Vec<u8>| {
            let mut lent = Lent::new();
            lent.load(frame);
            lent
        };
        self.pairs.held.iter().map(held).collect()
    }
}

/// A group of logical frames. A host has its children's schemas before any filter comes.
pub struct Logical {
    pub group: Group,
    functions: Functions,
    joins: Vec<LogicalJoin>,
}

impl Logical {
    pub fn new(group: Group) -> Self {
        let decode = |frame: &Vec<u8>| decode::logical(frame).expect("the frames are good");
        let exprs: Vec<_> = group.frames.iter().map(decode).collect();
        Logical {
            functions: Functions::of(exprs.iter()),
            joins: exprs.iter().map(logical_join).collect(),
            group,
        }
    }

    /// The original's answer from a frame's bytes.
    pub fn names_from_bytes(&self, i: usize) -> [u8; 4] {
        let filter = original::logical_filter(black_box(&self.group.frames[i]), &self.functions);
        let filter = filter.expect("the frames are good");
        names_and_side(&filter, &self.joins[i].left, &self.joins[i].right)
    }

    fn naming<C: Calls>(&self) -> Work<'_> {
        let frames = &self.group.frames;
        in_turn(frames.len(), |i| {
            black_box(ours::logical::<C>(black_box(&frames[i])));
        })
    }

    pub fn logical(&self) -> Task<'_> {
        let (frames, joins) = (&self.group.frames, &self.joins);
        let from_bytes = in_turn(frames.len(), |i| {
            black_box(self.names_from_bytes(i));
        });
        let call = in_turn(frames.len(), |i| {
            let join = black_box(&joins[i]);
            black_box(names_and_side(&join.filter, &join.left, &join.right));
        });
        let works = vec![
            (Contender::Ours, self.naming::<Library>()),
            (Contender::PlainC, self.naming::<PlainC>()),
            (Contender::RustFromBytes, from_bytes),
            (Contender::RustCall, call),
            (Contender::Copy, copy(frames)),
        ];
        task(self.group.name, &self.group.frames, works)
    }
}
