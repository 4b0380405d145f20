//! Projections: the extractions of the frames that are timed, and the lists of their children.

use std::hint::black_box;

use reading::frame::{Expr, Extraction, Plan, Predicate, Side};
use reading::project::MAX_ITEMS;
use reading::settings::Settings;
use reading::{decode, encode, physical};

use crate::calls::{Calls, Library, PlainC};
use crate::frames::{self, Group};
use crate::measure::{Contender, Task, Work};
use crate::operations::{copy, in_turn, task};
use crate::ours::{Lent, Ours};
use crate::plain::Plain;

pub struct Projections {
    pub name: &'static str,
    pub plans: Vec<Vec<u8>>,
    /// The left one and the right one of each plan.
    pub lists: Vec<[Vec<u16>; 2]>,
}

/// How many items a list has: as many as the plan has columns of its side, or as many as there may be.
#[derive(Clone, Copy)]
pub enum Length {
    Short,
    Long,
}

impl Projections {
    pub fn all(length: Length) -> Vec<Self> {
        let of_group = |group: Group| {
            let (plans, lists) = group.frames.iter().map(|f| extracted(f, length)).unzip();
            Projections {
                name: group.name,
                plans,
                lists,
            }
        };
        frames::physical().into_iter().map(of_group).collect()
    }

    fn projecting<C: Calls>(&self) -> Work<'_> {
        let lists = &self.lists;
        let mut held = self.held::<C>();
        in_turn(self.plans.len(), move |i| {
            held[i].project_and_return(black_box(&lists[i]));
            black_box(&held[i]);
        })
    }

    /// Our projection, plain Rust's and plain C's, an extraction held, and, to compare, our exchange of it.
    pub fn project(&self) -> Task<'_> {
        let (plans, lists) = (&self.plans, &self.lists);
        let mut held: Vec<Plain> = plans.iter().map(|plan| Plain::holding(plan)).collect();
        let plain = in_turn(plans.len(), move |i| {
            held[i].project(black_box(&lists[i]));
            held[i].go_back();
            black_box(&mut held);
        });
        let mut held: Vec<Ours> = self.held();
        let exchange = in_turn(plans.len(), move |i| held[i].exchange());
        let works = vec![
            (Contender::Ours, self.projecting::<Library>()),
            (Contender::PlainRust, plain),
            (Contender::PlainC, self.projecting::<PlainC>()),
            (Contender::Exchange, exchange),
            (Contender::Copy, copy(plans)),
        ];
        task(self.name, plans, works)
    }

    /// Buffers that hold each extraction.
    fn held<C: Calls>(&self) -> Vec<Lent<C>> {
        let held = |plan: &Vec<u8>| {
            let mut lent = Lent::new();
            lent.hold(plan);
            lent
        };
        self.plans.iter().map(held).collect()
    }
}

fn extracted(frame: &[u8], length: Length) -> (Vec<u8>, [Vec<u16>; 2]) {
    let frame = decode::physical(frame).expect("the frames are good");
    let extraction = physical::extract(&frame, Settings::OF_THE_PROGRAM);
    let extraction = extraction.expect("the frames have a match");
    let lists = [Side::Left, Side::Right].map(|side| match length {
        Length::Short => child_indices(&extraction, side),
        Length::Long => mixed(),
    });
    (encode::plan(&Plan::Extraction(extraction)), lists)
}

/// The indices below the most, each once, so that those after each other stand far apart.
fn mixed() -> Vec<u16> {
    let mut list = vec![0; MAX_ITEMS];
    for index in 0..MAX_ITEMS {
        list[index * 2_531 % MAX_ITEMS] = index as u16;
    }
    list
}

/// Those that an extraction has of a side, each once, the largest first.
fn child_indices(extraction: &Extraction, side: Side) -> Vec<u16> {
    let mut found = Vec::new();
    match (&extraction.predicate, side) {
        (Predicate::Relation { left, .. }, Side::Left) => columns(left, &mut found),
        (Predicate::Relation { right, .. }, _) => columns(right, &mut found),
        _ => panic!("the frames' match is a relation"),
    }
    if let Some(frame) = &extraction.remainder {
        let of_side = frame.records.iter().filter(|record| record.side == side);
        found.extend(of_side.map(|record| record.index));
    }
    found.sort_unstable_by(|a, b| b.cmp(a));
    found.dedup();
    found
}

fn columns(expr: &Expr, found: &mut Vec<u16>) {
    if let Expr::Column { index, .. } = expr {
        found.push(*index);
    }
    for child in expr.children() {
        columns(child, found);
    }
}
