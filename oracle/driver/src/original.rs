//! The original behind the program's line protocol. What it has no part in, loads, refusals and
//! the exchange of a held frame, is done as document 01 says; only its own answers are given out.

use std::cell::Cell;
use std::panic::{self, AssertUnwindSafe};

use datafusion_common::{DFSchema, JoinSide};
use datafusion_expr::Expr as LogicalExpr;
use datafusion_physical_plan::joins::utils::{ColumnIndex, JoinFilter};
use reading::decode;
use reading::frame::{DISTANCE, Expr, Frame, KNN, LOGICAL, PHYSICAL, RELATION, Record};
use reading::physical::exchange_frame;
use reading::program::{hex, parse};
use reading::refusal::Refusal;
use sedona_query_planner::reach::{
    collect_spatial_predicate_names, find_knn_query_side, transform_join_filter,
};
use sedona_query_planner::spatial_predicate::{
    DistancePredicate, SpatialPredicate, SpatialPredicateTrait,
};

use crate::answer::{put_extraction, side_number, taken_leaf};
use crate::host::{Hidden, join_filter, logical_join, marked_bound, zero_k};

/// The names in the order in which the original's `collect_spatial_predicate_names` lists them,
/// which gives them their bits.
const NAMES: [&str; 15] = [
    "st_intersects",
    "st_contains",
    "st_within",
    "st_covers",
    "st_covered_by",
    "st_coveredby",
    "st_touches",
    "st_crosses",
    "st_overlaps",
    "st_equals",
    "st_dwithin",
    "st_knn",
    "rs_intersects",
    "rs_contains",
    "rs_within",
];

/// In place of a line where the original panicked.
pub const PANIC: &[u8] = b"panic";

/// The form where there is no distance; no answer has it.
const NO_FORM: u8 = 0xff;

#[derive(Default)]
enum Held {
    #[default]
    Nothing,
    Frame(Frame),
    Extraction(Extracted),
}

/// An extraction as the original has it, and the form byte that it lacks.
pub struct Extracted {
    pub predicate: SpatialPredicate,
    pub form: u8,
    pub remainder: Option<JoinFilter>,
}

/// What the original does with a frame that document 01 refuses.
pub enum Tried {
    Panics,
    Extracts,
    FindsNothing,
}

/// What the original does with a filter that is given as it is, where document 02 says that a leaf does
/// not match.
pub enum AsItIs {
    Panics,
    /// Such a leaf.
    TakesIt,
    TakesAnother,
    FindsNothing,
}

#[derive(Default)]
pub struct Original {
    held: Held,
}

impl Original {
    /// The original's line for this line, or nothing where it isn't asked.
    pub fn answer(&mut self, line: &[u8]) -> Option<Vec<u8>> {
        let bytes = parse(line).ok()?;
        match bytes[..] {
            [PHYSICAL, ..] => {
                if let Ok(frame) = decode::physical(&bytes) {
                    self.held = Held::Frame(frame);
                }
                None
            }
            [LOGICAL, ..] => decode::logical(&bytes).ok().map(|expr| logical(&expr)),
            [0x21] => self.extract(),
            [0x22] => self.exchange(),
            _ => None,
        }
    }

    /// What it does with a k of 0 in the held frame, if there is one (request 5 of document 02).
    pub fn nearest(&self) -> Option<AsItIs> {
        let hidden = Hidden {
            zero_k: false,
            ..Hidden::ALL
        };
        self.as_it_is(
            |leaf, _| zero_k(leaf).is_some(),
            hidden,
            |taken| matches!(taken, SpatialPredicate::KNearestNeighbors(knn) if knn.k == 0),
        )
    }

    /// What it does with a bound of mark columns in the held frame, if there is one (request 8).
    pub fn marked(&self) -> Option<AsItIs> {
        let hidden = Hidden {
            marks: false,
            ..Hidden::ALL
        };
        self.as_it_is(marked_bound, hidden, |taken| match taken {
            SpatialPredicate::Distance(taken) => {
                taken.distance_side == JoinSide::None && taken_leaf(&taken.distance).is_some()
            }
            _ => false,
        })
    }

    /// Nothing where no AND-leaf of the held frame is such a one.
    fn as_it_is(
        &self,
        is_such: fn(&Expr, &[Record]) -> bool,
        hidden: Hidden,
        took_such: fn(&SpatialPredicate) -> bool,
    ) -> Option<AsItIs> {
        let Held::Frame(frame) = &self.held else {
            return None;
        };
        let leaves = frame.expr.and_leaves();
        if !leaves.into_iter().any(|leaf| is_such(leaf, &frame.records)) {
            return None;
        }
        let filter = join_filter(frame, hidden);
        Some(match guarded(|| transform_join_filter(&filter)) {
            None => AsItIs::Panics,
            Some(Some((taken, _))) if took_such(&taken) => AsItIs::TakesIt,
            Some(Some(_)) => AsItIs::TakesAnother,
            Some(None) => AsItIs::FindsNothing,
        })
    }

    fn extract(&mut self) -> Option<Vec<u8>> {
        let Held::Frame(frame) = &self.held else {
            return None;
        };
        let Some(found) = guarded(|| transform(frame)) else {
            return Some(PANIC.to_vec());
        };
        let Some(extracted) = found else {
            return Some(hex(&[Refusal::NoMatch.number()]));
        };
        let line = extracted.line();
        self.held = Held::Extraction(extracted);
        Some(line)
    }

    fn exchange(&mut self) -> Option<Vec<u8>> {
        match &mut self.held {
            Held::Nothing => None,
            Held::Frame(frame) => {
                *frame = exchange_frame(frame);
                None
            }
            Held::Extraction(extracted) => {
                extracted.exchange();
                Some(extracted.line())
            }
        }
    }
}

impl Extracted {
    fn line(&self) -> Vec<u8> {
        let bytes = || {
            let mut out = Vec::new();
            self.put(&mut out);
            out
        };
        guarded(bytes).map_or(PANIC.to_vec(), |bytes| accepted(&bytes))
    }

    pub fn put(&self, out: &mut Vec<u8>) {
        put_extraction(&self.predicate, self.form, self.remainder.as_ref(), out);
    }

    /// The predicate is exchanged by the original.
    pub fn exchange(&mut self) {
        self.predicate = self.predicate.swap_for_swapped_children();
        self.remainder = self.remainder.as_ref().map(exchange_filter);
    }
}

/// The join filter's own swap isn't among the files: document 01 gives its rule.
pub fn exchange_filter(filter: &JoinFilter) -> JoinFilter {
    let negated = |column: &ColumnIndex| ColumnIndex {
        index: column.index,
        side: column.side.negate(),
    };
    JoinFilter::new(
        filter.expression().clone(),
        filter.column_indices().iter().map(negated).collect(),
        filter.schema().clone(),
    )
}

fn accepted(bytes: &[u8]) -> Vec<u8> {
    hex(&[&[0], bytes].concat())
}

/// As requests 5 and 8 of document 02 have it: a k of 0 is no literal, and a distance with a bound of
/// mark columns is none to the original.
pub fn transform(frame: &Frame) -> Option<Extracted> {
    let (predicate, remainder) = transform_join_filter(&join_filter(frame, Hidden::ALL))?;
    let form = match &predicate {
        SpatialPredicate::Distance(distance) => form(frame, distance),
        _ => NO_FORM,
    };
    Some(Extracted {
        predicate,
        form,
        remainder,
    })
}

/// The form byte is document 01's: the original forgets how a distance was written, so it is read
/// off the leaf that the original took.
fn form(frame: &Frame, distance: &DistancePredicate) -> u8 {
    let leaf = taken_leaf(&distance.left).expect("a matched geometry has a column");
    match frame.expr.and_leaves()[usize::from(leaf)] {
        Expr::Binary { op, .. } => *op,
        Expr::Function { name, .. } if name == b"st_dwithin" => 0,
        _ => NO_FORM,
    }
}

fn logical(expr: &Expr) -> Vec<u8> {
    let answer = guarded(|| {
        let join = logical_join(expr);
        names_and_side(&join.filter, &join.left, &join.right)
    });
    answer.map_or(PANIC.to_vec(), |bytes| accepted(&bytes))
}

/// Mask, count and query side of a filter.
pub fn names_and_side(filter: &LogicalExpr, left: &DFSchema, right: &DFSchema) -> [u8; 4] {
    let names = collect_spatial_predicate_names(filter);
    let bit = |name: &String| {
        let position = NAMES.iter().position(|known| known == name);
        1 << position.expect("the original collects known names only")
    };
    let mask: u16 = names.iter().map(bit).sum();
    let side = find_knn_query_side(filter, left, right);
    let [high, low] = mask.to_be_bytes();
    [high, low, names.len() as u8, side_number(side)]
}

/// Hands the original a frame that document 01 refuses with 6 or 8.
pub fn try_refused(line: &[u8]) -> Option<Tried> {
    let bytes = parse(line).ok()?;
    let frame = decode::physical_shape(&bytes).ok()?;
    let filter = join_filter(&frame, Hidden::NOTHING);
    Some(match guarded(|| transform_join_filter(&filter)) {
        None => Tried::Panics,
        Some(Some(_)) => Tried::Extracts,
        Some(None) => Tried::FindsNothing,
    })
}

/// The first byte of the extraction and the position of the AND-leaf that the original takes of a good
/// frame, as requests 5 and 8 of document 02 have it; the inner nothing where it finds none, the outer
/// where it panics.
pub fn taken(frame: &Frame) -> Option<Option<(u8, u16)>> {
    let filter = join_filter(frame, Hidden::ALL);
    let found = guarded(|| transform_join_filter(&filter))?;
    Some(found.map(|(predicate, _)| {
        let (first, geometry) = match &predicate {
            SpatialPredicate::Relation(taken) => (RELATION, &taken.left),
            SpatialPredicate::Distance(taken) => (DISTANCE, &taken.left),
            SpatialPredicate::KNearestNeighbors(taken) => (KNN, &taken.left),
        };
        let leaf = taken_leaf(geometry).expect("a matched geometry has a column");
        (first, leaf)
    }))
}

thread_local! {
    static GUARDED: Cell<bool> = const { Cell::new(false) };
}

/// A panic of the original is an answer too, and not to be printed.
fn guarded<T>(ask: impl FnOnce() -> T) -> Option<T> {
    GUARDED.set(true);
    let answer = panic::catch_unwind(AssertUnwindSafe(ask)).ok();
    GUARDED.set(false);
    answer
}

/// To be called once, before anything is asked.
pub fn keep_guarded_panics_quiet() {
    let print = panic::take_hook();
    panic::set_hook(Box::new(move |info| {
        if !GUARDED.get() {
            print(info);
        }
    }));
}
