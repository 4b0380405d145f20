//! Why each AND-leaf of a frame is indexed or is not: the first of 23 reasons that applies, or what it
//! matches as. (Beyond document 02.)

use crate::frame::{Expr, Frame, Record, Side, literal};
use crate::physical::{collect_columns, relation_type};
use crate::settings::Settings;

/// Each with its byte: a match has the first byte of its extraction.
#[derive(Clone, Copy, Debug, PartialEq, Eq, PartialOrd, Ord)]
#[repr(u8)]
pub enum Verdict {
    AsRelation = 0x11,
    AsDistance = 0x12,
    AsKnn = 0x13,
    OtherCase = 0x20,
    OtherSide = 0x21,
    OtherOperator = 0x22,
    InsideAnother = 0x23,
    NothingOfOurs = 0x24,
    KindLeftOut = 0x30,
    TooFewArguments = 0x40,
    TooManyArguments = 0x41,
    FirstWithoutColumns = 0x50,
    FirstOfBoth = 0x51,
    FirstWithMark = 0x52,
    SecondWithoutColumns = 0x53,
    SecondOfBoth = 0x54,
    SecondWithMark = 0x55,
    BothLeft = 0x56,
    BothRight = 0x57,
    BoundOfBoth = 0x60,
    BoundWithMark = 0x61,
    KNoNumber = 0x70,
    KBelowOne = 0x71,
    KAboveGreatest = 0x72,
    SpheroidNoFlag = 0x73,
    TiesNoFlag = 0x74,
}

impl Verdict {
    pub fn byte(self) -> u8 {
        self as u8
    }

    pub fn is_match(self) -> bool {
        self <= Verdict::AsKnn
    }
}

/// A reason, and whether it applies to a leaf, whatever others do.
pub type Reason = (Verdict, fn(&Leaf) -> bool);

/// All of them, in the order of their bytes.
pub const REASONS: [Reason; 23] = [
    // What the leaf is.
    (Verdict::OtherCase, |leaf| {
        leaf.unmeant() && meant_in_small(leaf.expr)
    }),
    (Verdict::OtherSide, |leaf| {
        leaf.unmeant() && distance_unread(leaf.expr)
    }),
    (Verdict::OtherOperator, |leaf| {
        leaf.unmeant() && distance_uncompared(leaf.expr)
    }),
    (Verdict::InsideAnother, |leaf| {
        leaf.unmeant() && leaf.expr.children().into_iter().any(meant_in_small)
    }),
    (Verdict::NothingOfOurs, |leaf| leaf.unmeant()),
    // The settings.
    (Verdict::KindLeftOut, |leaf| leaf.left_out()),
    // How many arguments it has.
    (Verdict::TooFewArguments, |leaf| leaf.lacks_arguments()),
    (Verdict::TooManyArguments, |leaf| {
        leaf.meant == Some(Meant::Knn) && leaf.arguments.len() > 5
    }),
    // Its geometries.
    (Verdict::FirstWithoutColumns, |leaf| {
        leaf.geometry(0, no_columns)
    }),
    (Verdict::FirstOfBoth, |leaf| leaf.geometry(0, of_both)),
    (Verdict::FirstWithMark, |leaf| leaf.geometry(0, with_mark)),
    (Verdict::SecondWithoutColumns, |leaf| {
        leaf.geometry(1, no_columns)
    }),
    (Verdict::SecondOfBoth, |leaf| leaf.geometry(1, of_both)),
    (Verdict::SecondWithMark, |leaf| leaf.geometry(1, with_mark)),
    (Verdict::BothLeft, |leaf| {
        leaf.geometry(0, all_left) && leaf.geometry(1, all_left)
    }),
    (Verdict::BothRight, |leaf| {
        leaf.geometry(0, all_right) && leaf.geometry(1, all_right)
    }),
    // Its bound.
    (Verdict::BoundOfBoth, |leaf| leaf.bound(of_both)),
    (Verdict::BoundWithMark, |leaf| leaf.bound(with_mark)),
    // Its k and its flags.
    (Verdict::KNoNumber, |leaf| leaf.k(|k| k.is_none())),
    (Verdict::KBelowOne, |leaf| {
        leaf.k(|k| k.is_some_and(|k| k < 1))
    }),
    (Verdict::KAboveGreatest, |leaf| {
        let greatest = i128::from(leaf.settings.greatest_k);
        leaf.k(|k| k.is_some_and(|k| k > greatest))
    }),
    (Verdict::SpheroidNoFlag, |leaf| leaf.lacks_flag(3)),
    (Verdict::TiesNoFlag, |leaf| leaf.lacks_flag(4)),
];

/// The line of the price list that a leaf is meant for.
#[derive(Clone, Copy, Debug, PartialEq, Eq)]
pub enum Meant {
    Relation,
    Distance,
    Knn,
}

/// An AND-leaf with what it is to be judged by.
pub struct Leaf<'a> {
    expr: &'a Expr,
    records: &'a [Record],
    settings: Settings,
    meant: Option<Meant>,
    /// The geometries first, then a distance's bound, or k and the flags.
    arguments: Vec<&'a Expr>,
}

/// The verdicts of a frame's AND-leaves, in order.
pub fn verdicts(frame: &Frame, settings: Settings) -> Vec<Verdict> {
    let leaves = frame.expr.and_leaves();
    let judge = |expr: &Expr| Leaf::new(expr, &frame.records, settings).verdict();
    leaves.into_iter().map(judge).collect()
}

impl<'a> Leaf<'a> {
    pub fn new(expr: &'a Expr, records: &'a [Record], settings: Settings) -> Self {
        let (meant, arguments) = match (expr, compared_distance(expr)) {
            (Expr::Function { name, args }, _) => (meant_by(name), args.iter().collect()),
            (_, Some((args, bound))) => {
                let geometries = args.iter().take(2);
                (Some(Meant::Distance), geometries.chain([bound]).collect())
            }
            _ => (None, Vec::new()),
        };
        Leaf {
            expr,
            records,
            settings,
            meant,
            arguments,
        }
    }

    /// The first reason that applies, else what it matches as.
    pub fn verdict(&self) -> Verdict {
        let reason = REASONS.into_iter().find(|(_, applies)| applies(self));
        match (reason, self.meant) {
            (Some((reason, _)), _) => reason,
            (None, Some(Meant::Relation)) => Verdict::AsRelation,
            (None, Some(Meant::Distance)) => Verdict::AsDistance,
            (None, Some(Meant::Knn)) => Verdict::AsKnn,
            (None, None) => unreachable!("one that is meant for no line has a reason"),
        }
    }

    fn unmeant(&self) -> bool {
        self.meant.is_none()
    }

    fn left_out(&self) -> bool {
        let bit = match self.meant {
            Some(Meant::Relation) => 1,
            Some(Meant::Distance) => 2,
            Some(Meant::Knn) => 4,
            None => return false,
        };
        self.settings.kinds & bit == 0
    }

    fn lacks_arguments(&self) -> bool {
        let needed = match self.meant {
            Some(Meant::Relation | Meant::Knn) => 2,
            Some(Meant::Distance) => 3,
            None => 0,
        };
        self.arguments.len() < needed
    }

    /// Whether the geometry at this place has columns of such sides.
    fn geometry(&self, place: usize, such: fn(&[Side]) -> bool) -> bool {
        let argument = self.arguments.get(place);
        self.meant.is_some() && argument.is_some_and(|argument| such(&self.sides(argument)))
    }

    fn bound(&self, such: fn(&[Side]) -> bool) -> bool {
        self.meant == Some(Meant::Distance) && self.geometry(2, such)
    }

    /// Whether there is a k and it is such a number, or such as no number is.
    fn k(&self, such: impl Fn(Option<i128>) -> bool) -> bool {
        self.knn_literal(2)
            .is_some_and(|literal| such(whole_number(literal)))
    }

    /// Whether there is an argument in a flag's place that is none.
    fn lacks_flag(&self, place: usize) -> bool {
        let is_flag = |literal: &Expr| matches!(literal, Expr::Literal { kind, .. } if *kind == literal::BOOLEAN);
        self.knn_literal(place)
            .is_some_and(|literal| !is_flag(literal))
    }

    fn knn_literal(&self, place: usize) -> Option<&'a Expr> {
        let argument = self.arguments.get(place).copied();
        argument.filter(|_| self.meant == Some(Meant::Knn))
    }

    /// Of all columns of an argument.
    fn sides(&self, argument: &Expr) -> Vec<Side> {
        let mut sides = Vec::new();
        collect_columns(argument, &mut |index| {
            sides.push(self.records[usize::from(index)].side);
        });
        sides
    }
}

// ---- names

/// Compared byte for byte.
fn meant_by(name: &[u8]) -> Option<Meant> {
    match name {
        b"st_knn" => Some(Meant::Knn),
        b"st_dwithin" => Some(Meant::Distance),
        _ => relation_type(name).map(|_| Meant::Relation),
    }
}

/// The arguments of a comparison's `st_distance` on the side that is looked at, and the bound.
fn compared_distance(expr: &Expr) -> Option<(&[Expr], &Expr)> {
    match expr.compared()? {
        (Expr::Function { name, args }, bound) if name == b"st_distance" => Some((args, bound)),
        _ => None,
    }
}

/// Letter case aside.
fn is_distance_call(expr: &Expr) -> bool {
    matches!(expr, Expr::Function { name, .. } if name.eq_ignore_ascii_case(b"st_distance"))
}

/// Whether it would be meant for a line with the name that counts in small letters.
fn meant_in_small(expr: &Expr) -> bool {
    match expr {
        Expr::Function { name, .. } => meant_by(&name.to_ascii_lowercase()).is_some(),
        _ => expr
            .compared()
            .is_some_and(|(looked_at, _)| is_distance_call(looked_at)),
    }
}

/// `st_distance` on the side of a comparison that is not looked at.
fn distance_unread(expr: &Expr) -> bool {
    expr.compared()
        .is_some_and(|(_, bound)| is_distance_call(bound))
}

/// `st_distance` on either side of an operator that is none of <, <=, > and >=.
fn distance_uncompared(expr: &Expr) -> bool {
    match expr {
        Expr::Binary { left, right, .. } if expr.compared().is_none() => {
            is_distance_call(left) || is_distance_call(right)
        }
        _ => false,
    }
}

// ---- sides and numbers

fn no_columns(sides: &[Side]) -> bool {
    sides.is_empty()
}

fn of_both(sides: &[Side]) -> bool {
    sides.contains(&Side::Left) && sides.contains(&Side::Right)
}

fn with_mark(sides: &[Side]) -> bool {
    sides.contains(&Side::None)
}

fn all_left(sides: &[Side]) -> bool {
    !sides.is_empty() && sides.iter().all(|side| *side == Side::Left)
}

fn all_right(sides: &[Side]) -> bool {
    !sides.is_empty() && sides.iter().all(|side| *side == Side::Right)
}

/// Of a literal of the four types that have one, with its sign.
fn whole_number(expr: &Expr) -> Option<i128> {
    let Expr::Literal { kind, bytes } = expr else {
        return None;
    };
    match *kind {
        literal::INT32 | literal::INT64 => Some(i64::from_be_bytes(*bytes).into()),
        literal::UINT32 | literal::UINT64 => Some(u64::from_be_bytes(*bytes).into()),
        _ => None,
    }
}
