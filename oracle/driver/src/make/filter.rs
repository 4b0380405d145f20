//! Parts of physical frames: column tables, arguments, leaves, conjunctions.

use reading::encode;
use reading::frame::{Expr, Frame, MAX_CHILDREN, Record, Side, operator};

use super::{literals, names};
use crate::rng::Rng;

pub struct Filter<'r> {
    pub rng: &'r mut Rng,
    pub records: Vec<Record>,
}

impl<'r> Filter<'r> {
    /// A table with one to three columns of each child.
    pub fn new(rng: &'r mut Rng) -> Self {
        let counts = [1 + rng.below(3), 1 + rng.below(3), 0];
        Filter::with_counts(rng, counts, 7)
    }

    /// A table of so many left, right and mark columns, their child indices below a bound.
    pub fn with_counts(rng: &'r mut Rng, counts: [usize; 3], indices: usize) -> Self {
        let mut records = Vec::new();
        for (side, count) in [Side::Left, Side::Right, Side::None]
            .into_iter()
            .zip(counts)
        {
            for _ in 0..count {
                records.push(Record {
                    side,
                    index: rng.below(indices) as u16,
                    tag: rng.draw() as u16,
                });
            }
        }
        rng.shuffle(&mut records);
        Filter { rng, records }
    }

    pub fn frame(self, expr: Expr) -> Vec<u8> {
        encode::physical(&Frame {
            records: self.records,
            expr,
        })
    }

    fn tag(&mut self) -> u16 {
        if self.rng.one_in(2) {
            self.rng.draw() as u16
        } else {
            self.rng.below(3) as u16
        }
    }

    pub fn side(&mut self) -> Side {
        self.rng.pick(&[Side::Left, Side::Right, Side::None])
    }

    /// A column of the side; a literal if the table has none.
    pub fn column(&mut self, side: Side) -> Expr {
        let rows = 0..self.records.len();
        let found: Vec<usize> = rows.filter(|i| self.records[*i].side == side).collect();
        if found.is_empty() {
            return literals::edge(self.rng);
        }
        Expr::Column {
            index: self.rng.pick(&found) as u16,
            tag: self.tag(),
        }
    }

    /// A node over these children.
    fn node(&mut self, mut children: Vec<Expr>) -> Expr {
        match self.rng.below(3) {
            0 if children.len() == 2 => {
                let right = children.pop().expect("there are two");
                let left = children.pop().expect("there are two");
                Expr::binary(self.rng.below(64) as u8, left, right)
            }
            0 | 1 => Expr::Other {
                tag: self.tag(),
                children,
            },
            _ => Expr::Function {
                name: names::any(self.rng).into(),
                args: children,
            },
        }
    }

    /// An argument with columns of this side only.
    pub fn of_side(&mut self, side: Side, depth: usize) -> Expr {
        if depth == 0 || self.rng.one_in(2) {
            return self.column(side);
        }
        let mut children = vec![self.of_side(side, depth - 1)];
        for _ in 0..self.rng.below(3) {
            let child = match self.rng.below(2) {
                0 => literals::edge(self.rng),
                _ => self.of_side(side, depth - 1),
            };
            children.push(child);
        }
        self.rng.shuffle(&mut children);
        self.node(children)
    }

    /// A call of up to 16 columns of any side.
    pub fn row_of_columns(&mut self) -> Expr {
        let mut args = Vec::new();
        for _ in 0..self.rng.below(MAX_CHILDREN + 1) {
            let side = self.side();
            args.push(self.column(side));
        }
        let name = b"f".to_vec();
        Expr::Function { name, args }
    }

    /// An argument without columns.
    pub fn columnless(&mut self) -> Expr {
        match self.rng.below(3) {
            0 => {
                let child = literals::edge(self.rng);
                self.node(vec![child])
            }
            1 => self.node(Vec::new()),
            _ => literals::edge(self.rng),
        }
    }

    /// An argument with columns of several sides.
    pub fn mixed(&mut self) -> Expr {
        let mut children = vec![self.of_side(Side::Left, 2), self.of_side(Side::Right, 2)];
        if self.rng.one_in(3) {
            children.push(self.of_side(Side::None, 1));
            children.swap_remove(self.rng.below(3));
        }
        self.rng.shuffle(&mut children);
        self.node(children)
    }

    pub fn argument(&mut self) -> Expr {
        match self.rng.below(6) {
            0 => self.columnless(),
            1 => self.mixed(),
            _ => {
                let side = self.side();
                self.of_side(side, 2)
            }
        }
    }

    /// Two geometries, in most cases one of each child.
    pub fn pair(&mut self) -> Vec<Expr> {
        let (left, right) = (self.of_side(Side::Left, 2), self.of_side(Side::Right, 2));
        match self.rng.below(10) {
            0..=3 => vec![left, right],
            4..=7 => vec![right, left],
            8 => vec![left, self.argument()],
            _ => vec![self.argument(), self.argument()],
        }
    }

    /// Up to `most` further arguments, mostly none.
    fn extras(&mut self, args: &mut Vec<Expr>, most: usize) {
        if self.rng.one_in(4) {
            for _ in 0..self.rng.below(most + 1) {
                args.push(self.argument());
            }
        }
    }

    pub fn relation(&mut self) -> Expr {
        let name = self.rng.pick(&names::RELATIONS).as_bytes().to_vec();
        let mut args = self.pair();
        self.extras(&mut args, 3);
        Expr::Function { name, args }
    }

    pub fn distance(&mut self) -> Expr {
        let bound = match self.rng.below(4) {
            0 => self.argument(),
            1 => self.columnless(),
            _ => {
                let side = self.side();
                self.of_side(side, 2)
            }
        };
        self.distance_to(bound)
    }

    /// A bound of mark columns, one or more; of one beside a left or a right column; without columns.
    pub fn bound_beside_marks(&mut self) -> Expr {
        let other = self.rng.pick(&[Side::Left, Side::Right, Side::None]);
        match self.rng.below(6) {
            0 => self.column(Side::None),
            1 => self.of_side(Side::None, 2),
            2 => self.columnless(),
            _ => {
                let mut children = vec![self.of_side(Side::None, 1), self.column(other)];
                self.rng.shuffle(&mut children);
                self.node(children)
            }
        }
    }

    /// Any of the five forms with this bound; at times `st_distance` stands where it isn't read.
    pub fn distance_to(&mut self, bound: Expr) -> Expr {
        let mut args = self.pair();
        let op = self.rng.below(5) as u8;
        if op == operator::AND {
            args.push(bound);
            self.extras(&mut args, 2);
            let name = b"st_dwithin".to_vec();
            return Expr::Function { name, args };
        }
        self.extras(&mut args, 2);
        let name = b"st_distance".to_vec();
        let call = Expr::Function { name, args };
        let reads_left = op == operator::LT || op == operator::LT_EQ;
        if reads_left != self.rng.one_in(8) {
            Expr::binary(op, call, bound)
        } else {
            Expr::binary(op, bound, call)
        }
    }

    /// `st_knn` with mostly two to five arguments.
    pub fn knn(&mut self) -> Expr {
        let count = match self.rng.below(4) {
            0 => self.rng.below(17),
            _ => 2 + self.rng.below(4),
        };
        let mut args = self.pair();
        args.push(literals::k(self.rng));
        args.push(literals::flag(self.rng));
        args.push(literals::flag(self.rng));
        if self.rng.one_in(12) {
            let at = 2 + self.rng.below(3);
            args[at] = self.argument();
        }
        args.truncate(count);
        while args.len() < count {
            args.push(self.argument());
        }
        let name = b"st_knn".to_vec();
        Expr::Function { name, args }
    }

    /// A leaf that in most cases matches nothing.
    pub fn plain_leaf(&mut self) -> Expr {
        match self.rng.below(5) {
            0 => {
                let (left, right) = (self.leaf(), self.argument());
                Expr::binary(5 + self.rng.below(59) as u8, left, right)
            }
            1 => {
                let (left, right) = (self.argument(), self.argument());
                Expr::binary(1 + self.rng.below(4) as u8, left, right)
            }
            2 => {
                let child = self.leaf();
                Expr::Other {
                    tag: self.tag(),
                    children: vec![child],
                }
            }
            _ => self.argument(),
        }
    }

    pub fn leaf(&mut self) -> Expr {
        match self.rng.below(5) {
            0 | 1 => self.relation(),
            2 => self.distance(),
            3 => self.knn(),
            _ => self.argument(),
        }
    }

    /// The leaf among up to `most` others.
    pub fn among_plain(&mut self, leaf: Expr, most: usize) -> Expr {
        let mut leaves = vec![leaf];
        for _ in 0..self.rng.below(most + 1) {
            leaves.push(self.plain_leaf());
        }
        self.rng.shuffle(&mut leaves);
        self.conjunction(leaves)
    }

    /// The And of the leaves, in a tree of some shape.
    pub fn conjunction(&mut self, leaves: Vec<Expr>) -> Expr {
        let shape = self.rng.below(4);
        join(self.rng, operator::AND, leaves, shape)
    }
}

/// Joins the leaves by an operator: a comb to the left, to the right, a low tree, or any.
pub fn join(rng: &mut Rng, op: u8, mut leaves: Vec<Expr>, shape: usize) -> Expr {
    let count = leaves.len();
    if count == 1 {
        return leaves.remove(0);
    }
    let on_left = match shape {
        0 => count - 1,
        1 => 1,
        2 => count / 2,
        _ => 1 + rng.below(count - 1),
    };
    let right = leaves.split_off(on_left);
    let left = join(rng, op, leaves, shape);
    Expr::binary(op, left, join(rng, op, right, shape))
}
