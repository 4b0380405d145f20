//! What the bytes of document 01 say, as values.

/// The longest frame or extraction, in bytes.
pub const MAX_BYTES: usize = 16_384;
pub const MAX_NODES: usize = 1_024;
pub const MAX_DEPTH: usize = 64;
pub const MAX_RECORDS: usize = 256;
/// Arguments of a function, and children of an "other" node.
pub const MAX_CHILDREN: usize = 16;

pub const PHYSICAL: u8 = 0x01;
pub const LOGICAL: u8 = 0x02;
pub const RELATION: u8 = 0x11;
pub const DISTANCE: u8 = 0x12;
pub const KNN: u8 = 0x13;

/// Binary operators with a meaning of their own; 5 to 63 are any others.
pub mod operator {
    pub const AND: u8 = 0;
    pub const LT: u8 = 1;
    pub const LT_EQ: u8 = 2;
    pub const GT: u8 = 3;
    pub const GT_EQ: u8 = 4;
    pub const LAST: u8 = 63;
}

/// Literal types.
pub mod literal {
    pub const NULL: u8 = 0;
    pub const BOOLEAN: u8 = 1;
    pub const INT32: u8 = 2;
    pub const INT64: u8 = 3;
    pub const UINT32: u8 = 4;
    pub const UINT64: u8 = 5;
    pub const OTHER: u8 = 6;
}

#[derive(Clone, Copy, Debug, PartialEq, Eq)]
pub enum Side {
    Left,
    Right,
    None,
}

impl Side {
    pub fn from_byte(byte: u8) -> Option<Self> {
        match byte {
            0 => Some(Side::Left),
            1 => Some(Side::Right),
            2 => Some(Side::None),
            _ => None,
        }
    }

    pub fn byte(self) -> u8 {
        match self {
            Side::Left => 0,
            Side::Right => 1,
            Side::None => 2,
        }
    }

    pub fn negate(self) -> Self {
        match self {
            Side::Left => Side::Right,
            Side::Right => Side::Left,
            Side::None => Side::None,
        }
    }
}

/// One line of a frame's column table.
#[derive(Clone, Copy, Debug, PartialEq, Eq)]
pub struct Record {
    pub side: Side,
    pub index: u16,
    pub tag: u16,
}

#[derive(Clone, Debug, PartialEq, Eq)]
pub enum Expr {
    Column {
        index: u16,
        tag: u16,
    },
    Literal {
        kind: u8,
        bytes: [u8; 8],
    },
    Binary {
        op: u8,
        left: Box<Expr>,
        right: Box<Expr>,
    },
    Function {
        name: Vec<u8>,
        args: Vec<Expr>,
    },
    Other {
        tag: u16,
        children: Vec<Expr>,
    },
    LogicalColumn {
        bits: u8,
        tag: u16,
    },
}

impl Expr {
    pub fn binary(op: u8, left: Expr, right: Expr) -> Self {
        Expr::Binary {
            op,
            left: Box::new(left),
            right: Box::new(right),
        }
    }

    /// The children, in the order in which they are written.
    pub fn children(&self) -> Vec<&Expr> {
        match self {
            Expr::Binary { left, right, .. } => vec![left, right],
            Expr::Function { args, .. } => args.iter().collect(),
            Expr::Other { children, .. } => children.iter().collect(),
            _ => Vec::new(),
        }
    }

    /// The nodes reached from here through And nodes only, left to right.
    pub fn and_leaves(&self) -> Vec<&Expr> {
        match self {
            Expr::Binary { op, left, right } if *op == operator::AND => {
                let mut leaves = left.and_leaves();
                leaves.extend(right.and_leaves());
                leaves
            }
            leaf => vec![leaf],
        }
    }

    /// For a comparison (Lt, LtEq, Gt, GtEq): the side where `st_distance` is looked for, and the
    /// other one.
    pub fn compared(&self) -> Option<(&Expr, &Expr)> {
        let Expr::Binary { op, left, right } = self else {
            return None;
        };
        match *op {
            operator::LT | operator::LT_EQ => Some((left, right)),
            operator::GT | operator::GT_EQ => Some((right, left)),
            _ => None,
        }
    }
}

/// A physical frame.
#[derive(Clone, Debug, PartialEq, Eq)]
pub struct Frame {
    pub records: Vec<Record>,
    pub expr: Expr,
}

#[derive(Clone, Debug, PartialEq, Eq)]
pub enum Predicate {
    Relation {
        relation: u8,
        left: Expr,
        right: Expr,
    },
    Distance {
        form: u8,
        side: Side,
        left: Expr,
        right: Expr,
        distance: Expr,
    },
    Knn {
        k: u32,
        spheroid: bool,
        probe: Side,
        ties: Option<bool>,
        left: Expr,
        right: Expr,
    },
}

#[derive(Clone, Debug, PartialEq, Eq)]
pub struct Extraction {
    /// Request 4 of document 02: the leaf's position among the AND-leaves of the frame it was taken from.
    pub position: u16,
    pub predicate: Predicate,
    pub remainder: Option<Frame>,
}

/// What a plan of at least one byte holds.
#[derive(Clone, Debug, PartialEq, Eq)]
pub enum Plan {
    Frame(Frame),
    Extraction(Extraction),
}
