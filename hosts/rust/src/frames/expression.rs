/// A node of a filter, with all that is below it.
#[derive(Clone, Debug, PartialEq, Eq)]
pub enum Expression {
    /// A column of a physical frame, with the index of its record, or one of a predicate, with its index in
    /// its child; and the host's name tag.
    Column {
        index: u16,
        tag: u16,
    },
    Literal(Literal),
    Binary {
        operator: Operator,
        left: Box<Expression>,
        right: Box<Expression>,
    },
    /// A scalar function, of which the planner knows some by name.
    Function {
        name: String,
        arguments: Vec<Expression>,
    },
    /// Any other node, with the host's tag.
    Other {
        tag: u16,
        children: Vec<Expression>,
    },
    /// A column of a logical frame: whether the left schema has it, and the right one.
    LogicalColumn {
        left: bool,
        right: bool,
        tag: u16,
    },
}

impl Expression {
    pub fn function(name: impl Into<String>, arguments: impl Into<Vec<Expression>>) -> Self {
        Expression::Function {
            name: name.into(),
            arguments: arguments.into(),
        }
    }

    pub fn other(tag: u16, children: impl Into<Vec<Expression>>) -> Self {
        Expression::Other {
            tag,
            children: children.into(),
        }
    }

    pub fn binary(operator: Operator, left: Expression, right: Expression) -> Self {
        Expression::Binary {
            operator,
            left: left.into(),
            right: right.into(),
        }
    }

    /// This expression and the other one, joined by And.
    pub fn and(self, right: Expression) -> Self {
        Expression::binary(Operator::AND, self, right)
    }
}

impl From<Literal> for Expression {
    fn from(literal: Literal) -> Self {
        Expression::Literal(literal)
    }
}

/// The operator of a binary node, 0 to 63.
#[derive(Clone, Copy, Debug, PartialEq, Eq, Hash)]
pub struct Operator(u8);

impl Operator {
    pub const AND: Operator = Operator(0);
    pub const LT: Operator = Operator(1);
    pub const LT_EQ: Operator = Operator(2);
    pub const GT: Operator = Operator(3);
    pub const GT_EQ: Operator = Operator(4);

    /// The operator of this number; those from 5 to 63 are the host's. `None` above.
    pub const fn from_number(number: u8) -> Option<Self> {
        if number > 63 {
            return None;
        }
        Some(Operator(number))
    }

    pub const fn number(self) -> u8 {
        self.0
    }
}

/// A literal, by its type.
#[derive(Clone, Copy, Debug, PartialEq, Eq, Hash)]
pub enum Literal {
    /// A null, whose eight bytes are the host's; [`Literal::NULL`] has zeros.
    Null([u8; 8]),
    Boolean(bool),
    Int32(i32),
    Int64(i64),
    UInt32(u32),
    UInt64(u64),
    /// Of any other type: eight bytes of the host's.
    Other([u8; 8]),
}

impl Literal {
    pub const NULL: Literal = Literal::Null([0; 8]);

    /// The byte of the type, and the eight bytes after it.
    pub(super) fn bytes(self) -> (u8, [u8; 8]) {
        match self {
            Literal::Null(bytes) => (0, bytes),
            Literal::Boolean(value) => (1, u64::from(value).to_be_bytes()),
            Literal::Int32(value) => (2, i64::from(value).to_be_bytes()),
            Literal::Int64(value) => (3, value.to_be_bytes()),
            Literal::UInt32(value) => (4, u64::from(value).to_be_bytes()),
            Literal::UInt64(value) => (5, value.to_be_bytes()),
            Literal::Other(bytes) => (6, bytes),
        }
    }

    /// The literal of a type from 0 to 6 and of eight bytes, if they are in its range.
    pub(super) fn of(kind: u8, bytes: [u8; 8]) -> Option<Self> {
        let (signed, unsigned) = (i64::from_be_bytes(bytes), u64::from_be_bytes(bytes));
        match kind {
            0 => Some(Literal::Null(bytes)),
            1 => [false, true]
                .get(usize::try_from(unsigned).ok()?)
                .map(|value| Literal::Boolean(*value)),
            2 => i32::try_from(signed).ok().map(Literal::Int32),
            3 => Some(Literal::Int64(signed)),
            4 => u32::try_from(unsigned).ok().map(Literal::UInt32),
            5 => Some(Literal::UInt64(unsigned)),
            _ => Some(Literal::Other(bytes)),
        }
    }
}
