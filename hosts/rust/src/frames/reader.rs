use super::{Columns, Expression, Frame, FrameError, Literal, Nodes, Operator, Record};
use super::{DistanceForm, Extraction, PHYSICAL, Predicate, RelationType};
use crate::{MOST_ARGUMENTS, MOST_BYTES, MOST_NAME, MOST_RECORDS, Side};

/// Bytes that are read from left to right, and tested in the planner's order: each field is first whole and
/// then in its range.
pub(super) struct Reader<'a> {
    rest: &'a [u8],
    nodes: Nodes,
}

impl<'a> Reader<'a> {
    pub fn of(bytes: &'a [u8]) -> Result<Self, FrameError> {
        match bytes.len() {
            1..=MOST_BYTES => Ok(Reader {
                rest: bytes,
                nodes: Nodes::default(),
            }),
            length => Err(FrameError::Length(length)),
        }
    }

    /// What was read, if nothing follows.
    pub fn end<T>(self, read: T) -> Result<T, FrameError> {
        match self.rest.len() {
            0 => Ok(read),
            after => Err(FrameError::BytesAfter(after)),
        }
    }

    /// The first byte of all, if it is one of these.
    pub fn first(&mut self, good: impl Fn(u8) -> bool) -> Result<u8, FrameError> {
        let first = self.byte()?;
        good(first)
            .then_some(first)
            .ok_or(FrameError::FirstByte(first))
    }

    /// A physical frame, after its first byte.
    pub fn frame(&mut self) -> Result<Frame, FrameError> {
        let count = usize::from(self.number()?);
        if count > MOST_RECORDS {
            return Err(FrameError::Records(count));
        }
        let records = (0..count)
            .map(|_| self.record())
            .collect::<Result<_, _>>()?;
        let filter = self.expression(Columns::Records(count))?;
        Ok(Frame { records, filter })
    }

    /// An expression from its root on.
    pub fn expression(&mut self, columns: Columns) -> Result<Expression, FrameError> {
        self.node(columns, 1)
    }

    /// A predicate, with nothing left.
    pub fn predicate(&mut self) -> Result<Extraction, FrameError> {
        let kind = self.first(|first| (0x11..=0x13).contains(&first))?;
        let position = self.number()?;
        let predicate = match kind {
            0x11 => self.relation()?,
            0x12 => self.distance()?,
            _ => self.knn()?,
        };
        Ok(Extraction {
            position,
            predicate,
            remainder: None,
        })
    }

    /// What is left after a predicate.
    pub fn remainder(&mut self) -> Result<Option<Frame>, FrameError> {
        match self.byte()? {
            0 => Ok(None),
            PHYSICAL => self.frame().map(Some),
            _ => Err(FrameError::OutOfRange("what is left")),
        }
    }

    fn relation(&mut self) -> Result<Predicate, FrameError> {
        let relation = self.one_of("a relation type", RelationType::from_number)?;
        Ok(Predicate::Relation {
            relation,
            left: self.expression(Columns::Child)?,
            right: self.expression(Columns::Child)?,
        })
    }

    fn distance(&mut self) -> Result<Predicate, FrameError> {
        let form = self.one_of("a distance form", DistanceForm::from_number)?;
        let side = self.one_of("a side", side)?;
        Ok(Predicate::Distance {
            form,
            side,
            left: self.expression(Columns::Child)?,
            right: self.expression(Columns::Child)?,
            bound: self.expression(Columns::Child)?,
        })
    }

    fn knn(&mut self) -> Result<Predicate, FrameError> {
        let k = u32::from_be_bytes(self.take()?);
        if k == 0 {
            return Err(FrameError::OutOfRange("a k"));
        }
        Ok(Predicate::Knn {
            k,
            spheroid: self.one_of("a flag", boolean)?,
            side: self.one_of("a side", child)?,
            ties: self.one_of("a flag", |number| given(number, boolean))?,
            query: self.expression(Columns::Child)?,
            object: self.expression(Columns::Child)?,
        })
    }

    fn record(&mut self) -> Result<Record, FrameError> {
        Ok(Record {
            side: self.one_of("a side", side)?,
            child: self.number()?,
            tag: self.number()?,
        })
    }

    fn node(&mut self, columns: Columns, level: usize) -> Result<Expression, FrameError> {
        let kind = self.byte()?;
        let allowed = match columns {
            Columns::Logical => 1..=5,
            _ => 0..=4,
        };
        if !allowed.contains(&kind) {
            return Err(match kind {
                0 | 5 => FrameError::OtherColumn,
                _ => FrameError::OutOfRange("a node's kind"),
            });
        }
        self.nodes.one_more(level)?;
        match kind {
            0 => self.column(columns),
            1 => self.literal(),
            2 => Ok(Expression::Binary {
                operator: self.one_of("an operator", Operator::from_number)?,
                left: self.node(columns, level + 1)?.into(),
                right: self.node(columns, level + 1)?.into(),
            }),
            3 => Ok(Expression::Function {
                name: self.name()?,
                arguments: self.children(columns, level)?,
            }),
            4 => Ok(Expression::Other {
                tag: self.number()?,
                children: self.children(columns, level)?,
            }),
            _ => self.logical_column(),
        }
    }

    fn column(&mut self, columns: Columns) -> Result<Expression, FrameError> {
        let (index, tag) = (self.number()?, self.number()?);
        if !columns.has(index) {
            return Err(FrameError::NoSuchColumn(index));
        }
        Ok(Expression::Column { index, tag })
    }

    fn logical_column(&mut self) -> Result<Expression, FrameError> {
        let (left, right) = self.one_of("a column's bits", |bits| {
            (bits <= 3).then_some((bits % 2 == 1, bits >= 2))
        })?;
        let tag = self.number()?;
        Ok(Expression::LogicalColumn { left, right, tag })
    }

    fn literal(&mut self) -> Result<Expression, FrameError> {
        let kind = self.one_of("a literal's type", |kind| (kind <= 6).then_some(kind))?;
        let literal = Literal::of(kind, self.take()?);
        literal
            .map(Expression::Literal)
            .ok_or(FrameError::OutOfRange("a literal"))
    }

    fn name(&mut self) -> Result<String, FrameError> {
        let good = |length: &u8| (1..=MOST_NAME).contains(&usize::from(*length));
        let length = self.one_of("a name's length", |length| Some(length).filter(good))?;
        let letter = |byte| matches!(byte, 33..=126).then_some(char::from(byte));
        (0..length).map(|_| self.one_of("a name", letter)).collect()
    }

    fn children(&mut self, columns: Columns, level: usize) -> Result<Vec<Expression>, FrameError> {
        let count = usize::from(self.byte()?);
        if count > MOST_ARGUMENTS {
            return Err(FrameError::Arguments(count));
        }
        (0..count).map(|_| self.node(columns, level + 1)).collect()
    }

    /// A field of one byte that has a value from the table.
    fn one_of<T>(
        &mut self,
        field: &'static str,
        table: impl Fn(u8) -> Option<T>,
    ) -> Result<T, FrameError> {
        table(self.byte()?).ok_or(FrameError::OutOfRange(field))
    }

    fn number(&mut self) -> Result<u16, FrameError> {
        self.take().map(u16::from_be_bytes)
    }

    fn byte(&mut self) -> Result<u8, FrameError> {
        self.take().map(u8::from_be_bytes)
    }

    fn take<const N: usize>(&mut self) -> Result<[u8; N], FrameError> {
        let (bytes, rest) = self.rest.split_first_chunk().ok_or(FrameError::Ends)?;
        self.rest = rest;
        Ok(*bytes)
    }
}

fn boolean(number: u8) -> Option<bool> {
    match number {
        0 => Some(false),
        1 => Some(true),
        _ => None,
    }
}

fn child(number: u8) -> Option<Side> {
    boolean(number).map(|right| if right { Side::Right } else { Side::Left })
}

fn side(number: u8) -> Option<Option<Side>> {
    given(number, child)
}

/// A value of the table, or 2 for none.
fn given<T>(number: u8, table: impl Fn(u8) -> Option<T>) -> Option<Option<T>> {
    match number {
        2 => Some(None),
        _ => table(number).map(Some),
    }
}
