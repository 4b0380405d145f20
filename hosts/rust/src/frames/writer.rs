use super::{
    Columns, Expression, Frame, FrameError, LOGICAL, LogicalFrame, Nodes, PHYSICAL, Record,
};
use super::{Extraction, Predicate, side_number};
use crate::{MOST_ARGUMENTS, MOST_BYTES, MOST_NAME, MOST_RECORDS};

/// Bytes that are written from left to right.
#[derive(Default)]
pub(super) struct Writer {
    bytes: Vec<u8>,
    nodes: Nodes,
}

impl Writer {
    /// All that was written.
    pub fn end(self) -> Result<Vec<u8>, FrameError> {
        match self.bytes.len() {
            ..=MOST_BYTES => Ok(self.bytes),
            length => Err(FrameError::Length(length)),
        }
    }

    pub fn frame(&mut self, frame: &Frame) -> Result<(), FrameError> {
        let records = &frame.records;
        if records.len() > MOST_RECORDS {
            return Err(FrameError::Records(records.len()));
        }
        self.bytes.push(PHYSICAL);
        self.number(records.len() as u16);
        for Record { side, child, tag } in records {
            self.bytes.push(side_number(*side));
            self.number(*child);
            self.number(*tag);
        }
        self.expression(&frame.filter, Columns::Records(records.len()), 1)
    }

    pub fn logical_frame(&mut self, frame: &LogicalFrame) -> Result<(), FrameError> {
        self.bytes.push(LOGICAL);
        self.expression(&frame.filter, Columns::Logical, 1)
    }

    pub fn extraction(&mut self, extraction: &Extraction) -> Result<(), FrameError> {
        let predicate = &extraction.predicate;
        self.bytes.push(predicate.kind() as u8);
        self.number(extraction.position);
        self.fields(predicate)?;
        for argument in predicate.arguments() {
            self.expression(argument, Columns::Child, 1)?;
        }
        match &extraction.remainder {
            Some(frame) => self.frame(frame),
            None => {
                self.bytes.push(0);
                Ok(())
            }
        }
    }

    /// What stands between the position and the arguments.
    fn fields(&mut self, predicate: &Predicate) -> Result<(), FrameError> {
        match predicate {
            Predicate::Relation { relation, .. } => self.bytes.push(*relation as u8),
            Predicate::Distance { form, side, .. } => {
                self.bytes.extend([*form as u8, side_number(*side)]);
            }
            Predicate::Knn { k: 0, .. } => return Err(FrameError::OutOfRange("a k")),
            Predicate::Knn {
                k,
                spheroid,
                side,
                ties,
                ..
            } => {
                self.bytes.extend(k.to_be_bytes());
                let ties = ties.map_or(2, u8::from);
                let fields = [(*spheroid).into(), side_number(Some(*side)), ties];
                self.bytes.extend(fields);
            }
        }
        Ok(())
    }

    fn number(&mut self, number: u16) {
        self.bytes.extend(number.to_be_bytes());
    }

    fn expression(
        &mut self,
        expression: &Expression,
        columns: Columns,
        level: usize,
    ) -> Result<(), FrameError> {
        self.nodes.one_more(level)?;
        match expression {
            Expression::Column { index, tag } => self.column(*index, *tag, columns),
            Expression::LogicalColumn { left, right, tag } => {
                let bits = u8::from(*left) + 2 * u8::from(*right);
                self.logical_column(bits, *tag, columns)
            }
            Expression::Literal(literal) => {
                let (kind, bytes) = literal.bytes();
                self.bytes.extend([1, kind]);
                self.bytes.extend(bytes);
                Ok(())
            }
            Expression::Binary {
                operator,
                left,
                right,
            } => {
                self.bytes.extend([2, operator.number()]);
                self.expression(left, columns, level + 1)?;
                self.expression(right, columns, level + 1)
            }
            Expression::Function { name, arguments } => {
                self.name(name)?;
                self.children(arguments, columns, level)
            }
            Expression::Other { tag, children } => {
                self.bytes.push(4);
                self.number(*tag);
                self.children(children, columns, level)
            }
        }
    }

    fn column(&mut self, index: u16, tag: u16, columns: Columns) -> Result<(), FrameError> {
        if matches!(columns, Columns::Logical) {
            return Err(FrameError::OtherColumn);
        }
        if !columns.has(index) {
            return Err(FrameError::NoSuchColumn(index));
        }
        self.bytes.push(0);
        self.number(index);
        self.number(tag);
        Ok(())
    }

    fn logical_column(&mut self, bits: u8, tag: u16, columns: Columns) -> Result<(), FrameError> {
        if !matches!(columns, Columns::Logical) {
            return Err(FrameError::OtherColumn);
        }
        self.bytes.extend([5, bits]);
        self.number(tag);
        Ok(())
    }

    fn name(&mut self, name: &str) -> Result<(), FrameError> {
        let good = name.bytes().all(|byte| matches!(byte, 33..=126));
        if !good || name.is_empty() || name.len() > MOST_NAME {
            return Err(FrameError::Name(name.to_owned()));
        }
        self.bytes.extend([3, name.len() as u8]);
        self.bytes.extend(name.bytes());
        Ok(())
    }

    fn children(
        &mut self,
        children: &[Expression],
        columns: Columns,
        level: usize,
    ) -> Result<(), FrameError> {
        if children.len() > MOST_ARGUMENTS {
            return Err(FrameError::Arguments(children.len()));
        }
        self.bytes.push(children.len() as u8);
        let mut children = children.iter();
        children.try_for_each(|child| self.expression(child, columns, level + 1))
    }
}
