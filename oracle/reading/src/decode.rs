//! From bytes to values, with the refusals 1 to 8 in document 01's order.

use std::ops::RangeInclusive;

use crate::frame::{
    DISTANCE, Expr, Extraction, Frame, KNN, LOGICAL, MAX_BYTES, MAX_CHILDREN, MAX_DEPTH, MAX_NODES,
    MAX_RECORDS, PHYSICAL, Plan, Predicate, RELATION, Record, Side, literal, operator,
};
use crate::physical;
use crate::refusal::Refusal;

/// Which column nodes an expression may have.
#[derive(Clone, Copy)]
enum Columns {
    /// Kind `00`, with an index below this count.
    Below(usize),
    /// Kind `00`, with no bound but the field's width.
    Unbounded,
    /// Kind `05`.
    Logical,
}

/// A physical frame, under 1 to 8.
pub fn physical(bytes: &[u8]) -> Result<Frame, Refusal> {
    let mut reader = Reader::start(bytes, PHYSICAL)?;
    let records = reader.records()?;
    let expr = reader.node(Columns::Below(records.len()), 1)?;
    reader.end()?;
    if !physical::arity_holds(&expr) {
        return Err(Refusal::Arity);
    }
    Ok(Frame { records, expr })
}

/// A physical frame under 1 to 5 and 7 alone, to ask what others do where 01 says 6 or 8.
pub fn physical_shape(bytes: &[u8]) -> Result<Frame, Refusal> {
    let mut reader = Reader::start(bytes, PHYSICAL)?;
    let records = reader.records()?;
    let expr = reader.node(Columns::Unbounded, 1)?;
    reader.end()?;
    Ok(Frame { records, expr })
}

/// A logical frame, under 1 to 5 and 7.
pub fn logical(bytes: &[u8]) -> Result<Expr, Refusal> {
    let mut reader = Reader::start(bytes, LOGICAL)?;
    let expr = reader.node(Columns::Logical, 1)?;
    reader.end()?;
    Ok(expr)
}

/// A held plan that is not empty. Every fault of it is refusal 10.
pub fn plan(bytes: &[u8]) -> Result<Plan, Refusal> {
    let held = match bytes.first() {
        Some(&PHYSICAL) => physical(bytes).map(Plan::Frame),
        _ => extraction(bytes).map(Plan::Extraction),
    };
    held.map_err(|_| Refusal::BadPlan)
}

fn extraction(bytes: &[u8]) -> Result<Extraction, Refusal> {
    if bytes.len() > MAX_BYTES {
        return Err(Refusal::FrameLength);
    }
    let mut reader = Reader::new(bytes);
    let first = reader.byte()?;
    let position = reader.two()?;
    let predicate = match first {
        RELATION => reader.relation()?,
        DISTANCE => reader.distance()?,
        KNN => reader.knn()?,
        _ => return Err(Refusal::FirstByte),
    };
    let remainder = reader.remainder()?;
    reader.end()?;
    Ok(Extraction {
        position,
        predicate,
        remainder,
    })
}

struct Reader<'a> {
    bytes: &'a [u8],
    at: usize,
    nodes: usize,
}

impl<'a> Reader<'a> {
    fn new(bytes: &'a [u8]) -> Self {
        Reader {
            bytes,
            at: 0,
            nodes: 0,
        }
    }

    /// Refusals 1 and 2.
    fn start(bytes: &'a [u8], first: u8) -> Result<Self, Refusal> {
        if bytes.is_empty() || bytes.len() > MAX_BYTES {
            return Err(Refusal::FrameLength);
        }
        if bytes[0] != first {
            return Err(Refusal::FirstByte);
        }
        let mut reader = Reader::new(bytes);
        reader.at = 1;
        Ok(reader)
    }

    fn end(&self) -> Result<(), Refusal> {
        if self.at < self.bytes.len() {
            return Err(Refusal::BytesAfter);
        }
        Ok(())
    }

    fn field<const N: usize>(&mut self) -> Result<[u8; N], Refusal> {
        let rest = &self.bytes[self.at..];
        let field = *rest.first_chunk::<N>().ok_or(Refusal::Ends)?;
        self.at += N;
        Ok(field)
    }

    fn byte(&mut self) -> Result<u8, Refusal> {
        self.field::<1>().map(|[byte]| byte)
    }

    fn byte_in(&mut self, range: RangeInclusive<u8>) -> Result<u8, Refusal> {
        let byte = self.byte()?;
        if !range.contains(&byte) {
            return Err(Refusal::Range);
        }
        Ok(byte)
    }

    fn bool(&mut self) -> Result<bool, Refusal> {
        self.byte_in(0..=1).map(|byte| byte == 1)
    }

    fn two(&mut self) -> Result<u16, Refusal> {
        self.field().map(u16::from_be_bytes)
    }

    fn four(&mut self) -> Result<u32, Refusal> {
        self.field().map(u32::from_be_bytes)
    }

    fn side(&mut self) -> Result<Side, Refusal> {
        Side::from_byte(self.byte()?).ok_or(Refusal::Range)
    }

    fn records(&mut self) -> Result<Vec<Record>, Refusal> {
        let count = usize::from(self.two()?);
        if count > MAX_RECORDS {
            return Err(Refusal::Range);
        }
        (0..count).map(|_| self.record()).collect()
    }

    fn record(&mut self) -> Result<Record, Refusal> {
        Ok(Record {
            side: self.side()?,
            index: self.two()?,
            tag: self.two()?,
        })
    }

    fn node(&mut self, columns: Columns, depth: usize) -> Result<Expr, Refusal> {
        let kind = self.byte()?;
        let allowed = match kind {
            0 => !matches!(columns, Columns::Logical),
            1..=4 => true,
            5 => matches!(columns, Columns::Logical),
            _ => false,
        };
        if !allowed {
            return Err(Refusal::Range);
        }
        self.nodes += 1;
        if self.nodes > MAX_NODES || depth > MAX_DEPTH {
            return Err(Refusal::Limit);
        }
        match kind {
            0 => self.column(columns),
            1 => self.literal(),
            2 => self.binary(columns, depth),
            3 => self.function(columns, depth),
            4 => self.other(columns, depth),
            _ => self.logical_column(),
        }
    }

    fn column(&mut self, columns: Columns) -> Result<Expr, Refusal> {
        let index = self.two()?;
        let tag = self.two()?;
        if let Columns::Below(count) = columns
            && usize::from(index) >= count
        {
            return Err(Refusal::ColumnIndex);
        }
        Ok(Expr::Column { index, tag })
    }

    fn literal(&mut self) -> Result<Expr, Refusal> {
        let kind = self.byte_in(literal::NULL..=literal::OTHER)?;
        let bytes = self.field::<8>()?;
        let value = u64::from_be_bytes(bytes);
        let good = match kind {
            literal::BOOLEAN => value <= 1,
            literal::INT32 => i32::try_from(value as i64).is_ok(),
            literal::UINT32 => u32::try_from(value).is_ok(),
            _ => true,
        };
        if !good {
            return Err(Refusal::Range);
        }
        Ok(Expr::Literal { kind, bytes })
    }

    fn binary(&mut self, columns: Columns, depth: usize) -> Result<Expr, Refusal> {
        let op = self.byte_in(operator::AND..=operator::LAST)?;
        let left = self.node(columns, depth + 1)?;
        let right = self.node(columns, depth + 1)?;
        Ok(Expr::binary(op, left, right))
    }

    fn function(&mut self, columns: Columns, depth: usize) -> Result<Expr, Refusal> {
        let length = self.byte_in(1..=32)?;
        let name = (0..length)
            .map(|_| self.byte_in(33..=126))
            .collect::<Result<_, _>>()?;
        let args = self.children(columns, depth)?;
        Ok(Expr::Function { name, args })
    }

    fn other(&mut self, columns: Columns, depth: usize) -> Result<Expr, Refusal> {
        let tag = self.two()?;
        let children = self.children(columns, depth)?;
        Ok(Expr::Other { tag, children })
    }

    /// A count, then that many nodes.
    fn children(&mut self, columns: Columns, depth: usize) -> Result<Vec<Expr>, Refusal> {
        let count = self.byte_in(0..=MAX_CHILDREN as u8)?;
        (0..count).map(|_| self.node(columns, depth + 1)).collect()
    }

    fn logical_column(&mut self) -> Result<Expr, Refusal> {
        let bits = self.byte_in(0..=3)?;
        let tag = self.two()?;
        Ok(Expr::LogicalColumn { bits, tag })
    }

    fn argument(&mut self) -> Result<Expr, Refusal> {
        self.node(Columns::Unbounded, 1)
    }

    fn relation(&mut self) -> Result<Predicate, Refusal> {
        Ok(Predicate::Relation {
            relation: self.byte_in(0..=8)?,
            left: self.argument()?,
            right: self.argument()?,
        })
    }

    fn distance(&mut self) -> Result<Predicate, Refusal> {
        Ok(Predicate::Distance {
            form: self.byte_in(0..=4)?,
            side: self.side()?,
            left: self.argument()?,
            right: self.argument()?,
            distance: self.argument()?,
        })
    }

    /// Request 5 of document 02: an extraction with k 0 is not good.
    fn k(&mut self) -> Result<u32, Refusal> {
        match self.four()? {
            0 => Err(Refusal::Range),
            k => Ok(k),
        }
    }

    fn knn(&mut self) -> Result<Predicate, Refusal> {
        Ok(Predicate::Knn {
            k: self.k()?,
            spheroid: self.bool()?,
            probe: match self.bool()? {
                false => Side::Left,
                true => Side::Right,
            },
            ties: match self.byte_in(0..=2)? {
                2 => None,
                flag => Some(flag == 1),
            },
            left: self.argument()?,
            right: self.argument()?,
        })
    }

    /// `00`, or a physical frame whose nodes count together with the predicate's.
    fn remainder(&mut self) -> Result<Option<Frame>, Refusal> {
        match self.byte()? {
            0 => return Ok(None),
            PHYSICAL => (),
            _ => return Err(Refusal::Range),
        }
        let records = self.records()?;
        let expr = self.node(Columns::Below(records.len()), 1)?;
        if !physical::arity_holds(&expr) {
            return Err(Refusal::Arity);
        }
        Ok(Some(Frame { records, expr }))
    }
}
