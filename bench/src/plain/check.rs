//! Tests bytes for the refusals 1 to 8 in one walk, and measures them for what is to be written.

use reading::frame::{
    DISTANCE, KNN, MAX_BYTES, MAX_CHILDREN, MAX_DEPTH, MAX_NODES, MAX_RECORDS, PHYSICAL, RELATION,
    literal, operator,
};

/// A good frame's measures.
pub struct Checked {
    pub records: usize,
    /// Where the expression starts.
    pub start: usize,
    pub nodes: usize,
    /// Where no text is asked for.
    pub depth: usize,
    /// The text's length, where it is asked for.
    pub text: usize,
}

/// The frame's measures, or its refusal.
pub fn frame<const TEXT: bool>(frame: &[u8]) -> Result<Checked, u8> {
    if frame.is_empty() || frame.len() > MAX_BYTES {
        return Err(1);
    }
    if frame[0] != PHYSICAL {
        return Err(2);
    }
    let mut checker = Checker::<TEXT>::new(frame, 1);
    checker.records()?;
    let start = checker.at;
    checker.node(1, Role::Conjunct)?;
    checker.end()?;
    Ok(Checked {
        records: checker.columns,
        start,
        nodes: checker.nodes,
        depth: checker.depth,
        text: checker.text,
    })
}

/// The measures of a held frame; refusals 10, 11 and 12.
pub fn held(plan: &[u8], n: usize) -> Result<Checked, u8> {
    let plan = plan.get(..n).ok_or(10)?;
    match plan.first() {
        None => Err(11),
        Some(&PHYSICAL) => frame::<false>(plan).map_err(|_| 10),
        Some(_) if is_extraction(plan) => Err(12),
        Some(_) => Err(10),
    }
}

/// That an extraction is held; refusals 10, 11 and 18.
pub fn extracted(plan: &[u8], n: usize) -> Result<(), u8> {
    let refused = held(plan, n).map_or_else(|number| number, |_| 18);
    if refused == 12 { Ok(()) } else { Err(refused) }
}

fn is_extraction(plan: &[u8]) -> bool {
    plan.len() <= MAX_BYTES && Checker::<false>::new(plan, 0).extraction().is_ok()
}

/// Which arguments a function must have.
#[derive(Clone, Copy, PartialEq)]
enum Role {
    Conjunct,
    /// The side of a comparison where `st_distance` is looked for.
    Compared,
    Inner,
}

struct Checker<'a, const TEXT: bool> {
    frame: &'a [u8],
    at: usize,
    /// Column indexes are below this.
    columns: usize,
    nodes: usize,
    depth: usize,
    text: usize,
    /// Refusal 8, which comes after all others.
    lacks_arguments: bool,
}

impl<'a, const TEXT: bool> Checker<'a, TEXT> {
    fn new(frame: &'a [u8], at: usize) -> Self {
        Checker {
            frame,
            at,
            columns: usize::MAX,
            nodes: 0,
            depth: 0,
            text: 0,
            lacks_arguments: false,
        }
    }

    /// The last of the refusals.
    fn end(&self) -> Result<(), u8> {
        match () {
            () if self.at < self.frame.len() => Err(7),
            () if self.lacks_arguments => Err(8),
            () => Ok(()),
        }
    }

    /// So many characters of the text.
    fn says(&mut self, characters: usize) {
        if TEXT {
            self.text += characters;
        }
    }

    fn field<const N: usize>(&mut self) -> Result<[u8; N], u8> {
        let field = *self.frame[self.at..].first_chunk::<N>().ok_or(3)?;
        self.at += N;
        Ok(field)
    }

    fn byte_up_to(&mut self, most: u8) -> Result<u8, u8> {
        let [byte] = self.field()?;
        if byte <= most { Ok(byte) } else { Err(4) }
    }

    fn two(&mut self) -> Result<u16, u8> {
        self.field().map(u16::from_be_bytes)
    }

    fn records(&mut self) -> Result<(), u8> {
        self.columns = usize::from(self.two()?);
        if self.columns > MAX_RECORDS {
            return Err(4);
        }
        for _ in 0..self.columns {
            self.byte_up_to(2)?;
            self.two()?;
            self.two()?;
        }
        Ok(())
    }

    fn node(&mut self, depth: usize, role: Role) -> Result<(), u8> {
        let kind = self.byte_up_to(4)?;
        self.nodes += 1;
        if self.nodes > MAX_NODES || depth > MAX_DEPTH {
            return Err(5);
        }
        if !TEXT {
            self.depth = self.depth.max(depth);
        }
        match kind {
            0 => self.column(),
            1 => self.literal(),
            2 => self.binary(depth, role),
            3 => self.function(depth, role),
            _ => {
                let tag = self.two()?;
                let count = self.byte_up_to(MAX_CHILDREN as u8)?;
                self.says(1 + digits(tag));
                self.children(count, depth)
            }
        }
    }

    fn column(&mut self) -> Result<(), u8> {
        let (index, tag) = (self.two()?, self.two()?);
        self.says(2 + digits(index) + digits(tag));
        match usize::from(index) < self.columns {
            true => Ok(()),
            false => Err(6),
        }
    }

    fn literal(&mut self) -> Result<(), u8> {
        let kind = self.byte_up_to(literal::OTHER)?;
        let value = u64::from_be_bytes(self.field()?);
        self.says(19);
        let good = match kind {
            literal::BOOLEAN => value <= 1,
            literal::INT32 => i32::try_from(value as i64).is_ok(),
            literal::UINT32 => u32::try_from(value).is_ok(),
            _ => true,
        };
        if good { Ok(()) } else { Err(4) }
    }

    fn binary(&mut self, depth: usize, role: Role) -> Result<(), u8> {
        let op = self.byte_up_to(operator::LAST)?;
        let (left, right) = match op {
            _ if role != Role::Conjunct => (Role::Inner, Role::Inner),
            operator::AND => (Role::Conjunct, Role::Conjunct),
            operator::LT | operator::LT_EQ => (Role::Compared, Role::Inner),
            operator::GT | operator::GT_EQ => (Role::Inner, Role::Compared),
            _ => (Role::Inner, Role::Inner),
        };
        self.says(5 + digits(u16::from(op)));
        self.node(depth + 1, left)?;
        self.node(depth + 1, right)
    }

    fn function(&mut self, depth: usize, role: Role) -> Result<(), u8> {
        let size = usize::from(self.byte_up_to(32)?);
        if size == 0 {
            return Err(4);
        }
        let rest: &'a [u8] = &self.frame[self.at..];
        let name = &rest[..size.min(rest.len())];
        if !name.iter().all(u8::is_ascii_graphic) {
            return Err(4);
        }
        if name.len() < size {
            return Err(3);
        }
        self.at += size;
        let count = self.byte_up_to(MAX_CHILDREN as u8)?;
        self.says(2 + digits(size as u16) + size);
        self.lacks_arguments |= count < least_arguments(name, role);
        self.children(count, depth)
    }

    fn children(&mut self, count: u8, depth: usize) -> Result<(), u8> {
        self.says(2 + usize::from(count.saturating_sub(1)));
        (0..count).try_for_each(|_| self.node(depth + 1, Role::Inner))
    }
    /// A predicate and a remainder, whose nodes count together.
    fn extraction(&mut self) -> Result<(), u8> {
        let first = self.byte_up_to(KNN)?;
        // The position may be any, and k any but 0.
        self.two()?;
        if first == KNN && self.field()? == [0; 4] {
            return Err(4);
        }
        let (most, arguments): (&[u8], usize) = match first {
            RELATION => (&[8], 2),
            DISTANCE => (&[4, 2], 3),
            KNN => (&[1, 1, 2], 2),
            _ => return Err(2),
        };
        for most in most {
            self.byte_up_to(*most)?;
        }
        (0..arguments).try_for_each(|_| self.node(1, Role::Inner))?;
        if self.byte_up_to(PHYSICAL)? == PHYSICAL {
            self.records()?;
            self.node(1, Role::Conjunct)?;
        }
        self.end()
    }
}

fn least_arguments(name: &[u8], role: Role) -> u8 {
    match (role, name) {
        (Role::Compared, b"st_distance") => 2,
        (Role::Conjunct, b"st_dwithin") => 3,
        (
            Role::Conjunct,
            b"st_intersects" | b"st_contains" | b"st_within" | b"st_covers" | b"st_covered_by"
            | b"st_coveredby" | b"st_touches" | b"st_crosses" | b"st_overlaps" | b"st_equals"
            | b"rs_intersects" | b"rs_contains" | b"rs_within",
        ) => 2,
        _ => 0,
    }
}

pub fn digits(number: u16) -> usize {
    match number {
        0..10 => 1,
        10..100 => 2,
        100..1_000 => 3,
        1_000..10_000 => 4,
        _ => 5,
    }
}
