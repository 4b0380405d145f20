//! Reads a frame in one pass, with document 01's limits, straight into a tree of any kind.

use reading::frame::{MAX_BYTES, MAX_CHILDREN, MAX_DEPTH, MAX_NODES, literal, operator};

/// A kind of tree to read into.
pub trait Tree {
    type Node;
    /// A node of a kind that is only this tree's: a column.
    fn column(&mut self, kind: u8, reader: &mut Reader<'_>) -> Option<Self::Node>;
    fn literal(&mut self, kind: u8, bytes: [u8; 8]) -> Self::Node;
    fn binary(&mut self, op: u8, left: Self::Node, right: Self::Node) -> Self::Node;
    fn function(&mut self, name: &str, args: Vec<Self::Node>) -> Option<Self::Node>;
    fn other(&mut self, tag: u16, children: Vec<Self::Node>) -> Self::Node;
    /// Called where an AND-leaf begins: the operator of a binary, 0 for any other.
    fn leaf(&mut self, operator: u8);
}

pub struct Reader<'a> {
    bytes: &'a [u8],
    at: usize,
    nodes: usize,
}

impl<'a> Reader<'a> {
    pub fn new(bytes: &'a [u8]) -> Option<Self> {
        let reader = Reader {
            bytes,
            at: 0,
            nodes: 0,
        };
        (bytes.len() <= MAX_BYTES).then_some(reader)
    }

    pub fn end(&self) -> Option<()> {
        (self.at == self.bytes.len()).then_some(())
    }

    fn field<const N: usize>(&mut self) -> Option<[u8; N]> {
        let field = *self.bytes[self.at..].first_chunk::<N>()?;
        self.at += N;
        Some(field)
    }

    pub fn byte(&mut self) -> Option<u8> {
        self.field().map(|[byte]| byte)
    }

    pub fn byte_up_to(&mut self, most: u8) -> Option<u8> {
        self.byte().filter(|byte| *byte <= most)
    }

    pub fn two(&mut self) -> Option<u16> {
        self.field().map(u16::from_be_bytes)
    }

    pub fn four(&mut self) -> Option<u32> {
        self.field().map(u32::from_be_bytes)
    }

    /// An expression, the AND-leaves of which the tree is told.
    pub fn expr<T: Tree>(&mut self, tree: &mut T) -> Option<T::Node> {
        self.node(tree, 1, true)
    }

    fn node<T: Tree>(&mut self, tree: &mut T, depth: usize, top: bool) -> Option<T::Node> {
        let kind = self.byte()?;
        self.nodes += 1;
        if self.nodes > MAX_NODES || depth > MAX_DEPTH {
            return None;
        }
        if kind == 2 {
            return self.binary(tree, depth, top);
        }
        if top {
            tree.leaf(0);
        }
        match kind {
            1 => self.literal(tree),
            3 => {
                let name = self.name()?;
                let args = self.children(tree, depth)?;
                tree.function(name, args)
            }
            4 => {
                let tag = self.two()?;
                let children = self.children(tree, depth)?;
                Some(tree.other(tag, children))
            }
            _ => tree.column(kind, self),
        }
    }

    fn binary<T: Tree>(&mut self, tree: &mut T, depth: usize, top: bool) -> Option<T::Node> {
        let op = self.byte_up_to(operator::LAST)?;
        let below_and = top && op == operator::AND;
        if top && !below_and {
            tree.leaf(op);
        }
        let left = self.node(tree, depth + 1, below_and)?;
        let right = self.node(tree, depth + 1, below_and)?;
        Some(tree.binary(op, left, right))
    }

    fn literal<T: Tree>(&mut self, tree: &mut T) -> Option<T::Node> {
        let kind = self.byte_up_to(literal::OTHER)?;
        let bytes = self.field::<8>()?;
        let value = u64::from_be_bytes(bytes);
        let good = match kind {
            literal::BOOLEAN => value <= 1,
            literal::INT32 => i32::try_from(value as i64).is_ok(),
            literal::UINT32 => u32::try_from(value).is_ok(),
            _ => true,
        };
        good.then(|| tree.literal(kind, bytes))
    }

    fn name(&mut self) -> Option<&'a str> {
        let length = usize::from(self.byte_up_to(32)?);
        let bytes = self.bytes.get(self.at..self.at + length)?;
        self.at += length;
        let good = length > 0 && bytes.iter().all(u8::is_ascii_graphic);
        str::from_utf8(bytes).ok().filter(|_| good)
    }

    fn children<T: Tree>(&mut self, tree: &mut T, depth: usize) -> Option<Vec<T::Node>> {
        let count = self.byte_up_to(MAX_CHILDREN as u8)?;
        let mut children = Vec::with_capacity(usize::from(count));
        for _ in 0..count {
            children.push(self.node(tree, depth + 1, false)?);
        }
        Some(children)
    }
}
