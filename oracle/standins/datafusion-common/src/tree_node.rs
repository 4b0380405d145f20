//! Walks over trees.
//! Stand-in for the crate's own: its names and signatures, with bodies of ours.

use std::sync::Arc;

use crate::Result;

/// How a walk goes on after a node.
#[derive(Clone, Copy, Debug, PartialEq, Eq)]
pub enum TreeNodeRecursion {
    Continue,
    /// Leaves out the node's children.
    Jump,
    Stop,
}

#[derive(Clone, Debug)]
pub struct Transformed<T> {
    pub data: T,
    pub transformed: bool,
    pub tnr: TreeNodeRecursion,
}

impl<T> Transformed<T> {
    pub fn new(data: T, transformed: bool, tnr: TreeNodeRecursion) -> Self {
        Transformed {
            data,
            transformed,
            tnr,
        }
    }

    pub fn yes(data: T) -> Self {
        Transformed::new(data, true, TreeNodeRecursion::Continue)
    }

    pub fn no(data: T) -> Self {
        Transformed::new(data, false, TreeNodeRecursion::Continue)
    }
}

pub trait TreeNode: Sized {
    fn apply_children<'n, F: FnMut(&'n Self) -> Result<TreeNodeRecursion>>(
        &'n self,
        f: F,
    ) -> Result<TreeNodeRecursion>;

    fn map_children<F: FnMut(Self) -> Result<Transformed<Self>>>(
        self,
        f: F,
    ) -> Result<Transformed<Self>>;

    /// Visits the nodes, each before its children.
    fn apply<'n, F: FnMut(&'n Self) -> Result<TreeNodeRecursion>>(
        &'n self,
        mut f: F,
    ) -> Result<TreeNodeRecursion> {
        apply_from(self, &mut f)
    }

    /// Replaces the nodes, each before the children of what it became.
    fn transform_down<F: FnMut(Self) -> Result<Transformed<Self>>>(
        self,
        mut f: F,
    ) -> Result<Transformed<Self>> {
        transform_down_from(self, &mut f)
    }
}

fn apply_from<'n, N: TreeNode, F: FnMut(&'n N) -> Result<TreeNodeRecursion>>(
    node: &'n N,
    f: &mut F,
) -> Result<TreeNodeRecursion> {
    match f(node)? {
        TreeNodeRecursion::Continue => node.apply_children(|child| apply_from(child, f)),
        TreeNodeRecursion::Jump => Ok(TreeNodeRecursion::Continue),
        TreeNodeRecursion::Stop => Ok(TreeNodeRecursion::Stop),
    }
}

fn transform_down_from<N: TreeNode, F: FnMut(N) -> Result<Transformed<N>>>(
    node: N,
    f: &mut F,
) -> Result<Transformed<N>> {
    let mut node = f(node)?;
    match node.tnr {
        TreeNodeRecursion::Continue => {
            let below = node
                .data
                .map_children(|child| transform_down_from(child, f))?;
            let transformed = node.transformed || below.transformed;
            Ok(Transformed::new(below.data, transformed, below.tnr))
        }
        TreeNodeRecursion::Jump => {
            node.tnr = TreeNodeRecursion::Continue;
            Ok(node)
        }
        TreeNodeRecursion::Stop => Ok(node),
    }
}

/// A node behind an `Arc` of a trait.
pub trait DynTreeNode {
    fn arc_children(&self) -> Vec<&Arc<Self>>;

    fn with_new_arc_children(
        &self,
        arc_self: Arc<Self>,
        new_children: Vec<Arc<Self>>,
    ) -> Result<Arc<Self>>;
}

impl<T: DynTreeNode + ?Sized> TreeNode for Arc<T> {
    fn apply_children<'n, F: FnMut(&'n Self) -> Result<TreeNodeRecursion>>(
        &'n self,
        mut f: F,
    ) -> Result<TreeNodeRecursion> {
        for child in self.arc_children() {
            if f(child)? == TreeNodeRecursion::Stop {
                return Ok(TreeNodeRecursion::Stop);
            }
        }
        Ok(TreeNodeRecursion::Continue)
    }

    /// A node none of whose children changed stays the same `Arc`.
    fn map_children<F: FnMut(Self) -> Result<Transformed<Self>>>(
        self,
        mut f: F,
    ) -> Result<Transformed<Self>> {
        let mut tnr = TreeNodeRecursion::Continue;
        let mut transformed = false;
        let mut children = Vec::new();
        for child in self.arc_children() {
            if tnr == TreeNodeRecursion::Stop {
                children.push(Arc::clone(child));
                continue;
            }
            let new = f(Arc::clone(child))?;
            tnr = new.tnr;
            transformed |= new.transformed;
            children.push(new.data);
        }
        if !transformed {
            return Ok(Transformed::new(self, false, tnr));
        }
        let arc_self = Arc::clone(&self);
        let node = self.with_new_arc_children(arc_self, children)?;
        Ok(Transformed::new(node, true, tnr))
    }
}
