//! Graphs: links and nodes.

use crate::IntPoint;

/// A point, with the number of the node there.
#[repr(C)]
#[derive(Clone, Copy, Debug, Default, PartialEq, Eq, Hash)]
pub struct IdPoint {
    /// The number of the node, from 0.
    pub id: usize,
    /// Where the node is.
    pub point: IntPoint,
}

/// On which sides of a segment a shape is: a sum of 1 for the subject at the top, 2 at the bottom, 4 and 8 for the
/// clip.
pub type SegmentFill = u8;

/// A kept segment from `a` to `b`, with its fill.
#[repr(C)]
#[derive(Clone, Copy, Debug, Default, PartialEq, Eq, Hash)]
pub struct OverlayLink {
    /// Its lower end, in the order of points.
    pub a: IdPoint,
    /// Its upper end.
    pub b: IdPoint,
    /// On which of its sides the shapes are.
    pub fill: SegmentFill,
}

/// A node: the indexes of the links that meet there.
#[derive(Clone, Copy, Debug, PartialEq, Eq)]
pub enum OverlayNode<'a> {
    /// Just two.
    Bridge([usize; 2]),
    /// Any other number.
    Cross(&'a [usize]),
}

/// The kept segments as links, and their ends as nodes.
#[derive(Clone, Copy, Debug)]
pub struct OverlayGraph<'a> {
    pub(crate) links: &'a [OverlayLink],
    pub(crate) data: &'a [u64],
    /// Where the indexes of each node begin, and where the last ones end.
    pub(crate) starts: &'a [usize],
    pub(crate) node_links: &'a [usize],
}

impl<'a> OverlayGraph<'a> {
    /// The links, in the order of the segments.
    ///
    /// ```
    /// use fadrinzo::{square, FillRule, Overlay, OverlayRule, ShapeType};
    ///
    /// let mut segments = Vec::new();
    /// ShapeType::Subject.push_contour(&square(0, 4), &mut segments)?;
    /// let mut overlay = Overlay::new()?;
    /// let graph = overlay.build_graph(&segments, OverlayRule::Subject, FillRule::NonZero)?;
    /// assert!(graph.links().windows(2).all(|two| two[0].a.point <= two[1].a.point));
    /// # Ok::<(), fadrinzo::Error>(())
    /// ```
    pub fn links(&self) -> &'a [OverlayLink] {
        self.links
    }

    /// The number of each link, at its index: that of the given segment from which it comes. Empty where the segments were
    /// given without numbers.
    ///
    /// ```
    /// use fadrinzo::{square, DataSegment, FillRule, Overlay, OverlayRule, ShapeType, Solver};
    ///
    /// let mut sides = Vec::new();
    /// ShapeType::Subject.push_contour(&square(0, 4), &mut sides)?;
    /// let numbered: Vec<_> = sides.iter().map(|&segment| DataSegment { segment, data: 7 }).collect();
    /// let mut overlay = Overlay::new()?;
    /// let (rule, fill) = (OverlayRule::Subject, FillRule::NonZero);
    /// assert_eq!(overlay.build_graph_with_data(&numbered, rule, fill, Solver::AUTO)?.data(), [7; 4]);
    /// assert!(overlay.build_graph(&sides, rule, fill)?.data().is_empty());
    /// # Ok::<(), fadrinzo::Error>(())
    /// ```
    pub fn data(&self) -> &'a [u64] {
        self.data
    }

    /// How many nodes there are.
    ///
    /// ```
    /// use fadrinzo::{square, FillRule, Overlay, OverlayRule, ShapeType};
    ///
    /// let mut segments = Vec::new();
    /// ShapeType::Subject.push_contour(&square(0, 4), &mut segments)?;
    /// let mut overlay = Overlay::new()?;
    /// let graph = overlay.build_graph(&segments, OverlayRule::Subject, FillRule::NonZero)?;
    /// assert_eq!(graph.node_count(), 4);
    /// # Ok::<(), fadrinzo::Error>(())
    /// ```
    pub fn node_count(&self) -> usize {
        self.starts.len() - 1
    }

    /// The node with this number.
    ///
    /// ```
    /// use fadrinzo::{square, FillRule, Overlay, OverlayNode, OverlayRule, ShapeType};
    ///
    /// let mut segments = Vec::new();
    /// ShapeType::Subject.push_contour(&square(0, 4), &mut segments)?;
    /// let mut overlay = Overlay::new()?;
    /// let graph = overlay.build_graph(&segments, OverlayRule::Subject, FillRule::NonZero)?;
    /// assert_eq!(graph.node(0), Some(OverlayNode::Bridge([0, 1])));
    /// assert_eq!(graph.node(4), None);
    /// # Ok::<(), fadrinzo::Error>(())
    /// ```
    pub fn node(&self, id: usize) -> Option<OverlayNode<'a>> {
        let (&start, &end) = (self.starts.get(id)?, self.starts.get(id + 1)?);
        let indexes = &self.node_links[start..end];
        Some(match *indexes {
            [first, second] => OverlayNode::Bridge([first, second]),
            _ => OverlayNode::Cross(indexes),
        })
    }

    /// The nodes, in the order of their points.
    ///
    /// ```
    /// use fadrinzo::{square, FillRule, Overlay, OverlayNode, OverlayRule, ShapeType};
    ///
    /// let mut segments = Vec::new();
    /// ShapeType::Subject.push_contour(&square(0, 4), &mut segments)?;
    /// let mut overlay = Overlay::new()?;
    /// let graph = overlay.build_graph(&segments, OverlayRule::Subject, FillRule::NonZero)?;
    /// assert!(graph.nodes().all(|node| matches!(node, OverlayNode::Bridge(_))));
    /// # Ok::<(), fadrinzo::Error>(())
    /// ```
    pub fn nodes(&self) -> impl Iterator<Item = OverlayNode<'a>> + '_ {
        (0..self.node_count()).filter_map(|id| self.node(id))
    }
}
