//! What is drawn.

use crate::calls::{EdgeCounts, ShapeCounts};
use crate::error::{ended, room, Error, Outcome, ROOM_TOO_SMALL};

/// Shapes of contours, end to end in lists.
#[derive(Clone, Debug, PartialEq, Eq)]
pub struct Shapes<I> {
    /// The points of all contours, contour by contour, of each shape the outer one first.
    pub points: Vec<[I; 2]>,
    /// For each contour, how many points stand in it and before it.
    pub contour_ends: Vec<usize>,
    /// For each shape, how many contours stand in it and before it.
    pub shape_ends: Vec<usize>,
}

/// One shape: an outer contour and its holes.
#[derive(Clone, Copy, Debug)]
pub struct Shape<'a, I> {
    shapes: &'a Shapes<I>,
    first: usize,
    end: usize,
}

/// What stands at an index of lists that stand end to end: from the end before it to its own.
fn span(ends: &[usize], index: usize) -> std::ops::Range<usize> {
    let start = if index == 0 { 0 } else { ends[index - 1] };
    start..ends[index]
}

impl<I> Shapes<I> {
    /// The shapes, in order.
    pub fn iter(&self) -> impl Iterator<Item = Shape<'_, I>> {
        (0..self.shape_ends.len()).map(move |index| {
            let contours = span(&self.shape_ends, index);
            Shape { shapes: self, first: contours.start, end: contours.end }
        })
    }

    /// The contours of all shapes, in order: what a boolean takes as an operand.
    pub fn contours(&self) -> impl Iterator<Item = &[[I; 2]]> {
        (0..self.contour_ends.len()).map(move |index| &self.points[span(&self.contour_ends, index)])
    }
}

impl<'a, I> Shape<'a, I> {
    /// The contours: the outer one, which runs counterclockwise, and then the holes, which run clockwise.
    pub fn contours(self) -> impl Iterator<Item = &'a [[I; 2]]> {
        let shapes = self.shapes;
        (self.first..self.end).map(move |index| &shapes.points[span(&shapes.contour_ends, index)])
    }
}

/// Shapes, and how near to the drawn edges they are exact.
#[derive(Clone, Debug, PartialEq, Eq)]
pub struct NearShapes<I> {
    /// The shapes.
    pub shapes: Shapes<I>,
    /// The distance, in 64ths of a grid unit, rounded up: the shapes are exact at each point that is farther from each
    /// drawn edge, where distance is the greater one of both coordinates' differences. 0 where rounding moved nothing.
    pub nearness: u64,
}

/// Edges, path by path, end to end in a list.
#[derive(Clone, Debug, PartialEq, Eq)]
pub struct Edges<I> {
    /// The edges of all paths, each a start and an end; of a path sorted by their starts and then by their ends.
    pub edges: Vec<[[I; 2]; 2]>,
    /// For each path, how many edges stand in it and before it.
    pub path_ends: Vec<usize>,
}

impl<I> Edges<I> {
    /// The edges of each path, in order.
    pub fn iter(&self) -> impl Iterator<Item = &[[[I; 2]; 2]]> {
        (0..self.path_ends.len()).map(move |index| &self.edges[span(&self.path_ends, index)])
    }
}

/// Shapes that a call tells, in room for so many items of each list or, where that is too small, for as many as it
/// needs.
pub(crate) fn told_shapes<I: Copy + Default>(
    mut counts: ShapeCounts,
    call: impl Fn(&mut Shapes<I>, &mut ShapeCounts) -> Outcome,
) -> Result<Shapes<I>, Error> {
    loop {
        let mut shapes = Shapes {
            points: room(counts.points)?,
            contour_ends: room(counts.contours)?,
            shape_ends: room(counts.shapes)?,
        };
        let outcome = call(&mut shapes, &mut counts);
        if outcome != ROOM_TOO_SMALL {
            ended(outcome)?;
            shapes.points.truncate(counts.points);
            shapes.contour_ends.truncate(counts.contours);
            shapes.shape_ends.truncate(counts.shapes);
            return Ok(shapes);
        }
    }
}

/// Edges that a call tells, likewise.
pub(crate) fn told_edges<I: Copy + Default>(
    mut counts: EdgeCounts,
    call: impl Fn(&mut Edges<I>, &mut EdgeCounts) -> Outcome,
) -> Result<Edges<I>, Error> {
    loop {
        let mut edges = Edges { edges: room(counts.edges)?, path_ends: room(counts.paths)? };
        let outcome = call(&mut edges, &mut counts);
        if outcome != ROOM_TOO_SMALL {
            ended(outcome)?;
            edges.edges.truncate(counts.edges);
            edges.path_ends.truncate(counts.paths);
            return Ok(edges);
        }
    }
}
