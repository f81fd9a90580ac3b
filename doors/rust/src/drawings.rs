//! Drawings: outlines, strokes, and strokes of variable width.

use crate::answers::{told_edges, told_shapes, Edges, NearShapes, Shapes};
use crate::calls::{Coordinate, EdgeCounts, ShapeCounts};
use crate::error::{ended, Error};
use crate::style::{Arc, Options, OutlineStyle, StrokeStyle};
use std::cell::Cell;

/// Whether a drawing stays in range.
#[derive(Clone, Copy, Debug, PartialEq, Eq)]
pub struct Range {
    /// How far the style moves points at most, in each coordinate.
    pub padding: i64,
    /// Whether each point, moved by the padding, stays in the safe range: below 2^30 in size, or 2^14 in 16 bits.
    pub is_safe: bool,
}

/// Paths end to end.
pub(crate) struct Flat<T> {
    pub(crate) items: Vec<T>,
    pub(crate) ends: Vec<usize>,
}

impl<T: Copy> Flat<T> {
    pub(crate) fn of<P: AsRef<[T]>>(paths: &[P]) -> Result<Self, Error> {
        let count = paths.iter().map(|path| path.as_ref().len()).sum();
        let mut flat = Flat { items: Vec::new(), ends: Vec::new() };
        flat.items.try_reserve_exact(count).map_err(|_| Error::OutOfMemory)?;
        flat.ends.try_reserve_exact(paths.len()).map_err(|_| Error::OutOfMemory)?;
        for path in paths {
            flat.items.extend_from_slice(path.as_ref());
            flat.ends.push(flat.items.len());
        }
        Ok(flat)
    }

    /// Room that is mostly enough for shapes.
    fn shape_room(&self) -> ShapeCounts {
        let contours = self.ends.len() + 8;
        ShapeCounts { points: 4 * self.items.len() + 32, contours, shapes: contours }
    }

    /// Room that is mostly enough for edges.
    fn edge_room(&self) -> EdgeCounts {
        EdgeCounts { edges: 4 * self.items.len() + 32, paths: self.ends.len() }
    }
}

/// The range that a call tells.
fn told_range(call: impl Fn(&mut i64) -> u8) -> Result<Range, Error> {
    let mut padding = 0;
    match ended(call(&mut padding)) {
        Ok(()) => Ok(Range { padding, is_safe: true }),
        Err(Error::OutOfRange) => Ok(Range { padding, is_safe: false }),
        Err(error) => Err(error),
    }
}

// In each call below all lists are valid, those that are written overlap with nothing, and the library keeps none.

/// The shapes of the outline of contours.
///
/// ```
/// use i_overlay_mesh::{angle, outline, Join, Options, OutlineStyle};
///
/// let square = [[0, 0], [100, 0], [100, 100], [0, 100]];
/// let style = OutlineStyle { join: Join::Miter(angle(20.0)), ..OutlineStyle::new(10) };
/// let shapes = outline(&[square], &style, &Options::default())?;
/// let contour = shapes.iter().next().unwrap().contours().next().unwrap();
/// assert_eq!(contour, [[-10, -10], [110, -10], [110, 110], [-10, 110]]);
/// # Ok::<(), i_overlay_mesh::Error>(())
/// ```
pub fn outline<I: Coordinate, P: AsRef<[[I; 2]]>>(
    contours: &[P],
    style: &OutlineStyle,
    options: &Options,
) -> Result<Shapes<I>, Error> {
    let flat = Flat::of(contours)?;
    let (style, options) = (style.raw(), options.raw());
    told_shapes(flat.shape_room(), |to, counts| unsafe {
        (I::CALLS.outline)(
            flat.items.as_ptr(), flat.items.len(), flat.ends.as_ptr(), flat.ends.len(), &style, &options,
            to.points.as_mut_ptr(), to.points.len(), to.contour_ends.as_mut_ptr(), to.contour_ends.len(),
            to.shape_ends.as_mut_ptr(), to.shape_ends.len(), counts,
        )
    })
}

/// The shapes of the stroke of paths.
///
/// ```
/// use i_overlay_mesh::{stroke, Cap, Options, StrokeStyle};
///
/// let style = StrokeStyle { end_cap: Cap::Square, ..StrokeStyle::new(10) };
/// let shapes = stroke(&[[[0, 0], [100, 0]]], &style, &Options::default())?;
/// assert_eq!(shapes.points, [[0, -5], [105, -5], [105, 5], [0, 5]]);
/// # Ok::<(), i_overlay_mesh::Error>(())
/// ```
pub fn stroke<I: Coordinate, P: AsRef<[[I; 2]]>>(
    paths: &[P],
    style: &StrokeStyle<I>,
    options: &Options,
) -> Result<Shapes<I>, Error> {
    let flat = Flat::of(paths)?;
    let (start, end) = (style.start_cap.points(), style.end_cap.points());
    let (style, options) = (style.raw(), options.raw());
    told_shapes(flat.shape_room(), |to, counts| unsafe {
        (I::CALLS.stroke)(
            flat.items.as_ptr(), flat.items.len(), flat.ends.as_ptr(), flat.ends.len(), &style,
            start.as_ptr(), start.len(), end.as_ptr(), end.len(), &options,
            to.points.as_mut_ptr(), to.points.len(), to.contour_ends.as_mut_ptr(), to.contour_ends.len(),
            to.shape_ends.as_mut_ptr(), to.shape_ends.len(), counts,
        )
    })
}

/// The shapes of the stroke of paths of vertices `[x, y, width]`, with such arcs.
///
/// ```
/// use i_overlay_mesh::{variable_stroke, Arc, Options};
///
/// // A drop: narrow at its start, wide at its end.
/// let drop = [[[0_i32, 0, 10], [200, 0, 80]]];
/// let shapes = variable_stroke(&drop, &Arc::default(), &Options::default())?;
/// assert_eq!(shapes.iter().count(), 1);
/// assert!(shapes.points.iter().all(|point| point[1].abs() <= 40));
/// # Ok::<(), i_overlay_mesh::Error>(())
/// ```
pub fn variable_stroke<I: Coordinate, P: AsRef<[[I; 3]]>>(
    paths: &[P],
    arc: &Arc,
    options: &Options,
) -> Result<Shapes<I>, Error> {
    let flat = Flat::of(paths)?;
    let options = options.raw();
    told_shapes(flat.shape_room(), |to, counts| unsafe {
        (I::CALLS.variable_stroke)(
            flat.items.as_ptr(), flat.items.len(), flat.ends.as_ptr(), flat.ends.len(), arc, &options,
            to.points.as_mut_ptr(), to.points.len(), to.contour_ends.as_mut_ptr(), to.contour_ends.len(),
            to.shape_ends.as_mut_ptr(), to.shape_ends.len(), counts,
        )
    })
}

/// The shapes of the outline of contours, and how near they are exact. More splits than the limit, if it is not 0, are an
/// error.
///
/// ```
/// use i_overlay_mesh::{outline_near, Options, OutlineStyle};
///
/// let square = [[0, 0], [100, 0], [100, 100], [0, 100]];
/// let near = outline_near(&[square], &OutlineStyle::new(10), &Options::default(), 0)?;
/// // No edge crosses another one, so rounding moved nothing.
/// assert_eq!(near.nearness, 0);
/// assert_eq!(near.shapes.iter().count(), 1);
/// # Ok::<(), i_overlay_mesh::Error>(())
/// ```
pub fn outline_near<I: Coordinate, P: AsRef<[[I; 2]]>>(
    contours: &[P],
    style: &OutlineStyle,
    options: &Options,
    most_splits: u64,
) -> Result<NearShapes<I>, Error> {
    let flat = Flat::of(contours)?;
    let (style, options) = (style.raw(), options.raw());
    let nearness = Cell::new(0);
    let shapes = told_shapes(flat.shape_room(), |to, counts| unsafe {
        (I::CALLS.outline_near)(
            flat.items.as_ptr(), flat.items.len(), flat.ends.as_ptr(), flat.ends.len(), &style, &options, most_splits,
            to.points.as_mut_ptr(), to.points.len(), to.contour_ends.as_mut_ptr(), to.contour_ends.len(),
            to.shape_ends.as_mut_ptr(), to.shape_ends.len(), counts, nearness.as_ptr(),
        )
    })?;
    Ok(NearShapes { shapes, nearness: nearness.get() })
}

/// The shapes of the stroke of paths, and how near they are exact, within a limit on splits, if it is not 0.
///
/// ```
/// use i_overlay_mesh::{stroke_near, Error, Options, StrokeStyle};
///
/// let cross = [[[0, 0], [1000, 7]], [[500, -300], [503, 400]]];
/// let near = stroke_near(&cross, &StrokeStyle::new(20), &Options::default(), 0)?;
/// assert_eq!(near.shapes.iter().count(), 1);
/// // With a limit that is too low there is no answer.
/// let told = stroke_near(&cross, &StrokeStyle::new(20), &Options::default(), 1);
/// assert_eq!(told, Err(Error::TooManySplits));
/// # Ok::<(), i_overlay_mesh::Error>(())
/// ```
pub fn stroke_near<I: Coordinate, P: AsRef<[[I; 2]]>>(
    paths: &[P],
    style: &StrokeStyle<I>,
    options: &Options,
    most_splits: u64,
) -> Result<NearShapes<I>, Error> {
    let flat = Flat::of(paths)?;
    let (start, end) = (style.start_cap.points(), style.end_cap.points());
    let (style, options) = (style.raw(), options.raw());
    let nearness = Cell::new(0);
    let shapes = told_shapes(flat.shape_room(), |to, counts| unsafe {
        (I::CALLS.stroke_near)(
            flat.items.as_ptr(), flat.items.len(), flat.ends.as_ptr(), flat.ends.len(), &style,
            start.as_ptr(), start.len(), end.as_ptr(), end.len(), &options, most_splits,
            to.points.as_mut_ptr(), to.points.len(), to.contour_ends.as_mut_ptr(), to.contour_ends.len(),
            to.shape_ends.as_mut_ptr(), to.shape_ends.len(), counts, nearness.as_ptr(),
        )
    })?;
    Ok(NearShapes { shapes, nearness: nearness.get() })
}

/// The shapes of the stroke of paths of vertices `[x, y, width]`, and how near they are exact, within a limit on splits,
/// if it is not 0.
///
/// ```
/// use i_overlay_mesh::{variable_stroke, variable_stroke_near, Arc, Options};
///
/// let drop = [[[0, 0, 10], [200, 0, 80]]];
/// let near = variable_stroke_near(&drop, &Arc::default(), &Options::default(), 100_000)?;
/// assert_eq!(near.shapes, variable_stroke(&drop, &Arc::default(), &Options::default())?);
/// # Ok::<(), i_overlay_mesh::Error>(())
/// ```
pub fn variable_stroke_near<I: Coordinate, P: AsRef<[[I; 3]]>>(
    paths: &[P],
    arc: &Arc,
    options: &Options,
    most_splits: u64,
) -> Result<NearShapes<I>, Error> {
    let flat = Flat::of(paths)?;
    let options = options.raw();
    let nearness = Cell::new(0);
    let shapes = told_shapes(flat.shape_room(), |to, counts| unsafe {
        (I::CALLS.variable_stroke_near)(
            flat.items.as_ptr(), flat.items.len(), flat.ends.as_ptr(), flat.ends.len(), arc, &options, most_splits,
            to.points.as_mut_ptr(), to.points.len(), to.contour_ends.as_mut_ptr(), to.contour_ends.len(),
            to.shape_ends.as_mut_ptr(), to.shape_ends.len(), counts, nearness.as_ptr(),
        )
    })?;
    Ok(NearShapes { shapes, nearness: nearness.get() })
}

/// Shapes without their slivers: contours whose vertices all lie at most `width` grid units from the line from the first
/// one to the one farthest from it. Holes that are slivers go, and shapes all of whose contours are; all else stays as it
/// is. `Malformed`: the lists of the shapes have ends that are none.
///
/// ```
/// use i_overlay_mesh::{outline, without_slivers, Options, OutlineStyle};
///
/// // A ring a hundred units long and one unit thin, moved by nothing.
/// let thin = [[0, 0], [100, 0], [100, 1]];
/// let shapes = outline(&[thin], &OutlineStyle::new(0), &Options::default())?;
/// assert_eq!(shapes.iter().count(), 1);
/// assert_eq!(without_slivers(&shapes, 1)?.iter().count(), 0);
/// # Ok::<(), i_overlay_mesh::Error>(())
/// ```
pub fn without_slivers<I: Coordinate>(shapes: &Shapes<I>, width: u32) -> Result<Shapes<I>, Error> {
    let (points, contours) = (&shapes.points, &shapes.contour_ends);
    let ends = &shapes.shape_ends;
    let room = ShapeCounts { points: points.len(), contours: contours.len(), shapes: ends.len() };
    told_shapes(room, |to, counts| unsafe {
        (I::CALLS.without_slivers)(
            points.as_ptr(), points.len(), contours.as_ptr(), contours.len(), ends.as_ptr(), ends.len(), width,
            to.points.as_mut_ptr(), to.points.len(), to.contour_ends.as_mut_ptr(), to.contour_ends.len(),
            to.shape_ends.as_mut_ptr(), to.shape_ends.len(), counts,
        )
    })
}

/// The edges of the outline of each contour.
///
/// ```
/// use i_overlay_mesh::{outline_edges, OutlineStyle};
///
/// let square = [[0, 0], [100, 0], [100, 100], [0, 100]];
/// let edges = outline_edges(&[square], &OutlineStyle::new(10))?;
/// // Four sides, and a bevel at each corner.
/// assert_eq!(edges.iter().next().unwrap().len(), 8);
/// # Ok::<(), i_overlay_mesh::Error>(())
/// ```
pub fn outline_edges<I: Coordinate, P: AsRef<[[I; 2]]>>(
    contours: &[P],
    style: &OutlineStyle,
) -> Result<Edges<I>, Error> {
    let flat = Flat::of(contours)?;
    let style = style.raw();
    told_edges(flat.edge_room(), |to, counts| unsafe {
        (I::CALLS.outline_edges)(
            flat.items.as_ptr(), flat.items.len(), flat.ends.as_ptr(), flat.ends.len(), &style,
            to.edges.as_mut_ptr(), to.edges.len(), to.path_ends.as_mut_ptr(), to.path_ends.len(), counts,
        )
    })
}

/// The edges of the stroke of each path.
///
/// ```
/// use i_overlay_mesh::{stroke_edges, StrokeStyle};
///
/// let edges = stroke_edges(&[[[0, 0], [100, 0]]], &StrokeStyle::new(10))?;
/// assert_eq!(edges.iter().next().unwrap().len(), 4);
/// # Ok::<(), i_overlay_mesh::Error>(())
/// ```
pub fn stroke_edges<I: Coordinate, P: AsRef<[[I; 2]]>>(
    paths: &[P],
    style: &StrokeStyle<I>,
) -> Result<Edges<I>, Error> {
    let flat = Flat::of(paths)?;
    let (start, end) = (style.start_cap.points(), style.end_cap.points());
    let style = style.raw();
    told_edges(flat.edge_room(), |to, counts| unsafe {
        (I::CALLS.stroke_edges)(
            flat.items.as_ptr(), flat.items.len(), flat.ends.as_ptr(), flat.ends.len(), &style,
            start.as_ptr(), start.len(), end.as_ptr(), end.len(),
            to.edges.as_mut_ptr(), to.edges.len(), to.path_ends.as_mut_ptr(), to.path_ends.len(), counts,
        )
    })
}

/// The edges of the stroke of each path of vertices `[x, y, width]`, with such arcs.
///
/// ```
/// use i_overlay_mesh::{variable_stroke_edges, Arc};
///
/// let edges = variable_stroke_edges(&[[[0, 0, 10], [200, 0, 80]]], &Arc::default())?;
/// assert_eq!(edges.path_ends, [edges.edges.len()]);
/// # Ok::<(), i_overlay_mesh::Error>(())
/// ```
pub fn variable_stroke_edges<I: Coordinate, P: AsRef<[[I; 3]]>>(paths: &[P], arc: &Arc) -> Result<Edges<I>, Error> {
    let flat = Flat::of(paths)?;
    told_edges(flat.edge_room(), |to, counts| unsafe {
        (I::CALLS.variable_stroke_edges)(
            flat.items.as_ptr(), flat.items.len(), flat.ends.as_ptr(), flat.ends.len(), arc,
            to.edges.as_mut_ptr(), to.edges.len(), to.path_ends.as_mut_ptr(), to.path_ends.len(), counts,
        )
    })
}

/// Whether the outline of contours stays in range.
///
/// ```
/// use i_overlay_mesh::{validate_outline, OutlineStyle};
///
/// let far = [[2_000_000_000, 0], [2_000_000_100, 0], [2_000_000_000, 100]];
/// let range = validate_outline(&[far], &OutlineStyle::new(10))?;
/// assert_eq!((range.padding, range.is_safe), (10, false));
/// # Ok::<(), i_overlay_mesh::Error>(())
/// ```
pub fn validate_outline<I: Coordinate, P: AsRef<[[I; 2]]>>(
    contours: &[P],
    style: &OutlineStyle,
) -> Result<Range, Error> {
    let flat = Flat::of(contours)?;
    let style = style.raw();
    told_range(|padding| unsafe {
        (I::CALLS.validate_outline)(
            flat.items.as_ptr(), flat.items.len(), flat.ends.as_ptr(), flat.ends.len(), &style, padding,
        )
    })
}

/// Whether the stroke of paths stays in range.
///
/// ```
/// use i_overlay_mesh::{validate_stroke, StrokeStyle};
///
/// let range = validate_stroke(&[[[0, 0], [100, 0]]], &StrokeStyle::new(10))?;
/// assert!(range.is_safe && range.padding >= 5);
/// # Ok::<(), i_overlay_mesh::Error>(())
/// ```
pub fn validate_stroke<I: Coordinate, P: AsRef<[[I; 2]]>>(
    paths: &[P],
    style: &StrokeStyle<I>,
) -> Result<Range, Error> {
    let flat = Flat::of(paths)?;
    let (start, end) = (style.start_cap.points(), style.end_cap.points());
    let style = style.raw();
    told_range(|padding| unsafe {
        (I::CALLS.validate_stroke)(
            flat.items.as_ptr(), flat.items.len(), flat.ends.as_ptr(), flat.ends.len(), &style,
            start.as_ptr(), start.len(), end.as_ptr(), end.len(), padding,
        )
    })
}

/// Whether the stroke of paths of vertices `[x, y, width]` stays in range.
///
/// ```
/// use i_overlay_mesh::{validate_variable_stroke, Arc};
///
/// let range = validate_variable_stroke(&[[[0, 0, 10], [200, 0, 80]]], &Arc::default())?;
/// assert_eq!((range.padding, range.is_safe), (40, true));
/// # Ok::<(), i_overlay_mesh::Error>(())
/// ```
pub fn validate_variable_stroke<I: Coordinate, P: AsRef<[[I; 3]]>>(paths: &[P], arc: &Arc) -> Result<Range, Error> {
    let flat = Flat::of(paths)?;
    told_range(|padding| unsafe {
        (I::CALLS.validate_variable_stroke)(
            flat.items.as_ptr(), flat.items.len(), flat.ends.as_ptr(), flat.ends.len(), arc, padding,
        )
    })
}

/// How near to its paths a stroke holds every point for certain: the square of that distance, in grid units. The stroke
/// of a path holds each point whose squared distance from a section of it is at most that. Points beyond an end with a
/// butt cap, and on the line across it, are left out.
///
/// It is 0 where nothing is told, not even of points of the paths: of one side, of widths of at most 2 or above 2^29, or
/// 2^13 in 16 bits, where no path has a section, and where a join or cap leaves no room, as a bevel does where a path
/// turns back.
///
/// ```
/// use i_overlay_mesh::{inner_reach, Arc, Cap, Join, StrokeStyle};
///
/// let round = Arc::default();
/// let style = StrokeStyle {
///     join: Join::Round(round),
///     start_cap: Cap::Round(round),
///     end_cap: Cap::Round(round),
///     ..StrokeStyle::new(2000)
/// };
/// // Arcs lie inside their circles, so a little less than half of the width is certain.
/// let reach = inner_reach(&[[[0, 0], [5000, 0], [0, 4000]]], &style)?;
/// assert!(980 * 980 < reach && reach <= 1000 * 1000);
/// # Ok::<(), i_overlay_mesh::Error>(())
/// ```
pub fn inner_reach<I: Coordinate, P: AsRef<[[I; 2]]>>(paths: &[P], style: &StrokeStyle<I>) -> Result<u64, Error> {
    let flat = Flat::of(paths)?;
    let (start, end) = (style.start_cap.points(), style.end_cap.points());
    let style = style.raw();
    let mut reach = 0;
    ended(unsafe {
        (I::CALLS.inner_reach)(
            flat.items.as_ptr(), flat.items.len(), flat.ends.as_ptr(), flat.ends.len(), &style,
            start.as_ptr(), start.len(), end.as_ptr(), end.len(), &mut reach,
        )
    })?;
    Ok(reach)
}

impl<I: Coordinate> Shapes<I> {
    /// How near the edges come to paths: the square of the least distance, in grid units and rounded down. It is
    /// `u64::MAX` where there is no edge or no path, and where the square does not fit, which takes coordinates of 2^30
    /// or more in size. A path that is closed goes on from its last point to its first.
    ///
    /// Where one vertex of each path is inside the shapes, so is every point that is nearer to one than that.
    ///
    /// ```
    /// use i_overlay_mesh::{angle, outline, Arc, Join, Options, OutlineStyle};
    ///
    /// // A pad, and 150 units round it. Arcs lie inside their circles, so the offset is a little greater.
    /// let pad = [[0, 0], [2000, 0], [2000, 1000], [0, 1000]];
    /// let arc = Arc { max_step: angle(11.25), ..Arc::default() };
    /// let style = OutlineStyle { join: Join::Round(arc), ..OutlineStyle::new(154) };
    /// let clearance = outline(&[pad], &style, &Options::default())?.clearance_to(&[pad], true)?;
    /// assert!(clearance >= 150 * 150);
    /// # Ok::<(), i_overlay_mesh::Error>(())
    /// ```
    pub fn clearance_to<P: AsRef<[[I; 2]]>>(&self, paths: &[P], closed: bool) -> Result<u64, Error> {
        let flat = Flat::of(paths)?;
        let mut clearance = u64::MAX;
        ended(unsafe {
            (I::CALLS.clearance)(
                self.points.as_ptr(), self.points.len(), self.contour_ends.as_ptr(), self.contour_ends.len(),
                self.shape_ends.as_ptr(), self.shape_ends.len(), flat.items.as_ptr(), flat.items.len(),
                flat.ends.as_ptr(), flat.ends.len(), u32::from(closed), &mut clearance,
            )
        })?;
        Ok(clearance)
    }
}
