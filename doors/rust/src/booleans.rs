//! Booleans: union, intersection, difference and exclusive or.

use crate::answers::{told_shapes, NearShapes, Shapes};
use crate::calls::{Coordinate, RawBoolean, ShapeCounts};
use crate::drawings::Flat;
use crate::error::Error;
use crate::style::Options;
use std::cell::Cell;

/// Which points of two operands, the subject and the clip, a boolean keeps.
#[derive(Clone, Copy, Debug, PartialEq, Eq)]
pub enum BooleanRule {
    /// Those of the subject. The contours of the clip are not looked at.
    Subject,
    /// Those of the clip.
    Clip,
    /// Those of both.
    Intersect,
    /// Those of one of them, or of both.
    Union,
    /// Those of the subject that are not in the clip.
    Difference,
    /// Those of the clip that are not in the subject.
    InverseDifference,
    /// Those of exactly one of them.
    Xor,
}

/// Which points contours fill, by how often these wind round them.
#[derive(Clone, Copy, Debug, PartialEq, Eq)]
pub enum FillRule {
    /// Those with an odd winding number.
    EvenOdd,
    /// Those with another winding number than 0.
    NonZero,
    /// Those with a winding number above 0: what shapes hold that run counterclockwise.
    Positive,
    /// Those with a winding number below 0.
    Negative,
}

/// How two regions are combined.
#[derive(Clone, Copy, Debug, PartialEq, Eq)]
pub struct Boolean {
    /// Which points are kept.
    pub rule: BooleanRule,
    /// Which points the contours of the subject fill.
    pub subject_fill: FillRule,
    /// Which points those of the clip fill.
    pub clip_fill: FillRule,
}

impl Boolean {
    /// A boolean of operands that fill each point with another winding number than 0.
    pub fn new(rule: BooleanRule) -> Self {
        Boolean { rule, subject_fill: FillRule::NonZero, clip_fill: FillRule::NonZero }
    }

    fn raw(&self) -> RawBoolean {
        RawBoolean {
            rule: self.rule as u32,
            subject_fill: self.subject_fill as u32,
            clip_fill: self.clip_fill as u32,
        }
    }
}

/// Room that is mostly enough for what is kept of two operands.
fn room_for<I: Coordinate>(subject: &Flat<[I; 2]>, clip: &Flat<[I; 2]>) -> ShapeCounts {
    let contours = subject.ends.len() + clip.ends.len() + 8;
    let points = subject.items.len() + clip.items.len();
    ShapeCounts { points: points + points / 2 + 32, contours, shapes: contours }
}

// In each call below all lists are valid, those that are written overlap with nothing, and the library keeps none.

/// The shapes that a boolean of two regions keeps. Contours are closed, and may run either way, cross and touch. Where
/// regions only touch, they have nothing in common. `OutOfRange`: a coordinate is not below 2^30 in size, or 2^14 in 16
/// bits.
///
/// ```
/// use i_overlay_mesh::{boolean, Boolean, BooleanRule, Options};
///
/// let land = [[0, 0], [100, 0], [100, 100], [0, 100]];
/// let lakes = [[[20, 20], [40, 20], [40, 40]], [[60, 60], [80, 60], [80, 80]]];
/// let dry = boolean(&[land], &lakes, &Boolean::new(BooleanRule::Difference), &Options::default())?;
/// // One shape: the shore, and two holes.
/// assert_eq!(dry.iter().map(|shape| shape.contours().count()).collect::<Vec<_>>(), [3]);
/// # Ok::<(), i_overlay_mesh::Error>(())
/// ```
pub fn boolean<I: Coordinate, S: AsRef<[[I; 2]]>, C: AsRef<[[I; 2]]>>(
    subject: &[S],
    clip: &[C],
    boolean: &Boolean,
    options: &Options,
) -> Result<Shapes<I>, Error> {
    let (subject, clip) = (Flat::of(subject)?, Flat::of(clip)?);
    let (asked, options) = (boolean.raw(), options.raw());
    told_shapes(room_for(&subject, &clip), |to, counts| unsafe {
        (I::CALLS.boolean)(
            subject.items.as_ptr(), subject.items.len(), subject.ends.as_ptr(), subject.ends.len(),
            clip.items.as_ptr(), clip.items.len(), clip.ends.as_ptr(), clip.ends.len(), &asked, &options,
            to.points.as_mut_ptr(), to.points.len(), to.contour_ends.as_mut_ptr(), to.contour_ends.len(),
            to.shape_ends.as_mut_ptr(), to.shape_ends.len(), counts,
        )
    })
}

/// The shapes that a boolean of two regions keeps, and how near to the edges of both they are exact, within a limit on
/// splits, if it is not 0.
///
/// ```
/// use i_overlay_mesh::{boolean_near, outline, Boolean, BooleanRule, Options, OutlineStyle};
///
/// // A pocket, less its islands with 5 units round each.
/// let pocket = [[0, 0], [200, 0], [200, 100], [0, 100]];
/// let island = [[50, 40], [90, 40], [90, 60], [50, 60]];
/// let kept_off = outline(&[island], &OutlineStyle::new(5), &Options::default())?;
/// let kept_off: Vec<_> = kept_off.contours().collect();
/// let difference = Boolean::new(BooleanRule::Difference);
/// let near = boolean_near(&[pocket], &kept_off, &difference, &Options::default(), 1_000_000)?;
/// // No edge crosses another one, so rounding moved nothing.
/// assert_eq!(near.nearness, 0);
/// assert_eq!(near.shapes.contours().count(), 2);
/// # Ok::<(), i_overlay_mesh::Error>(())
/// ```
pub fn boolean_near<I: Coordinate, S: AsRef<[[I; 2]]>, C: AsRef<[[I; 2]]>>(
    subject: &[S],
    clip: &[C],
    boolean: &Boolean,
    options: &Options,
    most_splits: u64,
) -> Result<NearShapes<I>, Error> {
    let (subject, clip) = (Flat::of(subject)?, Flat::of(clip)?);
    let (asked, options) = (boolean.raw(), options.raw());
    let nearness = Cell::new(0);
    let shapes = told_shapes(room_for(&subject, &clip), |to, counts| unsafe {
        (I::CALLS.boolean_near)(
            subject.items.as_ptr(), subject.items.len(), subject.ends.as_ptr(), subject.ends.len(),
            clip.items.as_ptr(), clip.items.len(), clip.ends.as_ptr(), clip.ends.len(), &asked, &options, most_splits,
            to.points.as_mut_ptr(), to.points.len(), to.contour_ends.as_mut_ptr(), to.contour_ends.len(),
            to.shape_ends.as_mut_ptr(), to.shape_ends.len(), counts, nearness.as_ptr(),
        )
    })?;
    Ok(NearShapes { shapes, nearness: nearness.get() })
}
