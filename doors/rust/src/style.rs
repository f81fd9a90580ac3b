//! How drawings are drawn.

use crate::calls::{RawCap, RawJoin, RawOptions, RawOutlineStyle, RawStrokeStyle};

/// The turn below which a miter is a bevel, by default: 5 degrees, cut to whole bits.
pub const MIN_TURN: u32 = 59_652_323;

/// An angle from 0 to below 360 degrees in bits, cut.
///
/// ```
/// assert_eq!(i_overlay_mesh::angle(90.0), 1 << 30);
/// ```
pub fn angle(degrees: f64) -> u32 {
    (degrees / 360.0 * 4_294_967_296.0) as u32
}

/// How finely an arc is drawn.
#[derive(Clone, Copy, Debug, PartialEq, Eq)]
#[repr(C)]
pub struct Arc {
    /// The greatest angle between neighbouring directions, in bits, from 2^22 to 2^29; else it counts so.
    pub max_step: u32,
    /// How near a step comes to it, from 4 to 32; what is less or more counts as these.
    pub precision: u32,
}

impl Default for Arc {
    /// Steps of some 5.7 degrees.
    fn default() -> Self {
        Arc { max_step: 68_356_528, precision: 5 }
    }
}

/// A join of outer corners.
#[derive(Clone, Copy, Debug, PartialEq, Eq, Default)]
pub enum Join {
    /// One edge.
    #[default]
    Bevel,
    /// A peak, which is clipped where the corner is sharper than this angle, in bits.
    Miter(u32),
    /// An arc.
    Round(Arc),
}

/// How contours are outlined.
#[derive(Clone, Copy, Debug, PartialEq, Eq)]
pub struct OutlineStyle {
    /// How far outer boundaries, which run counterclockwise, move: outwards above 0.
    pub outer_offset: i32,
    /// How far holes' boundaries, which run clockwise, move: into the hole above 0.
    pub inner_offset: i32,
    /// The join of outer corners.
    pub join: Join,
    /// The turn below which a miter is a bevel, in bits.
    pub miter_min_turn: u32,
}

impl OutlineStyle {
    /// All boundaries moved by an offset, with bevels.
    pub fn new(offset: i32) -> Self {
        OutlineStyle {
            outer_offset: offset,
            inner_offset: offset,
            join: Join::Bevel,
            miter_min_turn: MIN_TURN,
        }
    }
}

/// A cap of the ends of open paths.
#[derive(Clone, Debug, PartialEq, Eq, Default)]
pub enum Cap<I> {
    /// Straight across the end.
    #[default]
    Butt,
    /// Half a square farther.
    Square,
    /// An arc.
    Round(Arc),
    /// Edges through points, round an end at (0, 0) that looks along the axis x, from its right to its left.
    Custom(Vec<[I; 2]>),
}

/// The side of a path that is drawn.
#[derive(Clone, Copy, Debug, PartialEq, Eq, Default)]
pub enum Side {
    /// Both sides.
    #[default]
    Both,
    /// The left, seen along the path.
    Left,
    /// The right.
    Right,
}

/// How paths are stroked.
#[derive(Clone, Debug, PartialEq, Eq)]
pub struct StrokeStyle<I> {
    /// The width; half of it is rounded up. Nothing is drawn for a width of at most 2.
    pub width: i32,
    /// The join of two neighbouring sections.
    pub join: Join,
    /// The turn below which a miter is a bevel, in bits.
    pub miter_min_turn: u32,
    /// The cap at the start of an open path.
    pub start_cap: Cap<I>,
    /// The cap at its end.
    pub end_cap: Cap<I>,
    /// The side that is drawn.
    pub side: Side,
    /// Whether each path goes on from its last point to its first.
    pub closed: bool,
}

impl<I> StrokeStyle<I> {
    /// Open paths of this width, with bevels and butt caps.
    pub fn new(width: i32) -> Self {
        StrokeStyle {
            width,
            join: Join::Bevel,
            miter_min_turn: MIN_TURN,
            start_cap: Cap::Butt,
            end_cap: Cap::Butt,
            side: Side::Both,
            closed: false,
        }
    }
}

/// What shapes depend on besides what is drawn.
#[derive(Clone, Copy, Debug, PartialEq, Eq, Default)]
pub struct Options {
    /// Contours of less area, in squares of the grid, are left out. It fits 32 bits where coordinates have 16.
    pub min_area: u64,
    /// Whether outer contours run clockwise and holes counterclockwise.
    pub clockwise: bool,
    /// Whether vertices that contours run straight through stay.
    pub collinear: bool,
}

const NO_ARC: Arc = Arc { max_step: 0, precision: 0 };

fn raw_join(join: Join, miter_min_turn: u32) -> RawJoin {
    let (kind, miter_angle, arc) = match join {
        Join::Bevel => (0, 0, NO_ARC),
        Join::Miter(angle) => (1, angle, NO_ARC),
        Join::Round(arc) => (2, 0, arc),
    };
    RawJoin { kind, miter_angle, miter_min_turn, arc }
}

impl OutlineStyle {
    pub(crate) fn raw(&self) -> RawOutlineStyle {
        RawOutlineStyle {
            outer_offset: self.outer_offset,
            inner_offset: self.inner_offset,
            join: raw_join(self.join, self.miter_min_turn),
        }
    }
}

impl<I> Cap<I> {
    fn raw(&self) -> RawCap {
        let (kind, arc) = match self {
            Cap::Butt => (0, NO_ARC),
            Cap::Square => (1, NO_ARC),
            Cap::Round(arc) => (2, *arc),
            Cap::Custom(_) => (3, NO_ARC),
        };
        RawCap { kind, arc }
    }

    /// The points of a custom cap.
    pub(crate) fn points(&self) -> &[[I; 2]] {
        match self {
            Cap::Custom(points) => points,
            _ => &[],
        }
    }
}

impl<I> StrokeStyle<I> {
    pub(crate) fn raw(&self) -> RawStrokeStyle {
        RawStrokeStyle {
            width: self.width,
            join: raw_join(self.join, self.miter_min_turn),
            start_cap: self.start_cap.raw(),
            end_cap: self.end_cap.raw(),
            side: self.side as u32,
            closed: u32::from(self.closed),
        }
    }
}

impl Options {
    pub(crate) fn raw(&self) -> RawOptions {
        RawOptions {
            min_area: self.min_area,
            clockwise: u32::from(self.clockwise),
            collinear: u32::from(self.collinear),
        }
    }
}
