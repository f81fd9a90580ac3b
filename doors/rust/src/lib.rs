//! Polygon offsetting and booleans over whole numbers: outlines of polygons, strokes of paths, of one width or of a width
//! that changes from vertex to vertex; unions, intersections and differences of regions.
//!
//! This is a safe wrapper over a library that is written in Rattle, Rust with contracts, and proved. Its header for C,
//! `doors/c/i_overlay_mesh.h`, is what it stands on, and `docs/rust.md` says what is proved. `doors/build` makes the
//! archive that it links.
//!
//! ```
//! use i_overlay_mesh::{outline, Options, OutlineStyle};
//!
//! let square = [[0, 0], [100, 0], [100, 100], [0, 100]];
//! let shapes = outline(&[square], &OutlineStyle::new(10), &Options::default())?;
//! assert_eq!(shapes.iter().count(), 1);
//! # Ok::<(), i_overlay_mesh::Error>(())
//! ```
//!
//! Coordinates and lengths are in grid units, coordinates in 32 or in 16 bits. Outer contours run counterclockwise and
//! holes clockwise, with `y` upwards. Angles are in bits, of which 2^32 are a turn; [`angle`] makes them of degrees.
//! Calls may run at once in any number of threads, and need 256 KiB of stack.

mod answers;
mod booleans;
mod calls;
mod drawings;
mod error;
mod nets;
mod requests;
mod style;

pub use answers::{Edges, NearShapes, Shape, Shapes};
pub use booleans::{boolean, boolean_near, Boolean, BooleanRule, FillRule};
pub use calls::Coordinate;
pub use drawings::{
    inner_reach, outline, outline_edges, outline_near, stroke, stroke_edges, stroke_near, validate_outline,
    validate_stroke, validate_variable_stroke, variable_stroke, variable_stroke_edges, variable_stroke_near,
    without_slivers, Range,
};
pub use error::Error;
pub use nets::{clearances, NetClearance};
pub use requests::{answer, answer_within, why, Answer};
pub use style::{angle, Arc, Cap, Join, Options, OutlineStyle, Side, StrokeStyle, MIN_TURN};
