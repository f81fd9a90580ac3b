//! Nets that are near to each other.

use crate::answers::Shapes;
use crate::calls::Coordinate;
use crate::drawings::Flat;
use crate::error::{ended, room, Error, ROOM_TOO_SMALL};

/// Two nets that are nearer to each other than a distance.
#[derive(Clone, Copy, Debug, Default, PartialEq, Eq)]
#[repr(C)]
pub struct NetClearance {
    /// The index of the first net.
    pub first: usize,
    /// The index of the second net, which comes after the first.
    pub second: usize,
    /// The square of their distance, in grid units and rounded down: 0 where they touch or overlap, or where one lies
    /// within the other.
    pub squared: u64,
}

/// So many pairs for each net there is mostly room for.
const PAIRS: usize = 8;

/// The contours of nets, end to end, and for each net how many contours stand in it and before it. `Malformed`: the ends
/// of a net are none of its contours.
fn flat_nets<I: Coordinate>(nets: &[Shapes<I>]) -> Result<(Flat<[I; 2]>, Vec<usize>), Error> {
    let mut contours = Vec::new();
    let mut net_ends = Vec::new();
    net_ends.try_reserve_exact(nets.len()).map_err(|_| Error::OutOfMemory)?;
    for net in nets {
        let ends = &net.contour_ends;
        let is_sorted = ends.windows(2).all(|pair| pair[0] <= pair[1]);
        if !is_sorted || ends.last().copied().unwrap_or(0) != net.points.len() {
            return Err(Error::Malformed);
        }
        contours.try_reserve(ends.len()).map_err(|_| Error::OutOfMemory)?;
        contours.extend(net.contours());
        net_ends.push(contours.len());
    }
    Ok((Flat::of(&contours)?, net_ends))
}

/// The pairs of nets that are nearer to each other than a distance in grid units, each once, in ascending order of its
/// first net, then of its second. Every two points of two other nets, on the grid or between its points, are at least
/// that far apart.
///
/// A net is what a call returned; where its shapes end is not asked for. Coordinates may be any. Nothing is nearer than 0.
/// `Malformed`: the contours' ends of a net do not fit its points.
///
/// ```
/// use i_overlay_mesh::{clearances, stroke, Options, StrokeStyle};
///
/// // Three tracks 200 wide, 500 and 300 apart from middle to middle, which are to keep 150.
/// let track = |y| stroke(&[[[0, y], [5000, y]]], &StrokeStyle::new(200), &Options::default());
/// let nets = [track(0)?, track(500)?, track(800)?];
/// let near = clearances(&nets, 150)?;
/// assert_eq!(near.len(), 1);
/// assert_eq!((near[0].first, near[0].second, near[0].squared), (1, 2, 100 * 100));
/// # Ok::<(), i_overlay_mesh::Error>(())
/// ```
pub fn clearances<I: Coordinate>(nets: &[Shapes<I>], distance: u32) -> Result<Vec<NetClearance>, Error> {
    let (flat, net_ends) = flat_nets(nets)?;
    let mut count = PAIRS * nets.len();
    loop {
        let mut pairs = room(count)?;
        // All lists are valid, those that are written overlap with nothing, and the library keeps none.
        let outcome = unsafe {
            (I::CALLS.clearances)(
                flat.items.as_ptr(), flat.items.len(), flat.ends.as_ptr(), flat.ends.len(), net_ends.as_ptr(),
                net_ends.len(), distance, pairs.as_mut_ptr(), pairs.len(), &mut count,
            )
        };
        if outcome != ROOM_TOO_SMALL {
            ended(outcome)?;
            pairs.truncate(count);
            return Ok(pairs);
        }
    }
}
