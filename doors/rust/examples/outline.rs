//! Prints a polygon with a hole, moved outwards with round joins: one line a contour.

use i_overlay_mesh::{outline, Arc, Error, Join, Options, OutlineStyle};

fn main() -> Result<(), Error> {
    let boundary = [[0, 0], [1000, 0], [1000, 800], [0, 800]];
    let hole = [[300, 200], [300, 600], [700, 600], [700, 200]];
    let style = OutlineStyle { join: Join::Round(Arc::default()), ..OutlineStyle::new(50) };
    for shape in outline(&[boundary, hole], &style, &Options::default())?.iter() {
        for contour in shape.contours() {
            println!("{contour:?}");
        }
    }
    Ok(())
}
