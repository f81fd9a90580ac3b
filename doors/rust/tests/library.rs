//! The calls against the program's own words for the same drawings, and what is told of drawings that have no answer.

use i_overlay_mesh::*;
use std::path::PathBuf;
use std::process::{Command, Stdio};
use std::{env, fmt::Debug, fs, io::Write, thread};

fn root() -> PathBuf {
    PathBuf::from(env!("CARGO_MANIFEST_DIR")).join("../..")
}

/// The line of the answer to a request that has one.
fn line(request: &str) -> String {
    let answer = answer(request.as_bytes()).unwrap();
    assert_eq!(answer.status, Ok(()), "{request}");
    String::from_utf8(answer.line).unwrap()
}

/// A value as JSON has it.
fn json(value: &impl Debug) -> String {
    format!("{value:?}").replace(' ', "")
}

fn shapes_line<I: Debug>(shapes: &Shapes<I>) -> String {
    let lists: Vec<Vec<&[[I; 2]]>> = shapes.iter().map(|shape| shape.contours().collect()).collect();
    format!("{{\"shapes\":{}}}\n", json(&lists))
}

fn edges_line<I: Debug>(edges: &Edges<I>) -> String {
    let lists: Vec<&[[[I; 2]; 2]]> = edges.iter().collect();
    format!("{{\"edges\":{}}}\n", json(&lists))
}

/// A request in the words of the program.
fn request(op: &str, int: &str, out: &str, paths: &impl Debug, style: &str, more: &str) -> String {
    let paths = json(paths);
    format!(r#"{{"op":"{op}","int":"{int}","out":"{out}","paths":{paths},"style":{style}{more}}}"#)
}

const STAR: [[i32; 2]; 5] = [[0, 1000], [-600, -800], [950, 300], [-950, 300], [600, -800]];
const HOLE: [[i32; 2]; 3] = [[0, 0], [40, 90], [90, 10]];
const ARC: Arc = Arc { max_step: 1 << 27, precision: 9 };

#[test]
fn outlines_are_the_programs() {
    let paths = [STAR.to_vec(), HOLE.to_vec()];
    let join = [
        (Join::Bevel, r#""bevel""#),
        (Join::Miter(angle(60.0)), r#"{"miter":715827882}"#),
        (Join::Round(ARC), r#"{"round":[134217728,9]}"#),
    ];
    for (join, word) in join {
        let style = OutlineStyle { inner_offset: 7, join, miter_min_turn: 99, ..OutlineStyle::new(50) };
        let words = format!(r#"{{"outer":50,"inner":7,"join":{word},"min_turn":99}}"#);
        let options = Options { min_area: 30, clockwise: true, collinear: true };
        let chosen = r#","options":{"min_area":30,"clockwise":true,"collinear":true}"#;
        let shapes = outline(&paths, &style, &options).unwrap();
        assert_eq!(shapes_line(&shapes), line(&request("outline", "i32", "shapes", &paths, &words, chosen)));
        let edges = outline_edges(&paths, &style).unwrap();
        assert_eq!(edges_line(&edges), line(&request("outline", "i32", "edges", &paths, &words, "")));
        assert!(validate_outline(&paths, &style).unwrap().is_safe);
    }
}

#[test]
fn strokes_are_the_programs() {
    let paths: [&[[i16; 2]]; 2] = [&[[0, 0], [500, 30], [400, 600]], &[[-90, -90], [70, 70]]];
    let style = StrokeStyle {
        start_cap: Cap::Round(ARC),
        end_cap: Cap::Custom(vec![[0, -20], [30, 0], [0, 20]]),
        side: Side::Both,
        ..StrokeStyle::new(40)
    };
    let words = r#"{"width":40,"start":{"round":[134217728,9]},"end":{"custom":[[0,-20],[30,0],[0,20]]}}"#;
    let shapes = stroke(&paths, &style, &Options::default()).unwrap();
    assert_eq!(shapes_line(&shapes), line(&request("stroke", "i16", "shapes", &paths, words, "")));
    let edges = stroke_edges(&paths, &style).unwrap();
    assert_eq!(edges_line(&edges), line(&request("stroke", "i16", "edges", &paths, words, "")));
    assert_eq!(validate_stroke(&paths, &style).map(|range| range.is_safe), Ok(true));

    let ring = StrokeStyle { closed: true, side: Side::Right, start_cap: Cap::Square, ..StrokeStyle::new(40) };
    let words = r#"{"width":40,"start":"square","side":"right"}"#;
    let shapes = stroke(&paths, &ring, &Options::default()).unwrap();
    assert_eq!(shapes_line(&shapes), line(&request("stroke", "i16", "shapes", &paths, words, r#","closed":true"#)));
}

#[test]
fn variable_strokes_are_the_programs() {
    let paths = [[[0, 0, 40], [900, 50, 300], [-20, 700, 9]]];
    let words = r#"{"arc":[134217728,9]}"#;
    let shapes = variable_stroke(&paths, &ARC, &Options::default()).unwrap();
    assert_eq!(shapes_line(&shapes), line(&request("variable_stroke", "i32", "shapes", &paths, words, "")));
    let edges = variable_stroke_edges(&paths, &ARC).unwrap();
    assert_eq!(edges_line(&edges), line(&request("variable_stroke", "i32", "edges", &paths, words, "")));
    assert_eq!(validate_variable_stroke(&paths, &ARC), Ok(Range { padding: 150, is_safe: true }));
}

#[test]
fn an_answer_that_is_longer_than_the_first_room() {
    let paths: Vec<[[i32; 2]; 2]> = (0..50).map(|x| [[x * 2000, 0], [x * 2000 + 1, 1]]).collect();
    let cap = Cap::Round(Arc { max_step: 1 << 22, precision: 5 });
    let style = StrokeStyle { start_cap: cap.clone(), end_cap: cap, ..StrokeStyle::new(1000) };
    let shapes = stroke(&paths, &style, &Options::default()).unwrap();
    assert!(shapes.points.len() > 4 * 100 + 32);
    let words = r#"{"width":1000,"start":{"round":[4194304,5]},"end":{"round":[4194304,5]}}"#;
    assert_eq!(shapes_line(&shapes), line(&request("stroke", "i32", "shapes", &paths, words, "")));
}

#[test]
fn nearness_is_told_and_a_limit_kept() {
    let (style, options) = (OutlineStyle::new(50), Options::default());
    let near = outline_near(&[STAR], &style, &options, 0).unwrap();
    assert_eq!(near.shapes, outline(&[STAR], &style, &options).unwrap());
    assert!(0 < near.nearness && near.nearness < 64 * 3);
    assert_eq!(outline_near(&[STAR], &style, &options, 1_000_000), Ok(near));
    assert_eq!(outline_near(&[STAR], &style, &options, 1), Err(Error::TooManySplits));
    let square = [[[0_i16, 0], [9, 0], [9, 9], [0, 9]]];
    assert_eq!(outline_near(&square, &OutlineStyle::new(0), &options, 1).unwrap().nearness, 0);

    let style = StrokeStyle { closed: true, ..StrokeStyle::new(40) };
    let near = stroke_near(&[STAR], &style, &options, 0).unwrap();
    assert_eq!(near.shapes, stroke(&[STAR], &style, &options).unwrap());
    assert_eq!(stroke_near(&[STAR], &style, &options, 1), Err(Error::TooManySplits));
    let paths = [[[0, 0, 40], [900, 50, 300], [-20, 700, 9]]];
    let near = variable_stroke_near(&paths, &ARC, &options, 0).unwrap();
    assert_eq!(near.shapes, variable_stroke(&paths, &ARC, &options).unwrap());
    assert_eq!(variable_stroke_near(&paths, &ARC, &options, 1), Err(Error::TooManySplits));
}

/// A square with a hole half a unit wide.
const WITH_A_SLIVER: [&[[i32; 2]]; 2] =
    [&[[0, 0], [9000, 0], [9000, 9000], [0, 9000]], &[[1000, 1000], [5000, 1001], [5000, 1000]]];

#[test]
fn slivers_are_left_out() {
    let given = outline(&WITH_A_SLIVER, &OutlineStyle::new(0), &Options::default()).unwrap();
    let left = without_slivers(&given, 1).unwrap();
    let shapes: Vec<Shape<i32>> = given.iter().collect();
    assert_eq!(shapes.len(), 1);
    let contours: Vec<&[[i32; 2]]> = shapes[0].contours().collect();
    assert_eq!(contours.len(), 2);
    let count = contours[0].len();
    assert_eq!(left, Shapes { points: contours[0].to_vec(), contour_ends: vec![count], shape_ends: vec![1] });
    assert_eq!(without_slivers(&given, 0), Ok(given.clone()));
    assert_eq!(without_slivers(&given, u32::MAX).unwrap().iter().count(), 0);

    let narrow = Shapes { points: vec![[0_i16, 0], [9, 0], [9, 9]], contour_ends: vec![3], shape_ends: vec![1] };
    assert_eq!(without_slivers(&narrow, 8), Ok(narrow.clone()));
    assert!(without_slivers(&narrow, 9).unwrap().points.is_empty());
    for (contour_ends, shape_ends) in [(vec![4], vec![1]), (vec![2], vec![1]), (vec![3], vec![2]), (vec![3], vec![])] {
        let wrong = Shapes { contour_ends, shape_ends, ..narrow.clone() };
        assert_eq!(without_slivers(&wrong, 1), Err(Error::Malformed));
    }
}

#[test]
fn clearances_are_squares_of_distances() {
    let square = vec![[0, 0], [100, 0], [100, 100], [0, 100]];
    let square = Shapes { points: square, contour_ends: vec![4], shape_ends: vec![1] };
    let to = |path: &[[i32; 2]], closed| square.clearance_to(&[path], closed);
    assert_eq!(to(&[[10, 50], [60, 40]], false), Ok(100));
    assert_eq!(to(&[[100, 107], [107, 100]], true), Ok(24));
    // The closing section goes through the square.
    let corner = [[-30, 150], [150, 150], [150, -30]];
    assert_eq!((to(&corner, false), to(&corner, true)), (Ok(2500), Ok(0)));
    assert_eq!((to(&[[103, 104]], false), to(&[[103, 104]], true)), (Ok(u64::MAX), Ok(25)));
    assert_eq!((to(&[[i32::MAX; 2]], true), to(&[], true)), (Ok(2 * (i32::MAX as u64 - 100).pow(2)), Ok(u64::MAX)));
    let far = Shapes { points: vec![[i32::MIN; 2]], contour_ends: vec![1], shape_ends: vec![1] };
    assert_eq!(far.clearance_to(&[[[i32::MAX; 2]]], true), Ok(u64::MAX));

    let narrow = Shapes { points: vec![[0_i16, 0], [9, 0], [9, 9]], contour_ends: vec![3], shape_ends: vec![1] };
    assert_eq!(narrow.clearance_to(&[[[i16::MAX, 0]], [[-4, -3]]], true), Ok(25));
    let wrong = Shapes { contour_ends: vec![4], ..narrow };
    assert_eq!(wrong.clearance_to(&[[[0, 0]]], true), Err(Error::Malformed));
}

#[test]
fn strokes_hold_points_that_are_near() {
    let line = [[0, 0], [1000, 0]];
    let style = StrokeStyle { start_cap: Cap::Square, end_cap: Cap::Square, ..StrokeStyle::new(200) };
    let reach = inner_reach(&[line], &style).unwrap();
    assert!(98 * 98 < reach && reach <= 100 * 100);
    // A butt takes nothing away; a bevel comes nearer to a corner; and one that turns back leaves nothing.
    assert_eq!(inner_reach(&[line], &StrokeStyle::new(200)), Ok(reach));
    let corner = inner_reach(&[[[0, 0], [1000, 0], [1000, 1000]]], &style).unwrap();
    assert!(69 * 69 < corner && corner <= 71 * 71);
    assert_eq!(inner_reach(&[[[0, 0], [1000, 0], [0, 0]]], &style), Ok(0));
    assert_eq!(inner_reach(&[line], &StrokeStyle { side: Side::Left, ..style.clone() }), Ok(0));
    assert_eq!((inner_reach(&[[[5, 5]]], &style), inner_reach::<i32, [[i32; 2]; 1]>(&[], &style)), (Ok(0), Ok(0)));
    assert_eq!(inner_reach(&[[[0, 0], [1 << 30, 0]]], &style), Err(Error::OutOfRange));
    let narrow = StrokeStyle::<i16>::new(200);
    assert_eq!(inner_reach(&[[[0, 0], [1000, 0]]], &narrow), Ok(reach));
    assert_eq!(inner_reach(&[[[0, 0], [16_000, 0]]], &StrokeStyle::<i16>::new(800)), Err(Error::OutOfRange));
}

#[test]
fn nets_that_are_near_are_listed() {
    fn square<I: Copy>(low: I, high: I) -> Shapes<I> {
        let points = vec![[low, low], [high, low], [high, high], [low, high]];
        Shapes { points, contour_ends: vec![4], shape_ends: vec![1] }
    }
    let none = Shapes { points: vec![], contour_ends: vec![], shape_ends: vec![] };
    let nets = [square(0, 100), square(103, 200), none, square(10, 20)];
    let pairs = |nets: &[Shapes<i32>], distance| -> Vec<(usize, usize, u64)> {
        let found = clearances(nets, distance).unwrap();
        found.iter().map(|pair| (pair.first, pair.second, pair.squared)).collect()
    };
    assert_eq!((pairs(&nets, 0), pairs(&[], 9)), (vec![], vec![]));
    assert_eq!(pairs(&nets, 4), [(0, 3, 0)]);
    assert_eq!(pairs(&nets, 5), [(0, 1, 18), (0, 3, 0)]);
    assert_eq!(pairs(&nets, u32::MAX), [(0, 1, 18), (0, 3, 0), (1, 3, 2 * 83 * 83)]);
    // More pairs than there is room for at first.
    assert_eq!(pairs(&vec![square(7, 9); 30], 1).len(), 30 * 29 / 2);

    let found = clearances(&[square(i16::MIN, -9), square(-5, i16::MAX)], 6);
    assert_eq!(found, Ok(vec![NetClearance { first: 0, second: 1, squared: 32 }]));
    for contour_ends in [vec![3], vec![5], vec![], vec![4, 3], vec![5, 4]] {
        let wrong = Shapes { contour_ends, ..square(0, 1) };
        assert_eq!(clearances(&[square(5, 6), wrong], 1), Err(Error::Malformed));
    }
}

const SQUARE: [[i32; 2]; 4] = [[0, 0], [4, 0], [4, 4], [0, 4]];
const OTHER: [[i32; 2]; 4] = [[2, 2], [6, 2], [6, 6], [2, 6]];

#[test]
fn booleans_keep_what_their_rules_say() {
    let shapes = |rule| boolean(&[SQUARE], &[OTHER], &Boolean::new(rule), &Options::default()).unwrap();
    let less = "[[0,0],[4,0],[4,2],[2,2],[2,4],[0,4]]";
    let rest = "[[2,4],[4,4],[4,2],[6,2],[6,6],[2,6]]";
    for (rule, told) in [
        (BooleanRule::Subject, json(&[SQUARE])),
        (BooleanRule::Clip, json(&[OTHER])),
        (BooleanRule::Intersect, "[[[2,2],[4,2],[4,4],[2,4]]]".into()),
        (BooleanRule::Union, "[[[0,0],[4,0],[4,2],[6,2],[6,6],[2,6],[2,4],[0,4]]]".into()),
        (BooleanRule::Difference, format!("[{less}]")),
        (BooleanRule::InverseDifference, format!("[{rest}]")),
        (BooleanRule::Xor, format!("[{less},{rest}]")),
    ] {
        assert_eq!(json(&shapes(rule).contours().collect::<Vec<_>>()), told, "{rule:?}");
    }
    // A contour that is wound round twice, in one sense.
    let twice = |subject_fill| {
        let asked = Boolean { subject_fill, ..Boolean::new(BooleanRule::Subject) };
        boolean(&[SQUARE, SQUARE], &[[[0; 2]; 0]; 0], &asked, &Options::default()).unwrap().contours().count()
    };
    let fills = [FillRule::EvenOdd, FillRule::NonZero, FillRule::Positive, FillRule::Negative];
    assert_eq!(fills.map(twice), [0, 1, 1, 0]);
    let clockwise = Options { clockwise: true, ..Options::default() };
    let turned = boolean(&[SQUARE], &[OTHER], &Boolean::new(BooleanRule::Clip), &clockwise).unwrap();
    assert_eq!(turned.points, [[2, 2], [2, 6], [6, 6], [6, 2]]);
}

#[test]
fn booleans_tell_their_nearness_and_keep_a_limit() {
    let (asked, options) = (Boolean::new(BooleanRule::Intersect), Options::default());
    let triangle = [[[0_i16, 0], [5, 0], [5, 3]]];
    let square = [[[3, 0], [7, 0], [7, 4], [3, 4]]];
    let near = boolean_near(&triangle, &square, &asked, &options, 0).unwrap();
    assert_eq!(near.shapes.points, [[3, 0], [5, 0], [5, 3], [3, 2]]);
    assert!(0 < near.nearness && near.nearness <= 64);
    assert_eq!(near.shapes, boolean(&triangle, &square, &asked, &options).unwrap());
    assert_eq!(boolean_near(&triangle, &square, &asked, &options, 1), Err(Error::TooManySplits));
    assert_eq!(boolean_near(&triangle, &square, &asked, &options, 1000), Ok(near));
    let far = [[[1_i16 << 14, 0], [0, 1], [1, 0]]];
    for rule in [BooleanRule::Subject, BooleanRule::Clip, BooleanRule::Union] {
        assert_eq!(boolean(&far, &square, &Boolean::new(rule), &options), Err(Error::OutOfRange));
        assert_eq!(boolean(&square, &far, &Boolean::new(rule), &options), Err(Error::OutOfRange));
    }
    let wide = Options { min_area: 1 << 32, ..options };
    assert_eq!(boolean(&triangle, &square, &asked, &wide), Err(Error::Malformed));
}

#[test]
fn what_has_no_answer_is_told() {
    let nothing: [[[i32; 2]; 0]; 0] = [];
    let style = OutlineStyle::new(10);
    assert!(outline(&nothing, &style, &Options::default()).unwrap().points.is_empty());
    let far = [[[1 << 30, 0], [0, 1], [1, 0]]];
    assert_eq!(outline(&far, &style, &Options::default()), Err(Error::OutOfRange));
    assert_eq!(validate_outline(&far, &style), Ok(Range { padding: 10, is_safe: false }));
    let small: [[[i16; 2]; 3]; 1] = [[[0, 0], [9, 0], [0, 9]]];
    assert_eq!(outline(&small, &OutlineStyle::new(40_000), &Options::default()), Err(Error::Malformed));
    assert_eq!(answer(b"{").unwrap().status, Err(Error::Malformed));
    assert_eq!(answer(b"{").unwrap().line, b"{\"unreadable\":\"request\"}\n");
    assert!(why(b"{").unwrap().is_some());
    assert_eq!(why(request("outline", "i16", "edges", &nothing, r#"{"outer":1,"inner":1}"#, "").as_bytes()), Ok(None));
    assert_eq!(Error::OutOfRange.to_string(), "what is to be drawn would pass the safe range");
}

#[test]
fn examples_are_answered_as_by_the_program_in_threads() {
    let built = || root().join("crates/mesh_run/out/mesh_run");
    let program = env::var_os("I_OVERLAY_MESH_PROGRAM").map_or_else(built, PathBuf::from);
    if !program.exists() {
        return;
    }
    let folders = ["examples", "examples/cutting"].map(|folder| fs::read_dir(root().join(folder)).unwrap());
    let examples: Vec<PathBuf> = folders.into_iter().flatten().map(|it| it.unwrap().path()).collect();
    let requests = examples.into_iter().filter(|file| file.extension().map_or(false, |it| it == "json"));
    let threads: Vec<_> = requests
        .map(|file| {
            let program = program.clone();
            thread::spawn(move || {
                let bytes = fs::read(&file).unwrap();
                let mut run = Command::new(program).stdin(Stdio::piped()).stdout(Stdio::piped()).spawn().unwrap();
                run.stdin.take().unwrap().write_all(&bytes).unwrap();
                let output = run.wait_with_output().unwrap();
                let told = answer(&bytes).unwrap();
                assert_eq!(answer_within(&bytes, 0), Ok(told.clone()));
                assert_eq!(told.line, output.stdout, "{}", file.display());
                assert_eq!(told.status.is_ok(), output.status.success());
            })
        })
        .collect();
    assert!(!threads.is_empty());
    threads.into_iter().for_each(|thread| thread.join().unwrap());
}
