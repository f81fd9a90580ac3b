//! Processor time of one call, at best: prints the microseconds of `answer` for the request in a file, and of
//! `outline` for the offset and the coordinates of one contour in another.

use i_overlay_mesh::{answer, outline, Options, OutlineStyle};
use std::{env, fs, process};

const ROUNDS: u32 = 9;

extern "C" {
    /// C's own: the processor time of the process, in microseconds on POSIX systems.
    fn clock() -> std::os::raw::c_long;
}

fn now() -> f64 {
    unsafe { clock() as f64 }
}

fn best(calls: u32, call: impl Fn() -> bool) -> f64 {
    let round = |_| {
        let start = now();
        if !(0..calls).all(|_| call()) {
            process::exit(1);
        }
        (now() - start) / f64::from(calls)
    };
    (0..ROUNDS).map(round).fold(f64::INFINITY, f64::min)
}

fn main() {
    let files: Vec<String> = env::args().skip(1).collect();
    let request = fs::read(&files[0]).unwrap();
    let numbers = fs::read_to_string(&files[1]).unwrap();
    let numbers: Vec<i32> = numbers.split_whitespace().map(|word| word.parse().unwrap()).collect();
    let contour: Vec<[i32; 2]> = numbers[2..].chunks(2).map(|pair| [pair[0], pair[1]]).collect();
    let style = OutlineStyle { inner_offset: numbers[1], ..OutlineStyle::new(numbers[0]) };
    let calls = 1 + 20_000 / contour.len() as u32;
    let answered = best(calls, || answer(&request).map_or(false, |it| it.status.is_ok()));
    let outlined = best(calls, || outline(&[&contour], &style, &Options::default()).is_ok());
    println!("{answered} {outlined}");
}
