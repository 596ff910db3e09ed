//! Our time against plain Rust's on the same inputs. The two take turns, and each is told by its fastest round, since other programs may run beside.

use crate::kernel::{self, Planar};
use crate::plain;
use crate::random::Random;
use std::hint::black_box;
use std::time::Instant;

const ROUNDS: usize = 60;
const POLYGONS: usize = 256;

pub struct Time {
    pub what: &'static str,
    pub ours: f64,
    pub plain: f64,
}

/// Nanoseconds for each of `units` units of work, of the fastest round.
fn fastest(units: usize, mut ours: impl FnMut(), mut plain: impl FnMut()) -> (f64, f64) {
    let mut least = (f64::MAX, f64::MAX);
    for _ in 0..ROUNDS {
        let began = Instant::now();
        ours();
        least.0 = least.0.min(began.elapsed().as_nanos() as f64);
        let began = Instant::now();
        plain();
        least.1 = least.1.min(began.elapsed().as_nanos() as f64);
    }
    (least.0 / units as f64, least.1 / units as f64)
}

fn polygons(random: &mut Random, size: usize, range: i32) -> Vec<Vec<Planar>> {
    let point = |random: &mut Random| Planar { x: random.value(range), y: random.value(range) };
    (0..POLYGONS).map(|_| (0..size).map(|_| point(random)).collect()).collect()
}

/// The point of a cubic, at parameters of all lengths. The buffer is not cleared between calls.
pub fn cubic_point(random: &mut Random) -> Time {
    const TIMES: usize = 20;
    let cubics = polygons(random, 4, 1_000_000);
    let at: Vec<(u16, u8)> = (0..POLYGONS).map(|i| (1 + random.below(1 << (1 + i % 15)) as u16, 1 + (i % 15) as u8)).collect();
    let mut buffer = [Planar::default(); 4];
    let mut other = buffer;
    let ours = || {
        for (cubic, (a, k)) in cubics.iter().zip(&at).cycle().take(TIMES * POLYGONS) {
            black_box(kernel::point(cubic, 0, *a, *k, black_box(&mut buffer)));
        }
    };
    let plain = || {
        for (cubic, (a, k)) in cubics.iter().zip(&at).cycle().take(TIMES * POLYGONS) {
            black_box(plain::point(cubic, 0, *a, *k, black_box(&mut other)));
        }
    };
    let (ours, plain) = fastest(TIMES * POLYGONS, ours, plain);
    Time { what: "point of a cubic", ours, plain }
}

/// A left at degree 16, in place; each polygon is copied to its place first, which both pay for.
pub fn left_at_degree_16(random: &mut Random) -> Time {
    const TIMES: usize = 4;
    let all = polygons(random, 17, 1_000_000);
    let mut place = [Planar::default(); 17];
    let mut other = place;
    let ours = || {
        for polygon in all.iter().cycle().take(TIMES * POLYGONS) {
            place.copy_from_slice(polygon);
            black_box(kernel::left(black_box(&mut place), 3, 3));
        }
    };
    let plain = || {
        for polygon in all.iter().cycle().take(TIMES * POLYGONS) {
            other.copy_from_slice(polygon);
            black_box(plain::left(black_box(&mut other), 3, 3));
        }
    };
    let (ours, plain) = fastest(TIMES * POLYGONS, ours, plain);
    Time { what: "left at degree 16", ours, plain }
}

/// Flattening cubics of some 100 mm to 1/16 mm, for each vertex. No buffer is cleared between calls.
pub fn flattened_cubic(random: &mut Random) -> Time {
    const TOLERANCE: u16 = 16;
    let cubics = polygons(random, 4, 12_800);
    let buffers = || (vec![Planar::default(); 221], vec![Planar::default(); 4097], vec![0u16; 4097]);
    let (mut mine, mut other) = (buffers(), buffers());
    let mut vertices = 0;
    for cubic in &cubics {
        vertices += plain::flatten(cubic, TOLERANCE, &mut other.0, &mut other.1, &mut other.2).place;
    }
    let ours = || {
        for cubic in &cubics {
            black_box(kernel::flatten(cubic, 0, TOLERANCE, &mut mine.0, black_box(&mut mine.1), &mut mine.2));
        }
    };
    let plain = || {
        for cubic in &cubics {
            black_box(plain::flatten(cubic, TOLERANCE, &mut other.0, black_box(&mut other.1), &mut other.2));
        }
    };
    let (ours, plain) = fastest(vertices, ours, plain);
    println!("flattened cubics have {:.1} vertices on average", vertices as f64 / POLYGONS as f64);
    Time { what: "flattening a cubic, per vertex", ours, plain }
}
