//! The three timed calls as a Rust programmer would write them for speed: 64-bit arithmetic, one multiplication for each mix, a shift for the
//! division by a power of two, both halves of a piece out of one triangle, one walk over the pieces. Same tests, same buffers.

use crate::kernel::{Answer, Planar, PointAnswer};
use crate::rules::{accept, refuse};

/// a/2^k, ready for mixing.
#[derive(Clone, Copy)]
struct Weight {
    a: i64,
    half: i64,
    k: u32,
}

fn weight(a: u16, k: u8) -> Option<Weight> {
    if k > 15 || a as u32 > 1 << k {
        return None;
    }
    Some(Weight { a: a as i64, half: (1 << k) >> 1, k: k as u32 })
}

#[inline]
fn mix_value(p: i32, q: i32, w: Weight) -> i32 {
    let (p, q) = (p as i64, q as i64);
    (p + ((w.a * (q - p) + w.half) >> w.k)) as i32
}

#[inline]
fn mix(p: Planar, q: Planar, w: Weight) -> Planar {
    Planar { x: mix_value(p.x, q.x, w), y: mix_value(p.y, q.y, w) }
}

#[inline]
fn halfway(p: Planar, q: Planar) -> Planar {
    let half = |p: i32, q: i32| ((p as i64 + q as i64 + 1) >> 1) as i32;
    Planar { x: half(p.x, q.x), y: half(p.y, q.y) }
}

#[inline(never)]
pub fn left(polygon: &mut [Planar], a: u16, k: u8) -> Answer {
    let Some(w) = weight(a, k) else {
        return refuse(1, 0);
    };
    let points = polygon.len();
    if !(2..=17).contains(&points) {
        return refuse(3, points);
    }
    for r in 1..points {
        for i in (r..points).rev() {
            polygon[i] = mix(polygon[i - 1], polygon[i], w);
        }
    }
    accept(0)
}

#[inline(never)]
pub fn point(polygon: &[Planar], allowance: u16, a: u16, k: u8, buffer: &mut [Planar]) -> PointAnswer {
    let refused = |f| PointAnswer { answer: f, ..Default::default() };
    let points = polygon.len();
    if !(2..=17).contains(&points) {
        return refused(refuse(3, points));
    }
    let Some(w) = weight(a, k) else {
        return refused(refuse(1, 0));
    };
    if buffer.len() < points {
        return refused(refuse(2, points));
    }
    let right = &mut buffer[..points];
    right.copy_from_slice(polygon);
    for last in (1..points).rev() {
        for i in 0..last {
            right[i] = mix(right[i], right[i + 1], w);
        }
    }
    PointAnswer { answer: accept(0), point: right[0], allowance: allowance as u32 + points as u32 - 1 }
}

#[inline]
fn is_flat(piece: &[Planar], q: u16) -> bool {
    let n = piece.len() as i64 - 1;
    let (first, last) = (piece[0], piece[piece.len() - 1]);
    let most = n * q as i64;
    let off = |i: i64, first: i32, here: i32, last: i32| {
        (n * here as i64 - (n - i) * first as i64 - i * last as i64).abs() > most
    };
    // both ends lie on the chord
    (1..n).all(|i| {
        let here = piece[i as usize];
        !off(i, first.x, here.x, last.x) && !off(i, first.y, here.y, last.y)
    })
}

/// The right half takes the place of the piece that stands first, the left half the places after it.
#[inline]
fn halve(two: &mut [Planar], size: usize) {
    let (right, left) = two.split_at_mut(size);
    for r in 0..size {
        left[r] = right[0];
        for i in 0..size - 1 - r {
            right[i] = halfway(right[i], right[i + 1]);
        }
    }
}

#[inline(never)]
pub fn flatten(polygon: &[Planar], q: u16, working: &mut [Planar], points: &mut [Planar], parameters: &mut [u16]) -> Answer {
    let size = polygon.len();
    if !(2..=17).contains(&size) {
        return refuse(3, size);
    }
    if working.len() < 221 {
        return refuse(2, 221);
    }
    // No vertex may be written before it is known that nothing refuses, so they wait here; not cleared.
    let mut vertices: Vec<(Planar, u16)> = Vec::with_capacity(4097);
    working[..size].copy_from_slice(polygon);
    vertices.push((polygon[0], 0));
    let mut depths = [0u32; 13];
    let (mut top, mut start) = (0, 0);
    loop {
        let depth = depths[top];
        let piece = &working[top * size..(top + 1) * size];
        if is_flat(piece, q) {
            start += 4096 >> depth;
            vertices.push((piece[size - 1], start as u16));
            if top == 0 {
                break;
            }
            top -= 1;
        } else if depth == 12 {
            return refuse(9, start);
        } else {
            halve(&mut working[top * size..(top + 2) * size], size);
            depths[top] = depth + 1;
            top += 1;
            depths[top] = depth + 1;
        }
    }
    let count = vertices.len();
    if points.len() < count || parameters.len() < count {
        return refuse(2, count);
    }
    for (i, (p, t)) in vertices.into_iter().enumerate() {
        points[i] = p;
        parameters[i] = t;
    }
    accept(count)
}
