//! The rules of docs/RULES.md written down as plainly as they are told there, for comparison. Wide numbers, no shortcuts, nothing shared with
//! the kernel: levels are whole lists, pieces are found by recursion, a file is read by offsets.

use crate::kernel::{Answer, FileAnswer, Planar, PointAnswer};

pub fn refuse(refusal: u8, place: usize) -> Answer {
    Answer { refusal, storey: 0, place }
}

pub fn accept(count: usize) -> Answer {
    refuse(0, count)
}

/// floor((2·N + d) / (2·d)), N = (d − w)·p + w·q
fn mix_value(p: i32, q: i32, w: i128, d: i128) -> i32 {
    let n = (d - w) * p as i128 + w * q as i128;
    (2 * n + d).div_euclid(2 * d) as i32
}

fn mix(p: Planar, q: Planar, w: i128, d: i128) -> Planar {
    Planar { x: mix_value(p.x, q.x, w, d), y: mix_value(p.y, q.y, w, d) }
}

fn weight(a: u16, k: u8) -> Option<(i128, i128)> {
    if k > 15 || a as u32 > 1 << k {
        return None;
    }
    Some((a as i128, 1 << k))
}

/// Level 0 to level n.
fn levels(polygon: &[Planar], (w, d): (i128, i128)) -> Vec<Vec<Planar>> {
    let mut all = vec![polygon.to_vec()];
    while all[all.len() - 1].len() > 1 {
        let below = &all[all.len() - 1];
        let above = below.windows(2).map(|two| mix(two[0], two[1], w, d)).collect();
        all.push(above);
    }
    all
}

fn left_part(polygon: &[Planar], t: (i128, i128)) -> Vec<Planar> {
    levels(polygon, t).iter().map(|level| level[0]).collect()
}

fn right_part(polygon: &[Planar], t: (i128, i128)) -> Vec<Planar> {
    levels(polygon, t).iter().rev().map(|level| level[level.len() - 1]).collect()
}

fn is_polygon(points: usize) -> bool {
    (2..=17).contains(&points)
}

fn test(polygon: &[Planar], a: u16, k: u8) -> Result<(i128, i128), Answer> {
    let t = weight(a, k).ok_or(refuse(1, 0))?;
    if !is_polygon(polygon.len()) {
        return Err(refuse(3, polygon.len()));
    }
    Ok(t)
}

fn answer(r: Result<Answer, Answer>) -> Answer {
    match r {
        Ok(a) | Err(a) => a,
    }
}

pub fn left(polygon: &mut [Planar], a: u16, k: u8) -> Answer {
    answer(test(polygon, a, k).map(|t| {
        polygon.copy_from_slice(&left_part(polygon, t));
        accept(0)
    }))
}

pub fn right(polygon: &mut [Planar], a: u16, k: u8) -> Answer {
    answer(test(polygon, a, k).map(|t| {
        polygon.copy_from_slice(&right_part(polygon, t));
        accept(0)
    }))
}

pub fn raise(buffer: &mut [Planar], points: usize) -> Answer {
    if !(2..=16).contains(&points) {
        return refuse(3, points);
    }
    if buffer.len() < points + 1 {
        return refuse(2, points + 1);
    }
    let p = buffer[..points].to_vec();
    let n = points - 1;
    for i in 1..=n {
        buffer[i] = mix(p[i], p[i - 1], i as i128, (n + 1) as i128);
    }
    buffer[n + 1] = p[n];
    accept(0)
}

pub fn turn(polygon: &mut [Planar]) -> Answer {
    if !is_polygon(polygon.len()) {
        return refuse(3, polygon.len());
    }
    let turned: Vec<Planar> = polygon.iter().rev().copied().collect();
    polygon.copy_from_slice(&turned);
    accept(0)
}

pub fn point(polygon: &[Planar], allowance: u16, a: u16, k: u8, buffer: &mut [Planar]) -> PointAnswer {
    let refused = |f| PointAnswer { answer: f, ..Default::default() };
    let reach = polygon.len();
    if !is_polygon(reach) {
        return refused(refuse(3, reach));
    }
    let Some(t) = weight(a, k) else {
        return refused(refuse(1, 0));
    };
    if buffer.len() < reach {
        return refused(refuse(2, reach));
    }
    let all = levels(polygon, t);
    buffer[..reach].copy_from_slice(&right_part(polygon, t));
    PointAnswer {
        answer: accept(0),
        point: all[all.len() - 1][0],
        allowance: allowance as u32 + (reach as u32 - 1),
    }
}

fn is_flat(polygon: &[Planar], q: u16) -> bool {
    let n = polygon.len() as i128 - 1;
    let off = |i: usize, value: fn(&Planar) -> i32| {
        let at = |j: usize| value(&polygon[j]) as i128;
        let along = (n - i as i128) * at(0) + i as i128 * at(n as usize);
        (n * at(i) - along).abs() > n * q as i128
    };
    (0..polygon.len()).all(|i| !off(i, |p| p.x) && !off(i, |p| p.y))
}

/// The ends of the pieces with their parameters times 4,096, or the start of the first piece at depth 12 that is not flat.
fn pieces(polygon: &[Planar], q: u16, depth: u32, start: usize, ends: &mut Vec<(Planar, u16)>) -> Result<(), usize> {
    let span = 4096 >> depth;
    if is_flat(polygon, q) {
        ends.push((polygon[polygon.len() - 1], (start + span) as u16));
        return Ok(());
    }
    if depth == 12 {
        return Err(start);
    }
    pieces(&left_part(polygon, (1, 2)), q, depth + 1, start, ends)?;
    pieces(&right_part(polygon, (1, 2)), q, depth + 1, start + span / 2, ends)
}

pub fn flatten(polygon: &[Planar], q: u16, working: usize, points: &mut [Planar], parameters: &mut [u16]) -> Answer {
    if !is_polygon(polygon.len()) {
        return refuse(3, polygon.len());
    }
    if working < 221 {
        return refuse(2, 221);
    }
    let mut vertices = vec![(polygon[0], 0)];
    if let Err(start) = pieces(polygon, q, 0, 0, &mut vertices) {
        return refuse(9, start);
    }
    let count = vertices.len();
    if points.len() < count || parameters.len() < count {
        return refuse(2, count);
    }
    for (i, (p, t)) in vertices.into_iter().enumerate() {
        points[i] = p;
        parameters[i] = t;
    }
    accept(count)
}

/// A file by offsets: `at` is where the next field begins.
struct Fields<'a> {
    file: &'a [u8],
    at: usize,
}

impl Fields<'_> {
    /// The next field of so many bytes, big-endian, or 6 at its offset.
    fn number(&mut self, bytes: usize) -> Result<u64, Answer> {
        let field = self.file.get(self.at..self.at + bytes).ok_or(refuse(6, self.at))?;
        self.at += bytes;
        Ok(field.iter().fold(0, |n, b| n << 8 | *b as u64))
    }

    /// A number that has to lie in a range, or a refusal at its offset.
    fn count(&mut self, bytes: usize, range: std::ops::RangeInclusive<u64>, refusal: u8) -> Result<u64, Answer> {
        let at = self.at;
        let n = self.number(bytes)?;
        if range.contains(&n) { Ok(n) } else { Err(refuse(refusal, at)) }
    }

    fn working(&mut self) -> Result<(), Answer> {
        let letter = self.at;
        match self.number(1)? as u8 {
            b'U' | b'T' => Ok(()),
            b'L' | b'R' => {
                let at = self.at;
                let k = self.number(1)? as u8;
                let a = self.number(2)? as u16;
                weight(a, k).map(|_| ()).ok_or(refuse(1, at))
            }
            _ => Err(refuse(11, letter)),
        }
    }
}

pub struct File {
    pub allowance: u16,
    pub name: usize,
    pub points: Vec<Planar>,
    pub workings: usize,
}

fn read(file: &[u8]) -> Result<File, Answer> {
    if file.len() > 65_535 {
        return Err(refuse(12, 0));
    }
    let mut f = Fields { file, at: 0 };
    f.count(2, 3..=3, 5)?;
    f.count(1, 2..=2, 5)?;
    let allowance = f.number(2)? as u16;
    let name = f.count(2, 0..=64, 12)? as usize;
    if file.len() < f.at + name {
        return Err(refuse(6, f.at));
    }
    f.at += name;
    let mut points = vec![];
    for _ in 0..f.count(2, 2..=17, 3)? {
        let x = f.number(4)? as u32 as i32;
        let y = f.number(4)? as u32 as i32;
        points.push(Planar { x, y });
    }
    let workings = f.count(2, 0..=256, 12)? as usize;
    for _ in 0..workings {
        f.working()?;
    }
    if f.at < file.len() {
        return Err(refuse(7, f.at));
    }
    Ok(File { allowance, name, points, workings })
}

pub fn open(file: &[u8], buffer: &mut [Planar]) -> FileAnswer {
    let refused = |f| FileAnswer { answer: f, ..Default::default() };
    match read(file) {
        Err(f) => refused(f),
        Ok(f) if buffer.len() < f.points.len() => refused(refuse(2, f.points.len())),
        Ok(f) => {
            buffer[..f.points.len()].copy_from_slice(&f.points);
            FileAnswer {
                answer: accept(0),
                allowance: f.allowance,
                name: f.name as u16,
                points: f.points.len() as u16,
                workings: f.workings as u16,
            }
        }
    }
}
