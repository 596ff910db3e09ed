//! Each call of the kernel on the same random inputs as the rules: answers and whole buffers.

use crate::kernel::{self, Answer, Planar};
use crate::random::Random;
use crate::{plain, rules};

/// What came of one call: how many inputs were answered how (0: accepted, 1 to 12: refused), and how many differ.
pub struct Tally {
    pub call: &'static str,
    pub by_refusal: [u64; 13],
    pub differences: u64,
}

impl Tally {
    pub fn inputs(&self) -> u64 {
        self.by_refusal.iter().sum()
    }

    fn note(&mut self, answer: Answer, same: bool, input: &dyn std::fmt::Debug) {
        self.by_refusal[answer.refusal as usize % 13] += 1;
        if !same {
            self.differences += 1;
            if self.differences <= 3 {
                eprintln!("{} differs at {input:?}", self.call);
            }
        }
    }
}

fn tally(call: &'static str, inputs: u64, mut one: impl FnMut(&mut Tally)) -> Tally {
    let mut tally = Tally { call, by_refusal: [0; 13], differences: 0 };
    for _ in 0..inputs {
        one(&mut tally);
    }
    tally
}

pub fn points(random: &mut Random, inputs: u64) -> Tally {
    tally("point", inputs, |t| {
        let size = random.size();
        let polygon = random.points(size);
        let (allowance, (a, k)) = (random.next() as u16, random.parameter());
        let places = if random.one_in(8) { random.below(20) as usize } else { size + random.below(4) as usize };
        let found = random.points(places);
        let (mut ours, mut theirs, mut fast) = (found.clone(), found.clone(), found.clone());
        let got = kernel::point(&polygon, allowance, a, k, &mut ours);
        let wanted = rules::point(&polygon, allowance, a, k, &mut theirs);
        let quick = plain::point(&polygon, allowance, a, k, &mut fast);
        let same = (got, &ours) == (wanted, &theirs) && (quick, &fast) == (wanted, &theirs);
        t.note(got.answer, same, &(&polygon, allowance, a, k, &found));
    })
}

pub fn lefts(random: &mut Random, inputs: u64) -> Tally {
    tally("left", inputs, |t| {
        let size = random.size();
        let found = random.points(size);
        let (a, k) = random.parameter();
        let (mut ours, mut theirs, mut fast) = (found.clone(), found.clone(), found.clone());
        let got = kernel::left(&mut ours, a, k);
        let wanted = rules::left(&mut theirs, a, k);
        let quick = plain::left(&mut fast, a, k);
        let same = (got, &ours) == (wanted, &theirs) && (quick, &fast) == (wanted, &theirs);
        t.note(got, same, &(&found, a, k));
    })
}

pub fn rights(random: &mut Random, inputs: u64) -> Tally {
    tally("right", inputs, |t| {
        let size = random.size();
        let found = random.points(size);
        let (a, k) = random.parameter();
        let (mut ours, mut theirs) = (found.clone(), found.clone());
        let got = kernel::right(&mut ours, a, k);
        let wanted = rules::right(&mut theirs, a, k);
        t.note(got, (got, &ours) == (wanted, &theirs), &(&found, a, k));
    })
}

pub fn raises(random: &mut Random, inputs: u64) -> Tally {
    tally("raise", inputs, |t| {
        let points = if random.one_in(50) { usize::MAX - random.below(2) as usize } else { random.size() };
        let places = random.below(22) as usize;
        let places = if random.one_in(4) { places } else { places.max(points.min(40) + 1) };
        let found = random.points(places);
        let (mut ours, mut theirs) = (found.clone(), found.clone());
        let got = kernel::raise(&mut ours, points);
        let wanted = rules::raise(&mut theirs, points);
        t.note(got, (got, &ours) == (wanted, &theirs), &(&found, points));
    })
}

pub fn turns(random: &mut Random, inputs: u64) -> Tally {
    tally("turn", inputs, |t| {
        let size = random.size();
        let found = random.points(size);
        let (mut ours, mut theirs) = (found.clone(), found.clone());
        let got = kernel::turn(&mut ours);
        let wanted = rules::turn(&mut theirs);
        t.note(got, (got, &ours) == (wanted, &theirs), &found);
    })
}

/// A polygon and a tolerance: mostly some dozens of pieces, now and then thousands, or one that stays bent.
fn flattening(random: &mut Random) -> (Vec<Planar>, u16) {
    let size = if random.one_in(2) { 2 + random.below(4) as usize } else { random.size() };
    let wide = random.one_in(40);
    let range = if wide { 0 } else { [1, 8, 300, 4000, 60_000][random.below(5) as usize] };
    let polygon = (0..size).map(|_| Planar { x: random.value(range), y: random.value(range) }).collect();
    let tolerance = match random.below(12) {
        0 => 0,
        1 if wide => 20_000,
        1 => 1,
        2 => 65_535,
        _ => 2 + random.below(500),
    };
    (polygon, tolerance as u16)
}

/// Places past the needed ones of the working buffer stay; all of them if it is too short, or the polygon is none.
fn working_kept(before: &[Planar], after: &[Planar], size: usize) -> bool {
    let free = if before.len() < 221 || !(2..=17).contains(&size) { 0 } else { 221 };
    before[free..] == after[free..]
}

pub fn flattenings(random: &mut Random, inputs: u64) -> Tally {
    let filler = random.points(4100);
    tally("flatten", inputs, |t| {
        let (polygon, q) = flattening(random);
        let room = |random: &mut Random| if random.one_in(8) { random.below(70) as usize } else { 4097 + random.below(3) as usize };
        let (points, parameters) = (room(random), room(random));
        let working = if random.one_in(16) { random.below(221) as usize } else { 221 + random.below(9) as usize };
        let found = filler[..working].to_vec();
        let mut on = [0, 1, 2].map(|_| (found.clone(), filler[..points].to_vec(), vec![7u16; parameters]));
        let [ours, theirs, fast] = &mut on;
        let got = kernel::flatten(&polygon, random.next() as u16, q, &mut ours.0, &mut ours.1, &mut ours.2);
        let wanted = rules::flatten(&polygon, q, working, &mut theirs.1, &mut theirs.2);
        let quick = plain::flatten(&polygon, q, &mut fast.0, &mut fast.1, &mut fast.2);
        let same = |got, after: &(Vec<Planar>, Vec<Planar>, Vec<u16>)| {
            (got, &after.1, &after.2) == (wanted, &theirs.1, &theirs.2) && working_kept(&found, &after.0, polygon.len())
        };
        t.note(got, same(got, ours) && same(quick, fast), &(&polygon, q, working, points, parameters));
    })
}

pub fn openings(random: &mut Random, inputs: u64) -> Tally {
    tally("open", inputs, |t| {
        let file = random.damaged_file();
        let places = if random.one_in(8) { random.below(17) } else { 17 + random.below(3) } as usize;
        let found = random.points(places);
        let (mut ours, mut theirs) = (found.clone(), found.clone());
        let got = kernel::open(&file, &mut ours);
        let wanted = rules::open(&file, &mut theirs);
        t.note(got.answer, (got, &ours) == (wanted, &theirs), &(&file, &found));
    })
}
