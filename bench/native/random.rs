//! A small deterministic generator (splitmix64), and the inputs that are tried: sound ones, extreme ones and damaged ones.

use crate::kernel::Planar;

pub struct Random(pub u64);

impl Random {
    pub fn next(&mut self) -> u64 {
        self.0 = self.0.wrapping_add(0x9e37_79b9_7f4a_7c15);
        let z = (self.0 ^ (self.0 >> 30)).wrapping_mul(0xbf58_476d_1ce4_e5b9);
        let z = (z ^ (z >> 27)).wrapping_mul(0x94d0_49bb_1331_11eb);
        z ^ (z >> 31)
    }

    /// 0 to n − 1.
    pub fn below(&mut self, n: u64) -> u64 {
        self.next() % n
    }

    pub fn one_in(&mut self, n: u64) -> bool {
        self.below(n) == 0
    }

    /// An axis value: within a range, near an end of the axis range, or anything.
    pub fn value(&mut self, range: i32) -> i32 {
        let any = self.next();
        match range {
            0 => any as i32,
            1 => [i32::MIN, i32::MIN + 1, -1, 0, 1, i32::MAX - 1, i32::MAX][(any % 7) as usize],
            r => (any % (2 * r as u64 + 1)) as i32 - r,
        }
    }

    pub fn points(&mut self, count: usize) -> Vec<Planar> {
        let range = [0, 0, 1, 4, 100, 4000, 1_000_000][self.below(7) as usize];
        (0..count).map(|_| Planar { x: self.value(range), y: self.value(range) }).collect()
    }

    /// Mostly 2 to 17, and one in ten off that.
    pub fn size(&mut self) -> usize {
        if self.one_in(10) { [0, 1, 18, 19, 40][self.below(5) as usize] } else { 2 + self.below(16) as usize }
    }

    /// k and a of a parameter; one in ten is none.
    pub fn parameter(&mut self) -> (u16, u8) {
        if self.one_in(10) {
            return (self.next() as u16, self.below(40) as u8);
        }
        let k = self.below(16) as u8;
        let a = match self.below(8) {
            0 => 0,
            1 => 1u64 << k,
            2 => (1 << k) + 1,
            _ => self.below((1 << k) + 1),
        };
        (a as u16, k)
    }

    /// The bytes of a planar path file.
    pub fn file(&mut self) -> Vec<u8> {
        let mut file = vec![0, 3, 2];
        file.extend((self.next() as u16).to_be_bytes());
        let name = self.below(65) as u16;
        file.extend(name.to_be_bytes());
        file.extend((0..name).map(|_| self.next() as u8));
        let points = 2 + self.below(16) as u16;
        file.extend(points.to_be_bytes());
        for p in self.points(points as usize) {
            file.extend(p.x.to_be_bytes());
            file.extend(p.y.to_be_bytes());
        }
        let most = if self.one_in(20) { 257 } else { 9 };
        let workings = self.below(most) as u16;
        file.extend(workings.to_be_bytes());
        for _ in 0..workings {
            self.working(&mut file);
        }
        file
    }

    fn working(&mut self, file: &mut Vec<u8>) {
        let letter = b"LRUT"[self.below(4) as usize];
        file.push(letter);
        if letter == b'L' || letter == b'R' {
            let k = self.below(16) as u8;
            file.push(k);
            file.extend((self.below((1 << k) + 1) as u16).to_be_bytes());
        }
    }

    /// A file that is sound, cut, too long, changed in a byte or in some, or no file at all.
    pub fn damaged_file(&mut self) -> Vec<u8> {
        let mut file = self.file();
        match self.below(16) {
            0..4 => {}
            4..7 => file.truncate(self.below(file.len() as u64) as usize),
            7 => file.extend((0..=self.below(9)).map(|b| b as u8)),
            8..11 => self.change(&mut file, 1),
            11..13 => self.change(&mut file, 4),
            13 => self.change_count(&mut file),
            14 => file = (0..self.below(99)).map(|_| self.next() as u8).collect(),
            _ if self.one_in(50) => file.resize(65_530 + self.below(12) as usize, 0),
            _ => file[2] = self.below(5) as u8,
        }
        file
    }

    fn change(&mut self, file: &mut [u8], times: u64) {
        for _ in 0..times {
            let at = self.below(file.len() as u64) as usize;
            file[at] = if self.one_in(2) { self.next() as u8 } else { file[at].wrapping_add(1) };
        }
    }

    /// Another number of name bytes, of points or of workings, a little over what is allowed or far over it.
    fn change_count(&mut self, file: &mut [u8]) {
        let name = file[6] as usize;
        let points = file[8 + name] as usize;
        let at = [5, 7 + name, 9 + name + 8 * points][self.below(3) as usize];
        let count = [0, 1, 17, 18, 64, 65, 256, 257, 65_535][self.below(9) as usize] as u16;
        file[at..at + 2].copy_from_slice(&count.to_be_bytes());
    }
}
