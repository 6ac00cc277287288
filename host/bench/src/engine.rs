//! A session in plain Rust, written for speed: for each type and each end the slack of both bounds is kept up to
//! date, and a trail of changed masks leads back. A back undoes the trail entry by entry.

use crate::bounds::{Bounds, Closing};

/// The slots, or the ends 1 to n: end t stands at t - 1.
const SLOTS: usize = 256;
const MARKS: usize = 256;

/// A set of slots.
type Slots = [u64; SLOTS / 64];

/// The ends of a type's corners, of one kind, from the last to the first.
type Corners = Vec<usize>;

pub struct Engine {
    n: usize,
    k: usize,
    masks: [u32; SLOTS],
    /// For each type the slots that have it and are not fixed.
    open: [Slots; 32],
    /// For each type and end, P - lower.
    spare: [[i16; SLOTS]; 32],
    /// For each type and end, upper - B.
    room: [[i16; SLOTS]; 32],
    /// The types that have an end with no spare, or with no room, since it was last looked at.
    spent: u32,
    full: u32,
    /// A slack is below 0, or a mask is empty.
    broken: bool,
    /// Each changed slot with its mask before.
    trail: Vec<(u16, u32)>,
    /// The length of the trail at each open mark.
    marks: Vec<usize>,
    dead: bool,
    /// How many types were struck from masks so far.
    struck: u32,
    upper_corners: Vec<Corners>,
    lower_corners: Vec<Corners>,
}

/// Makes the calls into words and masks, with the answers of `nested_gcc_session` on a book without an idle
/// type.
pub fn session_into(
    closing: Closing,
    book: &[u8],
    calls: &[u8],
    answers: &mut [u8],
    masks: &mut [u8],
) -> u32 {
    let bounds = match closing(book) {
        Ok(bounds) => bounds,
        Err(number) => return 256 + number,
    };
    if !calls.len().is_multiple_of(4) || calls.len() > 16384 {
        return 256 + 10;
    }
    let n = usize::from(u16::from_le_bytes([book[0], book[1]]));
    if answers.len() / 4 < calls.len() / 2 || masks.len() / 4 < n {
        return 256 + 9;
    }
    let mut engine = Engine::open(book, n, bounds);
    let opened_dead = engine.dead;
    for (call, answer) in calls.chunks_exact(4).zip(answers.chunks_exact_mut(8)) {
        let [first, second] = engine.call([call[0], call[1], call[2], call[3]]);
        answer[..4].copy_from_slice(&first.to_le_bytes());
        answer[4..].copy_from_slice(&second.to_le_bytes());
    }
    for (mask, bytes) in engine.masks[..n].iter().zip(masks.chunks_exact_mut(4)) {
        bytes.copy_from_slice(&mask.to_le_bytes());
    }
    u32::from(opened_dead)
}

impl Engine {
    pub fn masks(&self) -> &[u32] {
        &self.masks[..self.n]
    }

    pub fn open(book: &[u8], n: usize, bounds: Option<Bounds>) -> Box<Engine> {
        let mut engine = Box::new(Engine {
            n,
            k: usize::from(book[2]),
            masks: [0; SLOTS],
            open: [[0; SLOTS / 64]; 32],
            spare: [[0; SLOTS]; 32],
            room: [[0; SLOTS]; 32],
            spent: 0,
            full: 0,
            broken: false,
            trail: Vec::with_capacity(8192),
            marks: Vec::with_capacity(MARKS),
            dead: true,
            struck: 0,
            upper_corners: Vec::new(),
            lower_corners: Vec::new(),
        });
        if let Some(bounds) = bounds {
            for (mask, bytes) in engine.masks.iter_mut().zip(book[12..12 + 4 * n].chunks_exact(4)) {
                *mask = u32::from_le_bytes([bytes[0], bytes[1], bytes[2], bytes[3]]);
            }
            (0..engine.k).for_each(|v| engine.open_type(v, bounds.lowers(v), bounds.uppers(v)));
            engine.dead = !engine.settle();
        }
        if engine.dead {
            engine.masks = [0; SLOTS];
            engine.upper_corners = vec![Corners::new(); engine.k];
            engine.lower_corners = vec![Corners::new(); engine.k];
        }
        engine.trail.clear();
        engine
    }

    /// Counts the type along its line, and notes its corners.
    fn open_type(&mut self, v: usize, lowers: &[u16], uppers: &[u16]) {
        let (mut p, mut b) = (0, 0);
        for s in 0..self.n {
            let (has, fixed) = (self.masks[s] >> v & 1 == 1, self.masks[s] == 1 << v);
            p += i16::from(has);
            b += i16::from(fixed);
            self.open[v][s / 64] |= u64::from(has && !fixed) << (s % 64);
            self.spare[v][s] = p - lowers[s + 1] as i16;
            self.room[v][s] = uppers[s + 1] as i16 - b;
        }
        self.look(v);
        let n = self.n;
        let upper = |&t: &usize| uppers[t] == uppers[t - 1] && (t == n || uppers[t + 1] > uppers[t]);
        let lower = |&t: &usize| lowers[t] > lowers[t - 1] && (t == n || lowers[t + 1] == lowers[t]);
        self.upper_corners.push((1..=n).rev().filter(upper).collect());
        self.lower_corners.push((1..=n).rev().filter(lower).collect());
    }

    /// Notes what the slacks of the type ask for.
    fn look(&mut self, v: usize) {
        let spare = self.spare[v][..self.n].iter().min().copied().unwrap_or(1);
        let room = self.room[v][..self.n].iter().min().copied().unwrap_or(1);
        self.broken |= spare < 0 || room < 0;
        self.spent |= u32::from(spare == 0) << v;
        self.full |= u32::from(room == 0) << v;
    }

    /// Cuts what full and spent ends ask for, until there is none; whether a stable list is left.
    fn settle(&mut self) -> bool {
        while !self.broken && self.spent | self.full != 0 {
            if self.spent != 0 {
                let v = self.spent.trailing_zeros() as usize;
                self.spent &= self.spent - 1;
                let end = last_zero(&self.spare[v][..self.n]);
                self.each_open(v, end, |_| 1 << v);
            } else {
                let v = self.full.trailing_zeros() as usize;
                self.full &= self.full - 1;
                let end = last_zero(&self.room[v][..self.n]);
                self.each_open(v, end, |mask| mask & !(1 << v));
            }
        }
        !self.broken
    }

    /// Cuts each slot before the end that has v and is not fixed.
    fn each_open(&mut self, v: usize, end: usize, cut: impl Fn(u32) -> u32) {
        for word in 0..end.div_ceil(64) {
            let mut slots = self.open[v][word];
            if end < 64 * (word + 1) {
                slots &= (1 << (end % 64)) - 1;
            }
            while slots != 0 {
                let s = 64 * word + slots.trailing_zeros() as usize;
                slots &= slots - 1;
                self.change(s, cut(self.masks[s]));
            }
        }
    }

    /// Cuts the slot's mask and brings the slacks up to date.
    fn change(&mut self, s: usize, mask: u32) {
        let before = self.masks[s];
        self.trail.push((s as u16, before));
        self.masks[s] = mask;
        self.broken |= mask == 0;
        let mut lost = before & !mask;
        self.struck += lost.count_ones();
        while lost != 0 {
            let v = lost.trailing_zeros() as usize;
            lost &= lost - 1;
            self.open[v][s / 64] &= !(1 << (s % 64));
            let least = less_one(&mut self.spare[v][s..self.n]);
            self.broken |= least < 0;
            self.spent |= u32::from(least == 0) << v;
        }
        if before.is_power_of_two() {
            more_one(&mut self.room[before.trailing_zeros() as usize][s..self.n]);
        }
        if mask.is_power_of_two() {
            let v = mask.trailing_zeros() as usize;
            self.open[v][s / 64] &= !(1 << (s % 64));
            let least = less_one(&mut self.room[v][s..self.n]);
            self.broken |= least < 0;
            self.full |= u32::from(least == 0) << v;
        }
    }

    /// Undoes the trail down to this length.
    fn undo(&mut self, length: usize) {
        while self.trail.len() > length {
            let (s, before) = self.trail.pop().expect("the trail is longer");
            let s = usize::from(s);
            let mask = self.masks[s];
            self.masks[s] = before;
            let single = before.is_power_of_two();
            let mut lost = before & !mask;
            while lost != 0 {
                let v = lost.trailing_zeros() as usize;
                lost &= lost - 1;
                self.open[v][s / 64] |= u64::from(!single) << (s % 64);
                more_one(&mut self.spare[v][s..self.n]);
            }
            if mask.is_power_of_two() {
                let v = mask.trailing_zeros() as usize;
                self.open[v][s / 64] |= u64::from(!single) << (s % 64);
                more_one(&mut self.room[v][s..self.n]);
            }
            if single {
                less_one(&mut self.room[before.trailing_zeros() as usize][s..self.n]);
            }
        }
    }

    pub fn call(&mut self, [kind, board_type, low, high]: [u8; 4]) -> [u32; 2] {
        let (v, s) = (usize::from(board_type), usize::from(u16::from_le_bytes([low, high])));
        match kind {
            1 | 2 | 5 if s >= self.n => [256 + 12, 0],
            1 | 2 | 6 | 7 if v >= self.k => [256 + 13, 0],
            1..=3 if self.dead => [256 + 15, 0],
            1 => self.decide(s, self.masks[s] & 1 << v),
            2 => self.decide(s, self.masks[s] & !(1 << v)),
            3 if self.marks.len() == MARKS => [256 + 16, 0],
            3 => {
                self.marks.push(self.trail.len());
                [3, 0]
            }
            4 => match self.marks.pop() {
                None => [256 + 14, 0],
                Some(length) => {
                    self.undo(length);
                    self.dead = false;
                    [3, 0]
                }
            },
            5 => [2, self.masks[s]],
            6 => [2, walls(&self.upper_corners[v], &self.room[v])],
            7 => [2, walls(&self.lower_corners[v], &self.spare[v])],
            _ => [256 + 11, 0],
        }
    }

    fn decide(&mut self, s: usize, mask: u32) -> [u32; 2] {
        let (length, struck) = (self.trail.len(), self.struck);
        if mask != self.masks[s] {
            self.change(s, mask);
        }
        if self.settle() {
            [0, self.struck - struck]
        } else {
            self.undo(length);
            (self.spent, self.full, self.broken) = (0, 0, false);
            self.dead = true;
            [1, 0]
        }
    }
}

/// The last end with slack 0.
fn last_zero(slacks: &[i16]) -> usize {
    slacks.iter().rposition(|&slack| slack == 0).map_or(0, |at| at + 1)
}

/// Takes one from each; the least that is left.
fn less_one(slacks: &mut [i16]) -> i16 {
    let mut least = i16::MAX;
    for slack in slacks {
        *slack -= 1;
        least = least.min(*slack);
    }
    least
}

fn more_one(slacks: &mut [i16]) {
    for slack in slacks {
        *slack += 1;
    }
}

/// How many of the corners have a slack above 0 and below that of every later one.
fn walls(corners: &Corners, slacks: &[i16; SLOTS]) -> u32 {
    let (mut count, mut least) = (0, i16::MAX);
    for t in corners {
        let slack = slacks[t - 1];
        count += u32::from(slack > 0 && slack < least);
        least = least.min(slack);
    }
    count
}
