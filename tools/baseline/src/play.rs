use crate::base::MAX_PROCESSES;
use crate::workload::Workload;
use crate::world::{Event, World};

pub struct Play {
    pub world: World,
    pub finished: bool,
}

/// PCG32 (Lcg64Xsh32), seeded as rand_core's default `seed_from_u64`.
pub struct SeedWords {
    state: u64,
    increment: u64,
}

fn xsh_rr(state: u64) -> u32 {
    ((((state >> 18) ^ state) >> 27) as u32).rotate_right((state >> 59) as u32)
}

const MULTIPLIER: u64 = 6364136223846793005;

impl SeedWords {
    pub fn new(seed: u64) -> SeedWords {
        let mut s = seed;
        let mut word = || {
            s = s.wrapping_mul(0x5851_F42D_4C95_7F2D).wrapping_add(0xA176_54E4_6FBE_17F3);
            xsh_rr(s) as u64
        };
        let state = word() | word() << 32;
        let increment = (word() | word() << 32) | 1;
        SeedWords { state: state.wrapping_add(increment).wrapping_mul(MULTIPLIER).wrapping_add(increment), increment }
    }
    pub fn word(&mut self) -> u32 {
        let word = xsh_rr(self.state);
        self.state = self.state.wrapping_mul(MULTIPLIER).wrapping_add(self.increment);
        word
    }
}

struct Player<'a> {
    w: &'a Workload,
    world: World,
    n: usize,
    next: Vec<usize>,
    cursor: Vec<u32>,
}

impl<'a> Player<'a> {
    fn new(w: &'a Workload) -> Player<'a> {
        let n = w.shape.processes;
        Player { w, world: World::new(w.front, w.shape), n, next: vec![0; n], cursor: vec![0; n * n] }
    }
    fn can_call(&self, p: usize) -> bool {
        !self.world.process(p).busy() && self.next[p] < self.w.scripts[p].len()
    }
    fn can_take(&self, from: usize, to: usize) -> bool {
        (self.cursor[from * self.n + to] as usize) < self.world.wire_len(from, to)
    }
    fn call(&mut self, p: usize) {
        let op = self.w.scripts[p][self.next[p]];
        self.next[p] += 1;
        self.world.step(&Event::Call { process: p as u8, op }).expect("a call of a free process");
    }
    fn take(&mut self, from: usize, to: usize) {
        let number = self.cursor[from * self.n + to];
        let event = Event::Take { from: from as u8, to: to as u8, number };
        self.world.step(&event).expect("a take of a frame on its wire");
    }
    fn end(self) -> Play {
        let finished = (0..self.n).all(|p| self.next[p] == self.w.scripts[p].len() && !self.world.process(p).busy());
        Play { world: self.world, finished }
    }
}

pub fn play_fair(w: &Workload) -> Play {
    let mut p = Player::new(w);
    let full = |p: &Player| p.world.events() >= w.budget;
    loop {
        let before = p.world.events();
        for q in 0..p.n {
            if p.can_call(q) {
                if full(&p) {
                    return p.end();
                }
                p.call(q);
            }
        }
        for from in 0..p.n {
            for to in 0..p.n {
                if from != to && p.can_take(from, to) {
                    if full(&p) {
                        return p.end();
                    }
                    p.take(from, to);
                    p.cursor[from * p.n + to] += 1;
                }
            }
        }
        if p.world.events() == before {
            return p.end();
        }
    }
}

fn nth_bit(mut mask: u64, k: u32) -> usize {
    for _ in 0..k {
        mask &= mask - 1;
    }
    mask.trailing_zeros() as usize
}

fn set(mask: &mut u64, bit: usize, on: bool) {
    *mask = *mask & !(1 << bit) | (on as u64) << bit;
}

/// The choices are kept as bits, and only those of the process that made an event are looked at again.
pub fn play_seeded(w: &Workload, mut words: SeedWords) -> Play {
    let mut p = Player::new(w);
    let n = p.n;
    let (mut calls, mut ticks) = (0u64, 0u64);
    let mut takes = [0u64; MAX_PROCESSES];
    for q in 0..n {
        set(&mut calls, q, p.can_call(q));
    }
    for _ in 0..w.budget {
        let frames: u32 = takes[..n].iter().map(|m| m.count_ones()).sum();
        let choices = calls.count_ones() + frames + ticks.count_ones();
        if choices == 0 {
            break;
        }
        let mut k = words.word() % choices;
        let changed;
        if k < calls.count_ones() {
            changed = nth_bit(calls, k);
            p.call(changed);
        } else {
            k -= calls.count_ones();
            if k < frames {
                let mut from = 0;
                while k >= takes[from].count_ones() {
                    k -= takes[from].count_ones();
                    from += 1;
                }
                let to = nth_bit(takes[from], k);
                if words.word() % 100 < w.loss {
                    p.cursor[from * n + to] += 1;
                    set(&mut takes[from], to, p.can_take(from, to));
                    continue;
                }
                p.take(from, to);
                if words.word() % 100 >= w.repeat {
                    p.cursor[from * n + to] += 1;
                }
                set(&mut takes[from], to, p.can_take(from, to));
                changed = to;
            } else {
                changed = nth_bit(ticks, k - frames);
                p.world.step(&Event::Tick { process: changed as u8 }).expect("a tick");
            }
        }
        set(&mut calls, changed, p.can_call(changed));
        set(&mut ticks, changed, p.world.process(changed).has_pending());
        for to in (0..n).filter(|&to| to != changed) {
            set(&mut takes[changed], to, p.can_take(changed, to));
        }
    }
    p.end()
}
