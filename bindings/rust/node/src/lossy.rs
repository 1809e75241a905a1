//! A road for tests: each message is lost, sent twice, kept back after the next one, or late, as the words of a seed
//! say.
use crate::fault::Fault;
use crate::road::{Arrived, Road};
use std::cmp::Reverse;
use std::collections::BinaryHeap;
use std::collections::binary_heap::PeekMut;
use std::str::FromStr;
use std::time::{Duration, Instant};

/// What a road does to messages. It is parsed from `SEED,LOSS,REPEATS,REORDER,DELAY`: three percentages, and
/// milliseconds.
#[derive(Clone, Copy, Debug, PartialEq)]
pub struct Losses {
    seed: u64,
    loss: f64,
    repeats: f64,
    reorder: f64,
    /// In the mean, in seconds.
    delay: f64,
}

impl FromStr for Losses {
    type Err = Fault;

    fn from_str(text: &str) -> Result<Self, Fault> {
        let numbers: Vec<f64> = text.split(',').map(str::parse).collect::<Result<_, _>>().unwrap_or_default();
        let [seed, loss, repeats, reorder, delay] = numbers[..] else {
            return Err(Fault::Config("losses are five numbers".to_string()));
        };
        if !numbers.iter().all(|it| (0.0..1e9).contains(it)) {
            return Err(Fault::Config("losses are numbers from 0 to below 10^9".to_string()));
        }
        let [loss, repeats, reorder] = [loss, repeats, reorder].map(|it| it / 100.0);
        Ok(Self { seed: seed as u64, loss, repeats, reorder, delay: delay / 1000.0 })
    }
}

/// Marsaglia's xorshift of 64 bits.
struct Words(u64);

impl Words {
    /// A number from 0 to below 1.
    fn next(&mut self) -> f64 {
        self.0 ^= self.0 << 13;
        self.0 ^= self.0 >> 7;
        self.0 ^= self.0 << 17;
        (self.0 >> 11) as f64 / (1u64 << 53) as f64
    }
}

/// A message that is late: when it is due, its number, its receiver.
type Late = Reverse<(Instant, u64, u8, Vec<u8>)>;

/// The road around another one.
pub struct LossyRoad {
    road: Box<dyn Road>,
    losses: Losses,
    words: Words,
    kept: Vec<Option<Vec<u8>>>,
    late: BinaryHeap<Late>,
    count: u64,
}

impl LossyRoad {
    pub fn new(road: Box<dyn Road>, losses: Losses, me: u8) -> Self {
        let seed = losses.seed.wrapping_mul(1000).wrapping_add(me.into()).wrapping_mul(0x9e37_79b9_7f4a_7c15) | 1;
        Self { road, losses, words: Words(seed), kept: vec![None; 64], late: BinaryHeap::new(), count: 0 }
    }

    fn go(&mut self, to: u8, message: Vec<u8>) {
        if self.losses.delay == 0.0 {
            self.road.send(to, &message);
            return;
        }
        let late = -(1.0 - self.words.next()).ln() * self.losses.delay;
        self.count += 1;
        self.late.push(Reverse((Instant::now() + Duration::from_secs_f64(late), self.count, to, message)));
    }
}

impl Road for LossyRoad {
    fn most_bytes(&self) -> usize {
        self.road.most_bytes()
    }

    fn send(&mut self, to: u8, message: &[u8]) {
        if self.words.next() < self.losses.loss {
            return;
        }
        let copies = if self.words.next() < self.losses.repeats { 2 } else { 1 };
        for _ in 0..copies {
            let is_kept = self.words.next() < self.losses.reorder;
            let place = &mut self.kept[usize::from(to)];
            if is_kept && place.is_none() {
                *place = Some(message.to_vec());
                continue;
            }
            let kept = place.take();
            self.go(to, message.to_vec());
            if let Some(earlier) = kept {
                self.go(to, earlier);
            }
        }
    }

    fn receive(&mut self, wait: Option<Duration>, into: &mut Vec<Arrived>) -> Result<bool, Fault> {
        self.road.receive(wait, into)
    }

    fn pump(&mut self, now: Instant) -> Option<Instant> {
        while let Some(late) = self.late.peek_mut() {
            if late.0.0 > now {
                return Some(late.0.0);
            }
            let Reverse((_, _, to, message)) = PeekMut::pop(late);
            self.road.send(to, &message);
        }
        None
    }
}

#[cfg(test)]
mod tests {
    use super::*;

    #[test]
    fn losses_are_five_numbers() {
        let losses: Losses = "7,20,10,20,1".parse().expect("losses");
        assert_eq!(losses, Losses { seed: 7, loss: 0.2, repeats: 0.1, reorder: 0.2, delay: 0.001 });
        for text in ["", "1,2,3,4", "1,2,3,4,5,6", "1,2,3,4,x", "1,-2,3,4,5", "1,2,3,4,inf", "NaN,2,3,4,5"] {
            assert!(text.parse::<Losses>().is_err(), "{text}");
        }
    }
}
