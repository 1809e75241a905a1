//! Measures one node of a cluster: `measure ME CONFIG LOG KIND COUNT AT`.
//!
//! At the second AT since 1970 the node begins to call COUNT operations of this kind (read, write, swap, cas), one
//! after another, and prints how many seconds all of them took, and the median and the 99th percentile of one, in
//! nanoseconds. With the count 0 it answers the others alone. It goes on until its input ends.
use std::error::Error;
use std::io::{self, Read, Write};
use std::thread;
use std::time::{Duration, Instant, SystemTime, UNIX_EPOCH};
use tellwydar::{Front, Linear, LocalRead, LocalWrite, Op};
use tellwydar_node::{Config, FrontEnd, Node, Options};

/// What is measured.
struct Work {
    kind: String,
    count: u64,
    at: Duration,
}

impl Work {
    fn op(&self, number: u64) -> Result<Op, String> {
        match self.kind.as_str() {
            "read" => Ok(Op::Read { register: 0 }),
            "write" => Ok(Op::Write { register: 0, value: number + 1 }),
            "swap" => Ok(Op::Swap { register: 0, value: number + 1 }),
            "cas" => Ok(Op::CompareAndSwap { register: 0, expected: number, value: number + 1 }),
            other => Err(format!("{other}: no kind of operation")),
        }
    }
}

fn measure<F: Front>(config: &Config, options: &Options, work: &Work) -> Result<(), Box<dyn Error>> {
    let mut node = Node::<F>::open(config, options)?;
    let mut bell = node.bell()?;
    thread::spawn(move || io::stdin().read_to_end(&mut Vec::new()).and_then(|_| bell.write_all(&[0])));
    let start = Instant::now() + work.at.saturating_sub(SystemTime::now().duration_since(UNIX_EPOCH)?);
    while Instant::now() < start {
        node.serve(Some(start))?;
    }
    let mut times = Vec::with_capacity(work.count as usize);
    let mut before = Instant::now();
    for number in 0..work.count {
        node.perform(work.op(number)?, None)?;
        let now = Instant::now();
        times.push(now - before);
        before = now;
    }
    times.sort_unstable();
    if let (Some(median), Some(late)) = (times.get(times.len() / 2), times.get(times.len() * 99 / 100)) {
        println!("{:.6} {} {}", (before - start).as_secs_f64(), median.as_nanos(), late.as_nanos());
    }
    while !node.serve(None)? {}
    Ok(())
}

fn main() -> Result<(), Box<dyn Error>> {
    let words: Vec<String> = std::env::args().skip(1).collect();
    let [me, config, log, kind, count, at] = &words[..] else {
        return Err("usage: measure ME CONFIG LOG KIND COUNT AT".into());
    };
    let config: Config = std::fs::read_to_string(config)?.parse()?;
    let options = Options::new(me.parse()?, log);
    let work = Work { kind: kind.clone(), count: count.parse()?, at: Duration::from_secs_f64(at.parse()?) };
    match config.front {
        FrontEnd::Linear => measure::<Linear>(&config, &options, &work),
        FrontEnd::LocalRead => measure::<LocalRead>(&config, &options, &work),
        FrontEnd::LocalWrite => measure::<LocalWrite>(&config, &options, &work),
    }
}
