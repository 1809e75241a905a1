use crate::base::*;
use crate::frames::{Body, Frame};
use std::collections::BTreeMap;

#[derive(Clone, Copy, PartialEq, Eq, Debug)]
pub enum Fault {
    Failed,
    NoProcess,
    Busy,
    NoRegister,
    TooManyOperations,
    Ahead,
    Stale,
    ClockFull,
}

#[derive(Clone, Copy, PartialEq, Eq, Debug)]
pub struct Reply {
    pub answer: Answer,
    pub place: u64,
    /// A finished read answered from the copy.
    pub from_copy: bool,
}

/// Where a step puts what it makes.
pub trait Sink {
    fn cast(&mut self, stamp: Stamp);
    fn got(&mut self, to: usize, count: u64);
    fn data(&mut self, to: usize, number: u64, body: &Body);
    fn delivered(&mut self, before: u64, stamp: Stamp, op: &Op);
}

#[derive(Clone, Copy, PartialEq, Eq, Debug)]
enum Running {
    Cast(u64),
    Held(u16),
}

/// All outboxes of a process queue the same bodies, so they share one list and keep a count each.
pub struct Process {
    front: Front,
    me: usize,
    n: usize,
    clock: u64,
    pub bodies: Vec<Body>,
    acked: [u64; MAX_PROCESSES],
    expected: [u64; MAX_PROCESSES],
    seen: [u64; MAX_PROCESSES],
    hold: BTreeMap<Stamp, Op>,
    registers: Vec<u64>,
    delivered: u64,
    unsettled: u32,
    calls: u32,
    running: Option<Running>,
    failed: bool,
}

impl Process {
    pub fn new(front: Front, shape: Shape, me: usize) -> Process {
        Process {
            front,
            me,
            n: shape.processes,
            clock: 0,
            bodies: Vec::new(),
            acked: [0; MAX_PROCESSES],
            expected: [0; MAX_PROCESSES],
            seen: [0; MAX_PROCESSES],
            hold: BTreeMap::new(),
            registers: vec![0; shape.registers],
            delivered: 0,
            unsettled: 0,
            calls: 0,
            running: None,
            failed: false,
        }
    }
    pub fn busy(&self) -> bool {
        self.running.is_some()
    }
    pub fn calls(&self) -> u32 {
        self.calls
    }
    pub fn clock(&self) -> u64 {
        self.clock
    }
    pub fn registers(&self) -> &[u64] {
        &self.registers
    }
    pub fn delivered_count(&self) -> u64 {
        self.delivered
    }
    pub fn expected(&self, from: usize) -> u64 {
        self.expected[from]
    }
    pub fn has_pending(&self) -> bool {
        let len = self.bodies.len() as u64;
        (0..self.n).any(|r| r != self.me && self.acked[r] < len)
    }
    pub fn pending_to(&self, r: usize) -> u64 {
        self.bodies.len() as u64 - self.acked[r]
    }
    pub fn held(&self) -> usize {
        self.hold.len()
    }
    pub fn stopped(&self) -> bool {
        self.failed
    }

    pub fn call<S: Sink>(&mut self, op: Op, sink: &mut S) -> Result<Option<Reply>, Fault> {
        if self.failed {
            return Err(Fault::Failed);
        }
        if self.busy() {
            return Err(Fault::Busy);
        }
        if op.register() as usize >= self.registers.len() {
            return Err(Fault::NoRegister);
        }
        if self.calls >= MAX_OPS {
            return Err(Fault::TooManyOperations);
        }
        let start = self.front.start(&op, self.unsettled);
        let before = self.delivered;
        match start {
            Start::Cast | Start::CastAndAnswer => {
                if self.clock >= MAX_TIME {
                    self.failed = true;
                    return Err(Fault::ClockFull);
                }
                self.calls += 1;
                self.clock += 1;
                let time = self.clock;
                let stamp = Stamp { time, process: self.me as u8 };
                self.hold.insert(stamp, op);
                self.unsettled += 1;
                sink.cast(stamp);
                let body = Body::Cast { time, op };
                let number = self.bodies.len() as u64;
                self.bodies.push(body);
                for r in (0..self.n).filter(|&r| r != self.me) {
                    sink.data(r, number, &body);
                }
                if start == Start::Cast {
                    self.running = Some(Running::Cast(time));
                    Ok(self.deliver(sink))
                } else {
                    self.deliver(sink);
                    Ok(Some(Reply { answer: Answer::Done, place: before, from_copy: false }))
                }
            }
            Start::Look => {
                self.calls += 1;
                let answer = Answer::Value(self.registers[op.register() as usize]);
                Ok(Some(Reply { answer, place: before, from_copy: true }))
            }
            Start::Hold => {
                self.calls += 1;
                self.running = Some(Running::Held(op.register()));
                Ok(None)
            }
        }
    }

    pub fn take<S: Sink>(&mut self, from: usize, frame: &Frame, sink: &mut S) -> Result<Option<Reply>, Fault> {
        if self.failed {
            return Err(Fault::Failed);
        }
        if from >= self.n || from == self.me {
            return Err(Fault::NoProcess);
        }
        match *frame {
            Frame::Got { count } => self.take_got(from, count).map(|_| None),
            Frame::Numbered { number, ref body } => self.take_data(from, number, body, sink),
        }
    }

    #[inline]
    pub fn take_got(&mut self, from: usize, count: u64) -> Result<(), Fault> {
        if count > self.bodies.len() as u64 {
            return Err(Fault::Ahead);
        }
        if count > self.acked[from] {
            self.acked[from] = count;
        }
        Ok(())
    }

    #[inline]
    pub fn take_data<S: Sink>(
        &mut self,
        from: usize,
        number: u64,
        body: &Body,
        sink: &mut S,
    ) -> Result<Option<Reply>, Fault> {
        let expected = self.expected[from];
        if number != expected {
            sink.got(from, expected);
            return Ok(None);
        }
        let time = match *body {
            Body::Cast { time, op } => {
                if op.register() as usize >= self.registers.len() {
                    return Err(Fault::NoRegister);
                }
                time
            }
            Body::Ack { time } => time,
        };
        if time <= self.seen[from] {
            return Err(Fault::Stale);
        }
        let clock = self.clock.max(time) + 1;
        if clock > MAX_TIME {
            self.failed = true;
            return Err(Fault::ClockFull);
        }
        self.clock = clock;
        self.seen[from] = time;
        self.expected[from] = expected + 1;
        if let Body::Cast { time, op } = *body {
            self.hold.insert(Stamp { time, process: from as u8 }, op);
            let ack = Body::Ack { time: clock };
            let number = self.bodies.len() as u64;
            self.bodies.push(ack);
            for r in 0..self.n {
                if r == self.me {
                    continue;
                }
                if r == from {
                    sink.got(r, expected + 1);
                }
                sink.data(r, number, &ack);
            }
        } else {
            sink.got(from, expected + 1);
        }
        Ok(self.deliver(sink))
    }

    pub fn tick<S: Sink>(&mut self, sink: &mut S) -> Result<(), Fault> {
        if self.failed {
            return Err(Fault::Failed);
        }
        let len = self.bodies.len() as u64;
        for r in 0..self.n {
            if r == self.me {
                continue;
            }
            let first = self.acked[r];
            for i in first..len.min(first + RESEND) {
                sink.data(r, i, &self.bodies[i as usize]);
            }
        }
        Ok(())
    }

    #[inline]
    fn deliver<S: Sink>(&mut self, sink: &mut S) -> Option<Reply> {
        if self.hold.is_empty() {
            return None;
        }
        // Nothing above the least (seen[r], r) is clear.
        let mut bound = Stamp { time: u64::MAX, process: u8::MAX };
        for r in (0..self.n).filter(|&r| r != self.me) {
            bound = bound.min(Stamp { time: self.seen[r], process: r as u8 });
        }
        let mut reply = None;
        while let Some(entry) = self.hold.first_entry() {
            if *entry.key() > bound {
                break;
            }
            let (stamp, op) = entry.remove_entry();
            let answer = apply(&mut self.registers, &op);
            sink.delivered(self.delivered, stamp, &op);
            if stamp.process as usize == self.me {
                self.unsettled -= 1;
                if self.running == Some(Running::Cast(stamp.time)) {
                    self.running = None;
                    reply = Some(Reply { answer, place: self.delivered, from_copy: false });
                }
            }
            self.delivered += 1;
            if self.unsettled == 0 {
                if let Some(Running::Held(register)) = self.running {
                    self.running = None;
                    let answer = Answer::Value(self.registers[register as usize]);
                    reply = Some(Reply { answer, place: self.delivered, from_copy: true });
                }
            }
        }
        reply
    }
}
