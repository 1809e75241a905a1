//! Processes: one process of a run, whose frames its owner carries.
use crate::foreign;
use crate::handles::Handle;
use crate::worlds::refused;
use crate::{Answer, Front, Op, Refused, Reply};
use std::marker::PhantomData;

/// Room for the frames of a step: 63 links, 16 frames each, of at most 40 bytes and one for the receiver.
pub(crate) const ROOM: usize = 63 * 16 * 41;

/// The frames of a step, in their order, each with its receiver.
#[derive(Clone, Debug)]
pub struct Frames<'a>(pub(crate) &'a [u8]);

impl<'a> Iterator for Frames<'a> {
    type Item = (u8, &'a [u8]);

    fn next(&mut self) -> Option<Self::Item> {
        let [to, high, low, ..] = *self.0 else { return None };
        let (first, rest) = self.0.split_at_checked(3 + usize::from(u16::from_be_bytes([high, low])))?;
        self.0 = rest;
        Some((to, &first[1..]))
    }
}

/// Calls one of two functions with the numbers of an operation; the second takes a compare-and-swap.
pub(crate) fn with_numbers(
    op: Op,
    call: impl FnOnce(u32, u32, u64) -> u32,
    compare_and_swap: impl FnOnce(u32, u64, u64) -> u32,
) -> u32 {
    match op {
        Op::Read { register } => call(0, register.into(), 0),
        Op::Write { register, value } => call(1, register.into(), value),
        Op::Swap { register, value } => call(2, register.into(), value),
        Op::CompareAndSwap { register, expected, value } => compare_and_swap(register.into(), expected, value),
    }
}

/// The reply that a number says, whose value and place are looked up, or why there is none.
pub(crate) fn reply_of(code: u32, look: impl Fn(u32) -> u64) -> Result<Option<Reply>, Refused> {
    let answer = match code {
        0 => return Ok(None),
        1 => Answer::Done,
        2 => Answer::Value(look(6)),
        3 => Answer::Unequal,
        code => return Err(refused(code)),
    };
    Ok(Some(Reply { answer, place: look(7) }))
}

/// What a process knows of another one.
#[derive(Clone, Copy, Debug, PartialEq, Eq)]
pub struct Known {
    /// The number of the first body to it that it hasn't acknowledged.
    pub first: u64,
    /// The number of the next body to it.
    pub next: u64,
    /// The number of the next body from it.
    pub expected: u64,
    /// The time of the last body that was accepted from it.
    pub seen: u64,
}

/// One process of a run, whose frames its owner carries: whatever is lost, repeated or
/// reordered. It stays on its thread.
///
/// ```
/// use tellwydar::{Answer, Linear, Op, Process};
///
/// let (mut writer, mut other) = (Process::<Linear>::new(2, 1, 0)?, Process::<Linear>::new(2, 1, 1)?);
/// writer.call(Op::Write { register: 0, value: 5 })?;
/// for (_, frame) in writer.frames()? {
///     other.take(0, &frame)?;
/// }
/// let mut answers = Vec::new();
/// for (_, frame) in other.frames()? {
///     answers.extend(writer.take(1, &frame)?.map(|it| it.answer));
/// }
/// assert_eq!((answers, other.register(0)), (vec![Answer::Done], 5));
/// # Ok::<(), tellwydar::Refused>(())
/// ```
#[derive(Debug)]
pub struct Process<F: Front> {
    handle: Handle,
    room: Vec<u8>,
    front: PhantomData<F>,
}

impl<F: Front> Process<F> {
    /// The process `me`, from 0, of a run of this shape. It did nothing yet.
    ///
    /// # Errors
    ///
    /// `NoShape` for other than 1 to 64 processes and 1 to 4,096 registers, `NoProcess` where the shape has none of
    /// this number, and `OutOfMemory`.
    pub fn new(processes: u32, registers: u32, me: u8) -> Result<Self, Refused> {
        // SAFETY: the pointer is written where the result is 0.
        let make = |at: &mut _| unsafe { foreign::tellwydar_process_new(F::NUMBER, processes, registers, me, at) };
        let handle = Handle::new(make, foreign::tellwydar_process_close)?;
        Ok(Self { handle, room: vec![0; ROOM], front: PhantomData })
    }

    /// Calls an operation.
    ///
    /// # Errors
    ///
    /// The first fault that applies; as of every step, the process is as before, but after
    /// `OutOfMemory` and `ClockFull`.
    pub fn call(&mut self, op: Op) -> Result<Option<Reply>, Refused> {
        let handle = self.handle.as_ptr();
        // SAFETY: the handle is of `tellwydar_process_new`, and `&mut self` lends it to one call.
        let call = |kind, register, value| unsafe { foreign::tellwydar_process_call(handle, kind, register, value) };
        // SAFETY: as above.
        let compare_and_swap = |register, expected, value| unsafe {
            foreign::tellwydar_process_compare_and_swap(handle, register, expected, value)
        };
        self.told(with_numbers(op, call, compare_and_swap))
    }

    /// Takes a frame that the process `from` put for this one, as often and in whatever order.
    ///
    /// # Errors
    ///
    /// `NotAFrame` where the bytes spell none: then no step is made, and the frames of the last one are kept.
    pub fn take(&mut self, from: u8, frame: &[u8]) -> Result<Option<Reply>, Refused> {
        // SAFETY: as in `call`; the pointer and the length are those of one slice.
        let code = unsafe { foreign::tellwydar_process_take(self.handle.as_ptr(), from, frame.as_ptr(), frame.len()) };
        self.told(code)
    }

    /// Puts the first unacknowledged frames of every link again.
    pub fn tick(&mut self) -> Result<(), Refused> {
        // SAFETY: as in `call`.
        let code = unsafe { foreign::tellwydar_process_tick(self.handle.as_ptr()) };
        self.told(code).map(|_| ())
    }

    /// The frames that the last step put, in their order, each with its receiver. A refused step put none.
    pub fn frames(&mut self) -> Result<Vec<(u8, Vec<u8>)>, Refused> {
        let mut length = 0;
        // SAFETY: as in `call`; the pointer and the length are those of one slice.
        let code = unsafe {
            foreign::tellwydar_process_frames(
                self.handle.as_ptr(),
                self.room.as_mut_ptr(),
                self.room.len(),
                &mut length,
            )
        };
        if code != 0 {
            return Err(refused(code));
        }
        Ok(Frames(&self.room[..length]).map(|(to, frame)| (to, frame.to_vec())).collect())
    }

    /// The time of its clock.
    pub fn clock(&mut self) -> u64 {
        self.look(0, 0)
    }

    /// How many casts it has delivered.
    pub fn delivered(&mut self) -> u64 {
        self.look(1, 0)
    }

    /// How many of its own casts are not delivered here.
    pub fn unsettled(&mut self) -> u64 {
        self.look(2, 0)
    }

    /// How many data frames are not acknowledged, over all links.
    pub fn pending(&mut self) -> u64 {
        self.look(3, 0)
    }

    /// Whether an operation runs.
    pub fn busy(&mut self) -> bool {
        self.look(4, 0) != 0
    }

    /// The value of a register in its copy, 0 where there is none.
    pub fn register(&mut self, register: u16) -> u64 {
        self.look(5, register)
    }

    /// What it knows of another process: all 0 where there is no other of this number.
    pub fn known(&mut self, peer: u8) -> Known {
        // SAFETY: as in `call`.
        let [first, next, expected, seen] =
            [0, 1, 2, 3].map(|what| unsafe { foreign::tellwydar_process_known(self.handle.as_ptr(), what, peer) });
        Known { first, next, expected, seen }
    }

    fn told(&mut self, code: u32) -> Result<Option<Reply>, Refused> {
        reply_of(code, |what| self.look(what, 0))
    }

    fn look(&self, what: u32, register: u16) -> u64 {
        // SAFETY: as in `call`: the type stays on its thread, so no other call goes on.
        unsafe { foreign::tellwydar_process_look(self.handle.as_ptr(), what, register) }
    }
}
