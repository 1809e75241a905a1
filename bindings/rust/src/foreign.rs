//! The declarations of the library's functions, as in bindings/c/tellwydar.h.
use crate::{Answer, Entry, Op, OpId, Point};
use std::marker::{PhantomData, PhantomPinned};

#[repr(C)]
#[derive(Default)]
pub struct Lengths {
    pub output: usize,
    pub errors: usize,
}

#[repr(C)]
pub struct EntryRow {
    value: u64,
    at: u32,
    number: u32,
    register: u16,
    process: u8,
    kind: u8,
}

#[repr(C)]
pub struct IdRow {
    number: u32,
    process: u8,
}

#[repr(C)]
pub struct PointRow {
    at: u32,
    number: u32,
    process: u8,
}

#[derive(Default)]
#[repr(C)]
pub struct LogRow {
    pub cluster: u64,
    pub chapter: u64,
    pub begun: u64,
    pub front: u32,
    pub processes: u32,
    pub process: u8,
}

#[derive(Default)]
#[repr(C)]
pub struct RoomRow {
    pub operations: u64,
    pub total: u64,
    pub entries: u64,
    pub ahead: u64,
    pub least: u64,
    pub most: u64,
}

#[derive(Default)]
#[repr(C)]
pub struct MergedRow {
    pub length: usize,
    pub log: u64,
    pub place: u64,
}

#[derive(Default)]
#[repr(C)]
pub struct MetRow {
    pub cluster: u64,
    pub begun: u64,
    pub names: u32,
    pub chapter: u32,
    pub met: u32,
    pub registers: u16,
    pub front: u8,
    pub processes: u8,
    pub sender: u8,
    pub receiver: u8,
    pub brings: u8,
}

#[derive(Clone, Debug, Default)]
#[repr(C)]
pub struct HeardRow {
    pub begun: u64,
    pub is_heard: u32,
}

#[derive(Default)]
#[repr(C)]
pub struct GreetingRow {
    pub accepted: u64,
    pub is_wanting: u32,
}

/// What a handle points to.
#[derive(Debug)]
#[repr(C)]
pub struct Opaque {
    _bytes: [u8; 0],
    _of_one_thread: PhantomData<(*mut u8, PhantomPinned)>,
}

impl From<&Entry> for EntryRow {
    fn from(entry: &Entry) -> Self {
        let (at, id, kind, register, value) = match *entry {
            Entry::Called { at, id, op: Op::Read { register } } => (at, id, 0, register, 0),
            Entry::Called { at, id, op: Op::Write { register, value } } => (at, id, 1, register, value),
            Entry::Called { at, id, op: Op::Swap { register, value } } => (at, id, 2, register, value),
            Entry::Called { at, id, op: Op::CompareAndSwap { register, expected: _, value } } => {
                (at, id, 5, register, value)
            }
            Entry::Answered { at, id, answer: Answer::Done } => (at, id, 3, 0, 0),
            Entry::Answered { at, id, answer: Answer::Value(value) } => (at, id, 4, 0, value),
            Entry::Answered { at, id, answer: Answer::Unequal } => (at, id, 6, 0, 0),
        };
        Self { value, at, number: id.number, register, process: id.process, kind }
    }
}

/// The value that an entry expects, 0 where it is no compare-and-swap.
pub fn expected_by(entry: &Entry) -> u64 {
    match *entry {
        Entry::Called { op: Op::CompareAndSwap { expected, .. }, .. } => expected,
        _ => 0,
    }
}

impl From<&OpId> for IdRow {
    fn from(id: &OpId) -> Self {
        Self { number: id.number, process: id.process }
    }
}

impl From<&Point> for PointRow {
    fn from(point: &Point) -> Self {
        Self { at: point.at, number: point.id.number, process: point.id.process }
    }
}

pub type Command = unsafe extern "C" fn(*const u8, usize, *mut u8, usize, *mut u8, usize, *mut Lengths) -> u8;

/// Functions of the library that have a text, rooms for an answer and for a line, and tell a status.
macro_rules! commands {
    ($($name:ident)*) => {
        unsafe extern "C" {
            $(pub fn $name(
                text: *const u8,
                text_length: usize,
                output: *mut u8,
                output_length: usize,
                errors: *mut u8,
                errors_length: usize,
                lengths: *mut Lengths,
            ) -> u8;)*
        }
    };
}

commands!(tellwydar_replay tellwydar_check tellwydar_play tellwydar_play_fair);
commands!(tellwydar_verify tellwydar_merge tellwydar_story);

unsafe extern "C" {
    pub fn tellwydar_judge(
        text: *const u8,
        text_length: usize,
        report: u8,
        output: *mut u8,
        output_length: usize,
        errors: *mut u8,
        errors_length: usize,
        lengths: *mut Lengths,
    ) -> u8;
    pub fn tellwydar_judge_from(
        text: *const u8,
        text_length: usize,
        first: *const u8,
        first_length: usize,
        report: u8,
        output: *mut u8,
        output_length: usize,
        errors: *mut u8,
        errors_length: usize,
        lengths: *mut Lengths,
    ) -> u8;
    pub fn tellwydar_check_serial_expecting(
        processes: u32,
        registers: u32,
        entries: *const EntryRow,
        entries_length: usize,
        expected: *const u64,
        expected_length: usize,
        ids: *const IdRow,
        ids_length: usize,
        place: *mut usize,
    ) -> u32;
    pub fn tellwydar_check_points_expecting(
        processes: u32,
        registers: u32,
        entries: *const EntryRow,
        entries_length: usize,
        expected: *const u64,
        expected_length: usize,
        points: *const PointRow,
        points_length: usize,
        place: *mut usize,
    ) -> u32;
    pub fn tellwydar_world_new(front: u32, processes: u32, registers: u32, handle: *mut *mut Opaque) -> u32;
    pub fn tellwydar_world_step(handle: *mut Opaque, kind: u32, process: u8, number: u32, from: u8, value: u64) -> u32;
    pub fn tellwydar_world_compare_and_swap(
        handle: *mut Opaque,
        process: u8,
        register: u32,
        expected: u64,
        value: u64,
    ) -> u32;
    pub fn tellwydar_world_arrange(handle: *mut Opaque) -> u32;
    pub fn tellwydar_world_look(handle: *mut Opaque, what: u32, at: u32) -> u64;
    pub fn tellwydar_world_close(handle: *mut Opaque);
    pub fn tellwydar_process_new(front: u32, processes: u32, registers: u32, me: u8, handle: *mut *mut Opaque) -> u32;
    pub fn tellwydar_process_call(handle: *mut Opaque, kind: u32, register: u32, value: u64) -> u32;
    pub fn tellwydar_process_compare_and_swap(handle: *mut Opaque, register: u32, expected: u64, value: u64) -> u32;
    pub fn tellwydar_process_take(handle: *mut Opaque, from: u8, bytes: *const u8, bytes_length: usize) -> u32;
    pub fn tellwydar_process_tick(handle: *mut Opaque) -> u32;
    pub fn tellwydar_process_frames(handle: *mut Opaque, room: *mut u8, room_length: usize, length: *mut usize) -> u32;
    pub fn tellwydar_process_look(handle: *mut Opaque, what: u32, register: u16) -> u64;
    pub fn tellwydar_process_known(handle: *mut Opaque, what: u32, peer: u8) -> u64;
    pub fn tellwydar_process_close(handle: *mut Opaque);
    pub fn tellwydar_node_begin(
        log: *const LogRow,
        names: *const u8,
        names_length: usize,
        room: *mut u8,
        room_length: usize,
        length: *mut usize,
    ) -> u32;
    pub fn tellwydar_node_is_headless(
        log: *const LogRow,
        text: *const u8,
        text_length: usize,
        headless: *mut u32,
    ) -> u32;
    pub fn tellwydar_log_head(
        text: *const u8,
        text_length: usize,
        log: *mut LogRow,
        room: *mut u8,
        room_length: usize,
        length: *mut usize,
    ) -> u32;
    pub fn tellwydar_log_part(text: *const u8, text_length: usize, entries: u64) -> usize;
    pub fn tellwydar_message_start(
        log: *const LogRow,
        names: *const u8,
        names_length: usize,
        to: u8,
        room: *mut u8,
        room_length: usize,
    ) -> u32;
    pub fn tellwydar_message_met(
        own: *const u8,
        own_length: usize,
        key: u32,
        message: *const u8,
        message_length: usize,
        heard: *mut HeardRow,
        heard_length: usize,
        row: *mut MetRow,
    ) -> u32;
    pub fn tellwydar_message_greet(is_wanting: u32, accepted: u64, room: *mut u8, room_length: usize);
    pub fn tellwydar_message_greeting(bytes: *const u8, bytes_length: usize, row: *mut GreetingRow) -> u32;
    pub fn tellwydar_node_new(handle: *mut *mut Opaque) -> u32;
    pub fn tellwydar_node_open(handle: *mut Opaque, text: *const u8, text_length: usize, durable: u64) -> u32;
    pub fn tellwydar_node_call(handle: *mut Opaque, kind: u32, register: u32, value: u64) -> u32;
    pub fn tellwydar_node_compare_and_swap(handle: *mut Opaque, register: u32, expected: u64, value: u64) -> u32;
    pub fn tellwydar_node_take(handle: *mut Opaque, from: u8, bytes: *const u8, bytes_length: usize) -> u32;
    pub fn tellwydar_node_tick(handle: *mut Opaque) -> u32;
    pub fn tellwydar_node_bytes(handle: *mut Opaque, room: *mut u8, room_length: usize) -> usize;
    pub fn tellwydar_node_mark_durable(handle: *mut Opaque, count: u64) -> u32;
    pub fn tellwydar_node_hand_out(handle: *mut Opaque) -> u32;
    pub fn tellwydar_node_frames(handle: *mut Opaque, room: *mut u8, room_length: usize, length: *mut usize) -> u32;
    pub fn tellwydar_node_hear(handle: *mut Opaque, other: u8, count: u64) -> u32;
    pub fn tellwydar_node_tell_state(
        handle: *mut Opaque,
        is_quiet: u32,
        room: *mut u8,
        room_length: usize,
        length: *mut usize,
    ) -> u32;
    pub fn tellwydar_node_hear_state(handle: *mut Opaque, sender: u8, bytes: *const u8, bytes_length: usize) -> u32;
    pub fn tellwydar_node_is_over(handle: *mut Opaque) -> u32;
    pub fn tellwydar_node_set_room(handle: *mut Opaque, operations: u64, entries: u64, ahead: u64) -> u32;
    pub fn tellwydar_node_follow(handle: *mut Opaque, values: *const u64, values_length: usize) -> u32;
    pub fn tellwydar_node_end(handle: *mut Opaque) -> u32;
    pub fn tellwydar_node_course(handle: *mut Opaque, what: u32, running: u32) -> u64;
    pub fn tellwydar_room(processes: u32, registers: u32, operations: u64, entries: u64, row: *mut RoomRow) -> u32;
    pub fn tellwydar_node_look(handle: *mut Opaque, what: u32, register: u16) -> u64;
    pub fn tellwydar_node_known(handle: *mut Opaque, what: u32, peer: u8) -> u64;
    pub fn tellwydar_node_watch(handle: *mut Opaque, peer: u8) -> u32;
    pub fn tellwydar_node_came(handle: *mut Opaque, peer: u8) -> u32;
    pub fn tellwydar_node_close(handle: *mut Opaque);
    pub fn tellwydar_merge_logs(
        logs: *const u8,
        logs_length: usize,
        lengths: *const u64,
        lengths_length: usize,
        room: *mut u8,
        room_length: usize,
        told: *mut MergedRow,
    ) -> u32;
    pub fn free(block: *mut Opaque);
}
