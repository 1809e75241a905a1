use crate::base::*;
use crate::text::*;
use crate::world::{Entry, Point, World};
use std::io::{self, Write};

/// The first lines of reports without and with compare-and-swaps.
const PLAIN: &[u8] = b"awreg report 2";
const COMPARING: &[u8] = b"awreg report 3";

#[derive(Clone, Copy, Debug)]
pub struct OpRec {
    pub op: Op,
    pub called: u32,
    pub answered: Option<(u32, Answer)>,
}

/// A report as `check` needs it: per process its operations.
pub struct Report {
    pub registers: usize,
    pub ops: Vec<Vec<OpRec>>,
    pub order: Vec<OpId>,
    pub points: Option<Vec<Point>>,
}

#[inline]
fn digits(v: u64, buf: &mut [u8; 20]) -> &[u8] {
    let mut at = 20;
    let mut v = v;
    loop {
        at -= 1;
        buf[at] = b'0' + (v % 10) as u8;
        v /= 10;
        if v == 0 {
            return &buf[at..];
        }
    }
}

struct Out<'a, W: Write> {
    w: &'a mut W,
    buf: Vec<u8>,
}

impl<W: Write> Out<'_, W> {
    #[inline]
    fn text(&mut self, s: &[u8]) {
        self.buf.extend_from_slice(s);
    }
    #[inline]
    fn num(&mut self, v: u64) {
        let mut b = [0; 20];
        self.buf.extend_from_slice(digits(v, &mut b));
    }
    #[inline]
    fn left(&mut self, v: u64, width: usize) {
        let mut b = [0; 20];
        let d = digits(v, &mut b);
        self.buf.extend_from_slice(d);
        self.buf.extend_from_slice(&b"      "[..width.saturating_sub(d.len())]);
    }
    #[inline]
    fn right(&mut self, v: u64, width: usize) {
        let mut b = [0; 20];
        let d = digits(v, &mut b);
        self.buf.extend_from_slice(&b"        "[..width.saturating_sub(d.len())]);
        self.buf.extend_from_slice(d);
    }
    #[inline]
    fn id(&mut self, id: &OpId) {
        self.text(b"p");
        self.num(id.process as u64);
        self.text(b" #");
        self.num(id.number as u64);
    }
    #[inline]
    fn op(&mut self, op: &Op, names: &Names) {
        let (word, expected, value): (&[u8], _, _) = match *op {
            Op::Read { .. } => (b"read ", None, None),
            Op::Write { value, .. } => (b"write ", None, Some(value)),
            Op::Swap { value, .. } => (b"swap ", None, Some(value)),
            Op::CompareAndSwap { expected, value, .. } => (b"cas ", Some(expected), Some(value)),
        };
        self.text(word);
        self.text(names.name(op.register()).as_bytes());
        for v in [expected, value].into_iter().flatten() {
            self.text(b" ");
            self.num(v);
        }
    }
    #[inline]
    fn end_line(&mut self) -> io::Result<()> {
        self.buf.push(b'\n');
        if self.buf.len() >= 1 << 16 {
            self.w.write_all(&self.buf)?;
            self.buf.clear();
        }
        Ok(())
    }
}

pub fn write_report<W: Write>(w: &mut W, world: &World, names: &Names) -> io::Result<()> {
    let mut o = Out { w, buf: Vec::with_capacity((1 << 16) + 8192) };
    let front = world.front();
    let compares = |e: &Entry| matches!(e, Entry::Called { op: Op::CompareAndSwap { .. }, .. });
    o.text(if world.history().iter().any(compares) { COMPARING } else { PLAIN });
    o.text(b"\nfront ");
    o.text(front.name().as_bytes());
    o.text(b"\nprocesses ");
    o.num(world.processes() as u64);
    o.text(b"\nregisters ");
    o.num(names.count() as u64);
    for i in 0..names.count() {
        o.text(b"\n");
        o.text(names.name(i as u16).as_bytes());
    }
    o.text(b"\nhistory ");
    o.num(world.history().len() as u64);
    o.end_line()?;
    for entry in world.history() {
        let (at, id) = match entry {
            Entry::Called { at, id, .. } | Entry::Answered { at, id, .. } => (at, id),
        };
        o.right(*at as u64, 8);
        o.text(b"  p");
        o.left(id.process as u64, 3);
        o.text(b"  #");
        o.left(id.number as u64, 6);
        match entry {
            Entry::Called { op, .. } => {
                o.text(b"  call    ");
                o.op(op, names);
            }
            Entry::Answered { answer: Answer::Done, .. } => o.text(b"  answer  done"),
            Entry::Answered { answer: Answer::Unequal, .. } => o.text(b"  answer  unequal"),
            Entry::Answered { answer: Answer::Value(v), .. } => {
                o.text(b"  answer  value ");
                o.num(*v);
            }
        }
        o.end_line()?;
    }
    let order = world.witness();
    o.text(b"order ");
    o.num(order.len() as u64);
    o.end_line()?;
    for id in &order {
        o.id(id);
        o.end_line()?;
    }
    drop(order);
    if front == Front::Linear {
        let points = world.points();
        o.text(b"points ");
        o.num(points.len() as u64);
        o.end_line()?;
        for p in &points {
            o.id(&p.id);
            o.text(b" at ");
            o.num(p.at as u64);
            o.end_line()?;
        }
    }
    o.text(b"end\n");
    o.w.write_all(&o.buf)?;
    o.w.flush()
}

pub fn read_report(text: &str) -> Result<Report, LineFault> {
    let mut lines = Lines::new(text.as_bytes());
    parse(&mut lines, text.is_ascii()).map_err(|why| lines.fault(why))
}

fn next<'a>(lines: &mut Lines<'a>, ascii: bool) -> Result<&'a [u8], Why> {
    match lines.next() {
        None => Err(Why::End),
        Some(line) if !ascii && !line.is_ascii() => Err(Why::Form),
        Some(line) => Ok(line),
    }
}

/// A numeral at the left or the right of its column.
#[inline]
fn right_column(s: &[u8]) -> Result<Num, Why> {
    let start = s.iter().position(|&b| b != b' ').ok_or(Why::Form)?;
    numeral(&s[start..])
}

#[inline]
fn left_column(s: &[u8]) -> Result<Num, Why> {
    let mut end = s.len();
    while end > 0 && s[end - 1] == b' ' {
        end -= 1;
    }
    numeral(&s[..end])
}

/// `pPROCESS #NUMBER` and what follows the number.
#[inline]
fn id_form(line: &[u8]) -> Result<(Num, Num, Option<&[u8]>), Why> {
    let (p, rest) = field(line);
    let (h, rest) = field(rest.ok_or(Why::Form)?);
    match (p.split_first(), h.split_first()) {
        (Some((b'p', p)), Some((b'#', h))) => Ok((numeral(p)?, numeral(h)?, rest)),
        _ => Err(Why::Form),
    }
}

#[inline]
fn id_fields(process: Num, number: Num) -> Result<OpId, Why> {
    Ok(OpId { process: process.upto(MAX_PROCESSES as u64 - 1)? as u8, number: number.upto(MAX_OPS as u64 - 1)? as u32 })
}

enum What<'a> {
    Call(OpForm<'a>),
    Done,
    Unequal,
    Value(Num),
}

fn parse(lines: &mut Lines, ascii: bool) -> Result<Report, Why> {
    let compares = match next(lines, ascii)? {
        PLAIN => false,
        COMPARING => true,
        _ => return Err(Why::Form),
    };
    match field(next(lines, ascii)?) {
        (b"front", Some(w))
            if !w.is_empty() && w.len() <= 16 && w.iter().all(|b| b.is_ascii_lowercase() || *b == b'-') => {}
        _ => return Err(Why::Form),
    }
    let processes = counted(next(lines, ascii)?, b"processes")?.upto(MAX_PROCESSES as u64)? as usize;
    if processes == 0 {
        return Err(Why::Range);
    }
    let registers = counted(next(lines, ascii)?, b"registers")?.upto(MAX_REGISTERS as u64)?;
    if registers == 0 {
        return Err(Why::Range);
    }
    let mut names = Names::default();
    for _ in 0..registers {
        let name = next(lines, ascii)?;
        if name.is_empty() || name.contains(&b' ') {
            return Err(Why::Form);
        }
        if !names.add(name) {
            return Err(Why::Name);
        }
    }
    let count = counted(next(lines, ascii)?, b"history")?.upto(2 * MAX_EVENTS as u64)?;
    let mut ops: Vec<Vec<OpRec>> = vec![Vec::new(); processes];
    let mut last: Option<(u32, Option<OpId>)> = None;
    for _ in 0..count {
        let line = next(lines, ascii)?;
        // 8 + "  p" + 3 + "  #" + 6 + "  " + 6 + "  " is 33 bytes
        if line.len() < 34
            || &line[8..11] != b"  p"
            || &line[14..17] != b"  #"
            || &line[23..25] != b"  "
            || &line[31..33] != b"  "
        {
            return Err(Why::Form);
        }
        let at = right_column(&line[..8])?;
        let process = left_column(&line[11..14])?;
        let number = left_column(&line[17..23])?;
        let tail = &line[33..];
        let what = match &line[25..31] {
            b"call  " => match op_form(tail)? {
                OpForm::CompareAndSwap(..) if !compares => return Err(Why::Form),
                form => What::Call(form),
            },
            b"answer" if tail == b"done" => What::Done,
            b"answer" if tail == b"unequal" && compares => What::Unequal,
            b"answer" => What::Value(counted(tail, b"value")?),
            _ => return Err(Why::Form),
        };
        let at = at.upto(MAX_EVENTS as u64 - 1)? as u32;
        let id = id_fields(process, number)?;
        let p = id.process as usize;
        let later = last.is_none_or(|(l, _)| at > l);
        let answer = match what {
            What::Call(form) => {
                let op = form.op(&names)?;
                let list = ops.get_mut(p).ok_or(Why::Place)?;
                if !later || id.number as usize != list.len() || list.last().is_some_and(|o| o.answered.is_none()) {
                    return Err(Why::Place);
                }
                list.push(OpRec { op, called: at, answered: None });
                last = Some((at, Some(id)));
                continue;
            }
            What::Done => Answer::Done,
            What::Unequal => Answer::Unequal,
            What::Value(v) => Answer::Value(v.upto(u64::MAX)?),
        };
        let list = ops.get_mut(p).ok_or(Why::Place)?;
        let len = list.len();
        let rec = list.last_mut().ok_or(Why::Place)?;
        let in_place = later || last == Some((at, Some(id)));
        if !in_place || id.number as usize + 1 != len || rec.answered.is_some() || !rec.op.can_answer(answer) {
            return Err(Why::Place);
        }
        rec.answered = Some((at, answer));
        last = Some((at, None));
    }
    let count = counted(next(lines, ascii)?, b"order")?.upto(MAX_EVENTS as u64)?;
    let mut order = Vec::new();
    for _ in 0..count {
        let (process, number, rest) = id_form(next(lines, ascii)?)?;
        if rest.is_some() {
            return Err(Why::Form);
        }
        order.push(id_fields(process, number)?);
    }
    let mut points = None;
    let mut line = next(lines, ascii)?;
    if line != b"end" {
        let count = counted(line, b"points")?.upto(MAX_EVENTS as u64)?;
        let mut list = Vec::new();
        for _ in 0..count {
            let (process, number, rest) = id_form(next(lines, ascii)?)?;
            let at = counted(rest.ok_or(Why::Form)?, b"at")?;
            let id = id_fields(process, number)?;
            list.push(Point { id, at: at.upto(MAX_EVENTS as u64 - 1)? as u32 });
        }
        points = Some(list);
        line = next(lines, ascii)?;
        if line != b"end" {
            return Err(Why::Form);
        }
    }
    if lines.next().is_some() {
        return Err(Why::End);
    }
    Ok(Report { registers: names.count(), ops, order, points })
}
