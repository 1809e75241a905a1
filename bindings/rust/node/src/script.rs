//! Scripts: a call a line, or a pause.
use crate::calls::{Form, answer_line};
use crate::fault::Fault;
use crate::node::Node;
use std::io::Write;
use std::time::{Duration, Instant};
use tellwydar::{Answer, Front, Op};

/// A line of a script: `write x 5`, `swap x 6`, `cas x 6 7`, `read x`, or `sleep SECONDS`.
#[derive(Clone, Copy, Debug, PartialEq, Eq)]
enum Line {
    Call(Op),
    Sleep(Duration),
}

/// What a node calls, one operation after another.
#[derive(Clone, Debug, PartialEq, Eq)]
pub struct Script(Vec<Line>);

fn line(text: &str, registers: &[String]) -> Option<Line> {
    if let Ok(op) = Form::Words.call(text, registers) {
        return Some(Line::Call(op));
    }
    let seconds = text.trim().strip_prefix("sleep ")?.trim().parse().ok()?;
    let time = Duration::try_from_secs_f64(seconds).ok()?;
    Instant::now().checked_add(time).map(|_| Line::Sleep(time))
}

impl Script {
    /// The script of this text, over registers of these names. Empty lines, and those that begin with `#`, say nothing.
    ///
    /// # Errors
    ///
    /// The first line that says no call.
    pub fn parse(text: &str, registers: &[String]) -> Result<Self, Fault> {
        let is_said = |it: &str| !it.trim().is_empty() && !it.trim_start().starts_with('#');
        let none = |number| Fault::Config(format!("line {number}: no call of a register of this cluster"));
        let lines = text.lines().zip(1..).filter(|(text, _)| is_said(text));
        lines
            .map(|(text, number)| line(text, registers).ok_or_else(|| none(number)))
            .collect::<Result<_, _>>()
            .map(Self)
    }

    /// Makes the calls, and writes each answer as a line. A node that was resumed goes on where its log ends.
    pub fn run<F: Front>(&self, node: &mut Node<F>, out: &mut impl Write) -> Result<(), Fault> {
        let (mut called, goes_on) = node.so_far();
        if goes_on {
            let answer = node.wait(None)?;
            tell(node, out, answer)?;
        }
        for &line in &self.0 {
            match line {
                Line::Call(_) if called > 0 => called -= 1,
                Line::Call(op) => {
                    let answer = node.perform(op, None)?;
                    tell(node, out, answer)?;
                }
                Line::Sleep(time) if called == 0 => sleep(node, time)?,
                Line::Sleep(_) => {}
            }
        }
        writeln!(out, "end")?;
        Ok(out.flush()?)
    }
}

/// What is told is in the log before.
fn tell<F: Front>(node: &mut Node<F>, out: &mut impl Write, answer: Answer) -> Result<(), Fault> {
    node.keep()?;
    writeln!(out, "{}", answer_line(answer))?;
    Ok(out.flush()?)
}

/// Calls nothing for so long.
fn sleep<F: Front>(node: &mut Node<F>, time: Duration) -> Result<(), Fault> {
    let end = Instant::now() + time;
    while Instant::now() < end {
        if node.serve(Some(end))? {
            return Err(Fault::Rung);
        }
    }
    Ok(())
}

#[cfg(test)]
mod tests {
    use super::*;

    #[test]
    fn lines_are_calls_and_pauses() {
        let names = ["x".to_string(), "y".to_string()];
        let script = Script::parse(
            "write x 5\n# no call\n\n read y\nsleep 0.5\nswap y 18446744073709551615\ncas x 0 7\n",
            &names,
        );
        let calls = vec![
            Line::Call(Op::Write { register: 0, value: 5 }),
            Line::Call(Op::Read { register: 1 }),
            Line::Sleep(Duration::from_millis(500)),
            Line::Call(Op::Swap { register: 1, value: u64::MAX }),
            Line::Call(Op::CompareAndSwap { register: 0, expected: 0, value: 7 }),
        ];
        assert_eq!(script.expect("a script"), Script(calls));
        for text in [
            "read z",
            "write x",
            "write x 18446744073709551616",
            "write x -1",
            "sleep -1",
            "sleep x",
            "sleep 1e19",
            "add x 1",
            "read x 1",
        ] {
            let told = Script::parse(&format!("read x\n{text}\n"), &names).expect_err(text).to_string();
            assert_eq!(told, "line 2: no call of a register of this cluster");
        }
    }
}
