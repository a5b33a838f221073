//! SciPy's linear_sum_assignment, asked turn by turn: a Python program of its own (scipy.py), with which lines are exchanged.
use std::io::{BufRead, BufReader, Write};
use std::process::{Child, ChildStdin, ChildStdout, Command, Stdio};
use std::time::Duration;

pub struct Scipy {
    program: Child,
    to: ChildStdin,
    from: BufReader<ChildStdout>,
}

impl Scipy {
    /// None where Python or SciPy is missing. The system's own Python is asked first, since Debian's SciPy is for that one.
    pub fn start() -> Option<Scipy> {
        ["/usr/bin/python3", "python3"].iter().find_map(|python| {
            let mut program = Command::new(python)
                .args(["-c", include_str!("scipy.py")])
                .stdin(Stdio::piped())
                .stdout(Stdio::piped())
                .stderr(Stdio::null())
                .spawn()
                .ok()?;
            let to = program.stdin.take()?;
            let from = BufReader::new(program.stdout.take()?);
            let mut scipy = Scipy { program, to, from };
            (scipy.line() == "ready\n").then_some(scipy)
        })
    }

    fn line(&mut self) -> String {
        let mut line = String::new();
        self.from.read_line(&mut line).map_or(String::new(), |_| line)
    }

    /// One more matrix; the first is matrix 0.
    pub fn lend(&mut self, n: usize, costs: &[i32], mask: &[u8]) {
        let mut text = format!("matrix {n}\n");
        for (cell, (cost, allowed)) in costs.iter().zip(mask).enumerate() {
            let end = if cell % n == n - 1 { '\n' } else { ' ' };
            text += &if *allowed == 1 { format!("{cost}{end}") } else { format!("inf{end}") };
        }
        self.to.write_all(text.as_bytes()).unwrap();
    }

    /// Solves a matrix once: the time of the call, and the total.
    pub fn solve(&mut self, matrix: usize) -> (Duration, i64) {
        writeln!(self.to, "turn {matrix}").unwrap();
        let line = self.line();
        let (time, total) = line.trim().split_once(' ').unwrap();
        (Duration::from_nanos(time.parse().unwrap()), total.parse().unwrap())
    }
}

impl Drop for Scipy {
    fn drop(&mut self) {
        _ = self.program.kill();
        _ = self.program.wait();
    }
}
