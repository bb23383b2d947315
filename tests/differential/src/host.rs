//! The other side of host/host.c: calls go out in batches and their answers come back in order.
use std::io::{Read, Write};
use std::process::{Child, ChildStdin, ChildStdout, Command, Stdio};

/// What an entry is given. A slice of the proved code is a buffer and then a number, its length in elements.
#[derive(Clone, Copy)]
pub enum Arg<'a> {
    Number(u64),
    Read(&'a [u8]),
    /// A buffer whose later contents come back. A result of more than two words is a first argument of this kind.
    Lent(&'a [u8]),
}

pub struct Host {
    child: Child,
    calls: Option<ChildStdin>,
    answers: ChildStdout,
}

/// The entry's place in entries.txt.
pub fn entry(name: &str) -> u64 {
    let at = include_str!("../entries.txt").lines().position(|line| line == name);
    at.unwrap_or_else(|| panic!("entries.txt has no {name}")) as u64
}

/// Adds a call to a batch.
pub fn put(batch: &mut Vec<u8>, entry: u64, args: &[Arg]) {
    let (mut buffers, mut back) = (0u64, 0u64);
    for (i, arg) in args.iter().enumerate() {
        match arg {
            Arg::Number(_) => (),
            Arg::Read(_) => buffers |= 1 << i,
            Arg::Lent(_) => (buffers, back) = (buffers | 1 << i, back | 1 << i),
        }
    }
    for word in [entry, args.len() as u64, buffers, back] {
        batch.extend(word.to_le_bytes());
    }
    for arg in args {
        let word = match arg {
            Arg::Number(n) => *n,
            Arg::Read(b) | Arg::Lent(b) => b.len() as u64,
        };
        batch.extend(word.to_le_bytes());
    }
    for arg in args {
        if let Arg::Read(b) | Arg::Lent(b) = arg {
            batch.extend(*b);
            batch.resize(batch.len().next_multiple_of(8), 0);
        }
    }
}

impl Host {
    pub fn start(command: &[String]) -> Host {
        let mut child = Command::new(&command[0])
            .args(&command[1..])
            .stdin(Stdio::piped())
            .stdout(Stdio::piped())
            .spawn()
            .expect("the host starts");
        let calls = child.stdin.take();
        let answers = child.stdout.take().unwrap();
        Host { child, calls, answers }
    }

    /// Makes a batch of calls; `room` is the length of their answers in bytes.
    pub fn call(&mut self, batch: &[u8], room: usize) -> Vec<u8> {
        let calls = self.calls.as_mut().unwrap();
        calls.write_all(&(batch.len() as u64 / 8).to_le_bytes()).expect("the host takes calls");
        calls.write_all(batch).expect("the host takes calls");
        calls.flush().expect("the host takes calls");
        let mut answers = vec![0; room];
        self.answers.read_exact(&mut answers).expect("the host answers");
        answers
    }
}

impl Drop for Host {
    fn drop(&mut self) {
        self.calls = None;
        let _ = self.child.wait();
    }
}
