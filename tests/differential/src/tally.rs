//! A subject's calls: each with the answer that is wanted, compared in batches.
use crate::host::{Arg, Host, entry, put};

/// The answer that a call is to give: its words, as far as the masks reach, and the later contents of what it lends.
#[derive(Clone, Debug, PartialEq)]
pub struct Want {
    words: [u64; 2],
    masks: [u64; 2],
    lent: Vec<Vec<u8>>,
    /// How many bytes at the start of each may be anything.
    open: Vec<usize>,
}

/// Two fields of 32 bits, as a struct of two u32 comes back.
pub fn pair(a: u32, b: u32) -> u64 {
    a as u64 | (b as u64) << 32
}

impl Want {
    /// A result of one word of which the mask's bits count.
    pub fn word(word: u64, mask: u64) -> Want {
        Want { words: [word, 0], masks: [mask, 0], lent: Vec::new(), open: Vec::new() }
    }

    /// A struct of up to four u32.
    pub fn fields(fields: &[u32]) -> Want {
        let mut all = [0u32; 4];
        let mut mask = [0u32; 4];
        all[..fields.len()].copy_from_slice(fields);
        mask[..fields.len()].fill(u32::MAX);
        Want {
            words: [pair(all[0], all[1]), pair(all[2], all[3])],
            masks: [pair(mask[0], mask[1]), pair(mask[2], mask[3])],
            lent: Vec::new(),
            open: Vec::new(),
        }
    }

    /// With the later contents of the next buffer that the call lends.
    pub fn then(self, bytes: Vec<u8>) -> Want {
        self.then_past(0, bytes)
    }

    /// The same, where the buffer's first bytes may be anything.
    pub fn then_past(mut self, open: usize, bytes: Vec<u8>) -> Want {
        self.lent.push(bytes);
        self.open.push(open);
        self
    }

    fn room(&self) -> usize {
        16 + self.lent.iter().map(|b| b.len().next_multiple_of(8)).sum::<usize>()
    }
}

/// One call that waits for its answer: what it is called, so that a difference can be told, and what is wanted.
struct Waiting {
    name: &'static str,
    numbers: Vec<u64>,
    want: Want,
}

/// What a call answered: its words, and what the buffers that it lent held after it.
#[derive(Clone, PartialEq)]
pub struct Left {
    pub words: [u64; 2],
    pub lent: Vec<Vec<u8>>,
}

pub struct Tally<'h> {
    subject: &'static str,
    host: &'h mut Host,
    batch: Vec<u8>,
    room: usize,
    waiting: Vec<Waiting>,
    calls: u64,
    differ: u64,
    entries: Vec<(&'static str, u64)>,
    /// Calls whose answers a subject wants to see, by name, and the last answer of each.
    watched: Vec<(&'static str, Option<Left>)>,
}

impl<'h> Tally<'h> {
    pub fn new(subject: &'static str, host: &'h mut Host) -> Tally<'h> {
        let (batch, waiting, entries, watched) = (Vec::new(), Vec::new(), Vec::new(), Vec::new());
        Tally { subject, host, batch, room: 0, waiting, calls: 0, differ: 0, entries, watched }
    }

    fn entry(&mut self, name: &'static str) -> u64 {
        if let Some(known) = self.entries.iter().find(|e| e.0 == name) {
            return known.1;
        }
        self.entries.push((name, entry(name)));
        entry(name)
    }

    /// A call and the answer that it is to give.
    pub fn call(&mut self, name: &'static str, args: &[Arg], want: Want) {
        let number = self.entry(name);
        put(&mut self.batch, number, args);
        self.room += want.room();
        let numbers = args.iter().filter_map(|a| if let Arg::Number(n) = a { Some(*n) } else { None }).collect();
        self.waiting.push(Waiting { name, numbers, want });
        if self.batch.len().max(self.room) > 1 << 20 {
            self.flush();
        }
    }

    /// A call that takes numbers alone.
    pub fn numbers(&mut self, name: &'static str, numbers: &[u64], want: Want) {
        let args: Vec<Arg> = numbers.iter().map(|&n| Arg::Number(n)).collect();
        self.call(name, &args, want);
    }

    /// From now on the last answer of this entry can be seen.
    pub fn watch(&mut self, name: &'static str) {
        self.watched.push((name, None));
    }

    /// What the last call of a watched entry answered, as it came back; none if there was no call since it was last seen.
    pub fn left(&mut self, name: &'static str) -> Option<Left> {
        self.flush();
        self.watched.iter_mut().find(|w| w.0 == name)?.1.take()
    }

    fn flush(&mut self) {
        let answers = self.host.call(&self.batch, self.room);
        let mut at = 0;
        for call in self.waiting.drain(..) {
            let word = |i: usize| u64::from_le_bytes(answers[at + 8 * i..at + 8 * i + 8].try_into().unwrap());
            let words = [word(0) & call.want.masks[0], word(1) & call.want.masks[1]];
            let (mut lent, mut whole) = (Vec::new(), Vec::new());
            let mut next = at + 16;
            let watched = self.watched.iter_mut().find(|w| w.0 == call.name);
            for (b, &open) in call.want.lent.iter().zip(&call.want.open) {
                if watched.is_some() {
                    whole.push(answers[next..next + b.len()].to_vec());
                }
                lent.push([&b[..open], &answers[next + open..next + b.len()]].concat());
                next += b.len().next_multiple_of(8);
            }
            at = next;
            if let Some(watched) = watched {
                watched.1 = Some(Left { words, lent: whole });
            }
            self.calls += 1;
            if words != call.want.words || lent != call.want.lent {
                self.differ += 1;
                if self.differ == 1 {
                    println!(
                        "{}: first difference: {} on {:?}: wanted {:x?} {:?}, got {:x?} {:?}",
                        self.subject, call.name, call.numbers, call.want.words, call.want.lent, words, lent
                    );
                }
            }
        }
        self.batch.clear();
        self.room = 0;
    }

    /// Makes what calls are left, and tells the count of calls and of those that differ.
    pub fn finish(mut self) -> (u64, u64) {
        self.flush();
        println!("{}: {} calls compared, {} differ", self.subject, self.calls, self.differ);
        (self.calls, self.differ)
    }
}
