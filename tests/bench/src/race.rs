//! The clock: both sides in turn, and the best run of each.
use std::ffi::{c_int, c_long};
use std::hint::black_box;

/// Runs of each side, and the least length of one in ns; fewer runs of what takes long, such that they stay within a time.
const RUNS: usize = 41;
const LEAST_RUNS: usize = 7;
const LENGTH: f64 = 200_000.0;
const WITHIN: f64 = 2e9;

/// ns of a call: the Rust called as it stands, the Rust built into its caller (no number where it is the same), and the door.
#[derive(Clone, Copy)]
pub struct Times {
    pub rust: f64,
    pub inlined: f64,
    pub rattle: f64,
}

impl Times {
    /// With the times of another race, in which the Rust was built into its caller.
    pub fn inlined(self, other: Times) -> Times {
        Times { rust: self.rust, inlined: other.rust, rattle: self.rattle.min(other.rattle) }
    }

    /// The door's time over the Rust's as it stands.
    pub fn to_called(self) -> f64 {
        self.rattle / self.rust
    }

    /// The door's time over the better one of the Rust.
    pub fn ratio(self) -> f64 {
        self.rattle / self.rust.min(self.inlined)
    }
}

#[repr(C)]
struct Time {
    seconds: c_long,
    nanoseconds: c_long,
}

unsafe extern "C" {
    fn clock_gettime(clock: c_int, time: *mut Time) -> c_int;
}

/// ns for which this thread has run: not the time in which another had the processor, which no long call escapes.
fn clock() -> f64 {
    const THREAD: c_int = 3;
    let mut time = Time { seconds: 0, nanoseconds: 0 };
    // the time is written, and nothing else
    assert_eq!(unsafe { clock_gettime(THREAD, &mut time) }, 0);
    time.seconds as f64 * 1e9 + time.nanoseconds as f64
}

/// A run: `rounds` times a call for each input.
fn run<I>(inputs: &[I], rounds: usize, call: &mut impl FnMut(&I)) -> f64 {
    let start = clock();
    for _ in 0..rounds {
        for input in inputs {
            call(black_box(input));
        }
    }
    clock() - start
}

/// How often it takes for a run to be long enough, and how many runs there are of that length.
fn rounds(mut run: impl FnMut(usize) -> f64) -> (usize, usize) {
    let mut rounds = 1;
    loop {
        let length = run(rounds);
        if length >= LENGTH {
            return (rounds, ((WITHIN / length) as usize).clamp(LEAST_RUNS, RUNS));
        }
        rounds *= 2;
    }
}

/// Times two sides on the same inputs.
pub fn race<I>(inputs: &[I], mut rust: impl FnMut(&I), mut rattle: impl FnMut(&I)) -> Times {
    let (rounds, runs) = rounds(|rounds| run(inputs, rounds, &mut rust).min(run(inputs, rounds, &mut rattle)));
    let calls = (rounds * inputs.len()) as f64;
    let mut best = Times { rust: f64::MAX, inlined: f64::NAN, rattle: f64::MAX };
    for _ in 0..runs {
        best.rust = best.rust.min(run(inputs, rounds, &mut rust) / calls);
        best.rattle = best.rattle.min(run(inputs, rounds, &mut rattle) / calls);
    }
    best
}

/// ns of a call that has no other side.
#[allow(dead_code)] // where the one subject that has such calls is left out
pub fn alone(mut call: impl FnMut()) -> f64 {
    let mut call = |_: &()| call();
    let (rounds, runs) = rounds(|rounds| run(&[()], rounds, &mut call));
    (0..runs).map(|_| run(&[()], rounds, &mut call) / rounds as f64).fold(f64::MAX, f64::min)
}
