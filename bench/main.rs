//! Measures the codec and plain Rust, and prints the tables of docs/internals/BENCHMARKS.md. There are several runs.
//! This program starts a separate process for each stream.

mod best;
mod boxes;
mod codec;
mod declared;
mod naive;
mod report;
mod samples;
mod streams;
mod subject;
mod timing;

use boxes::{AnyBox, KeptBox};
use declared::DeclaredTimes;
use report::{DeclaredLine, Line, SampleLine};
use samples::SampleTimes;
use std::env;
use std::hint::black_box;
use std::process::{Command, Stdio};
use streams::Stream;
use subject::Subject;
use timing::Times;

/// The number of runs. The ratios of all runs are printed.
const RUNS: usize = 3;

/// The argument before the number of the stream that a process measures.
const STREAM: &str = "--stream";

/// The argument of a process that measures the samples of a track.
const SAMPLES: &str = "--samples";

/// The argument of a process that measures a declared box.
const DECLARED: &str = "--declared";

fn main() {
    let mut arguments = env::args().skip(1);
    let rounds: usize = arguments
        .next()
        .expect("the number of rounds")
        .parse()
        .expect("a number");
    let lines: Vec<String> = arguments.collect();
    match &lines[..] {
        [word, number] if word == STREAM => measure(number.parse().expect("a number"), rounds),
        [word] if word == SAMPLES => measure_samples(rounds),
        [word] if word == DECLARED => measure_declared(rounds),
        _ => print_all(rounds, &lines),
    }
}

/// Measures one stream, and prints its times in seconds.
fn measure(number: usize, rounds: usize) {
    let subject = Subject::new(streams::nth(number));
    // The allocator keeps freed memory, so that no way has to wait for fresh pages from the system.
    drop(black_box(vec![1u8; 30_000_000]));
    let times = timing::measure(&subject, rounds);
    for seconds in times.read.iter().chain(&times.write).chain(&times.small) {
        println!("{seconds:e}");
    }
}

/// Measures the samples of a track, and prints the times in seconds.
fn measure_samples(rounds: usize) {
    let times = samples::measure(rounds.div_ceil(4));
    for seconds in times.in_order.iter().chain(&times.by_number) {
        println!("{seconds:e}");
    }
}

/// Measures a declared box and one with hand-written code, and prints the times in seconds.
fn measure_declared(rounds: usize) {
    let times = declared::measure(rounds);
    for seconds in times.read.iter().chain(&times.write) {
        println!("{seconds:e}");
    }
}

/// Starts this program as a new process with the arguments `words`. Returns a function that gives the seconds which the
/// process prints, one at a time.
fn seconds_of(words: &[String]) -> impl FnMut() -> f64 {
    let program = env::current_exe().expect("the path of this program");
    let child = Command::new(program)
        .args(words)
        .stderr(Stdio::inherit())
        .output()
        .expect("a process");
    assert!(child.status.success(), "{words:?} was not measured");
    let text = String::from_utf8(child.stdout).expect("text");
    let seconds: Vec<f64> = text
        .lines()
        .map(|line| line.parse().expect("seconds"))
        .collect();
    let mut seconds = seconds.into_iter();
    move || seconds.next().expect("a time")
}

/// Returns the times of stream `number`, which a new process measures.
fn measured(number: usize, rounds: usize) -> Times {
    let mut next = seconds_of(&[rounds.to_string(), STREAM.to_owned(), number.to_string()]);
    Times {
        read: [next(), next(), next(), next()],
        write: [next(), next(), next(), next()],
        small: [next(), next(), next()],
    }
}

fn measured_samples(rounds: usize) -> SampleTimes {
    let mut next = seconds_of(&[rounds.to_string(), SAMPLES.to_owned()]);
    SampleTimes {
        in_order: [next(), next()],
        by_number: [next(), next(), next()],
    }
}

fn measured_declared(rounds: usize) -> DeclaredTimes {
    let mut next = seconds_of(&[rounds.to_string(), DECLARED.to_owned()]);
    DeclaredTimes {
        read: [next(), next()],
        write: [next(), next()],
    }
}

fn print_all(rounds: usize, lines: &[String]) {
    let streams: Vec<Stream> = streams::all();
    let mut all: Vec<Line> = streams.iter().map(Line::new).collect();
    let mut samples = SampleLine::default();
    let mut declared = DeclaredLine::default();
    for run in 1..=RUNS {
        eprintln!("run {run} of {RUNS}");
        for (number, line) in all.iter_mut().enumerate() {
            line.runs.push(measured(number, rounds));
        }
        samples.runs.push(measured_samples(rounds));
        declared.runs.push(measured_declared(rounds));
    }
    for line in lines {
        println!("- {line}");
    }
    println!(
        "- times in µs, of one pass, the least of {RUNS} runs of {rounds} rounds each, of about {} ms a way; of {} \
         rounds for streams above {} bytes",
        timing::SECONDS * 1e3,
        timing::rounds_of_large(rounds),
        timing::LARGE,
    );
    println!(
        "- *ratio*: codec / best effort, the middle one of the runs, and in brackets the least and the greatest. Of \
         each table the first five columns are of reading, the last four of writing; *copy* is that of reading"
    );
    println!(
        "- bytes of a member of a list: codec {}, best effort and naive {}; with other boxes kept {} and {}; of boxes \
         of fragments {}",
        codec::member_size(),
        size_of::<AnyBox>(),
        codec::kept_member_size(),
        size_of::<KeptBox>(),
        codec::fragment_member_size(),
    );
    report::print(&all, &samples, &declared);
}
