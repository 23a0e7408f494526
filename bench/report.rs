//! The printed tables of results.

use crate::declared::{self, DeclaredTimes};
use crate::samples::{SampleTimes, COUNT};
use crate::streams::Stream;
use crate::timing::Times;

/// The length for which each table has a line. For other lengths only the range of all ratios is printed.
const SHOWN: u32 = 10_000;

/// A stream and its times in each run.
pub struct Line<'a> {
    stream: &'a Stream,
    pub runs: Vec<Times>,
}

/// The times of the samples of a track, in each run.
#[derive(Default)]
pub struct SampleLine {
    pub runs: Vec<SampleTimes>,
}

/// The times of a declared box and of one with hand-written code, in each run.
#[derive(Default)]
pub struct DeclaredLine {
    pub runs: Vec<DeclaredTimes>,
}

/// The ratios of all runs, from the least to the greatest.
struct Ratios(Vec<f64>);

impl Ratios {
    fn new(ratios: impl Iterator<Item = f64>) -> Ratios {
        let mut ratios: Vec<f64> = ratios.collect();
        ratios.sort_by(f64::total_cmp);
        Ratios(ratios)
    }

    /// Returns the median.
    fn middle(&self) -> f64 {
        self.0[self.0.len() / 2]
    }

    fn least(&self) -> f64 {
        self.0[0]
    }

    fn greatest(&self) -> f64 {
        self.0[self.0.len() - 1]
    }

    /// Returns the median, and the range in brackets.
    fn text(&self) -> String {
        let (middle, least, greatest) = (self.middle(), self.least(), self.greatest());
        format!("**{middle:.2}** ({least:.2} to {greatest:.2})")
    }
}

impl<'a> Line<'a> {
    pub fn new(stream: &'a Stream) -> Line<'a> {
        let runs = Vec::new();
        Line { stream, runs }
    }

    /// Returns the least `time` of all runs.
    fn least(&self, time: impl Fn(&Times) -> f64) -> f64 {
        self.runs.iter().map(time).fold(f64::MAX, f64::min)
    }

    /// Returns the codec's times divided by those of the best effort.
    fn ratios(&self, times: impl Fn(&Times) -> [f64; 4]) -> Ratios {
        Ratios::new(self.runs.iter().map(|run| {
            let [_, codec, best, _] = times(run);
            codec / best
        }))
    }

    /// Returns the columns of all ways except the copy, and of the ratio.
    fn columns(&self, times: impl Fn(&Times) -> [f64; 4]) -> String {
        let [codec, best, naive] = [1, 2, 3].map(|way| micros(self.least(|run| times(run)[way])));
        format!("{codec} | {best} | {naive} | {}", self.ratios(times).text())
    }

    fn print(&self, name: &str) {
        let copy = micros(self.least(|run| run.read[0]));
        let (reading, writing) = (self.columns(|run| run.read), self.columns(|run| run.write));
        println!("| {name} | {copy} | {reading} | {writing} |");
    }

    /// Describes the aims that the stream misses.
    fn missed(&self) -> Vec<String> {
        let Some(aims) = self.stream.aims else {
            return Vec::new();
        };
        let tests = [
            ("reading", self.ratios(|run| run.read), aims.reading),
            ("writing", self.ratios(|run| run.write), aims.writing),
        ];
        let is_missed = |ratios: &Ratios, aim: f64| (ratios.middle() * 100.0).round() > aim * 100.0;
        tests
            .into_iter()
            .filter(|(_, ratios, aim)| is_missed(ratios, *aim))
            .map(|(doing, ratios, aim)| {
                let (name, of) = (&self.stream.name, grouped(count(self.stream)));
                format!(
                    "{doing} {name} of {of} ({:.2}, aim {aim:.2})",
                    ratios.middle()
                )
            })
            .collect()
    }
}

/// Returns the number of entries if `stream` is one table, or else the number of boxes.
fn count(stream: &Stream) -> usize {
    stream
        .entries
        .map_or(stream.boxes, |entries| entries as usize)
}

/// Returns `number` with commas between groups of three digits.
fn grouped(number: usize) -> String {
    if number < 1000 {
        number.to_string()
    } else {
        format!("{},{:03}", grouped(number / 1000), number % 1000)
    }
}

/// Returns `seconds` in microseconds, with at least three digits.
fn micros(seconds: f64) -> String {
    figures(seconds * 1e6)
}

/// Returns `number` with at least three digits.
fn figures(number: f64) -> String {
    match number {
        0.0..10.0 => format!("{number:.2}"),
        10.0..100.0 => format!("{number:.1}"),
        _ => format!("{number:.0}"),
    }
}

/// Prints the head of a table of streams.
fn print_head(title: &str) {
    println!("\n| {title} | copy | codec | best effort | naive | ratio | codec | best effort | naive | ratio |");
    println!("|---|--:|--:|--:|--:|--:|--:|--:|--:|--:|");
}

pub fn print(lines: &[Line], samples: &SampleLine, declared: &DeclaredLine) {
    let (tables, small): (Vec<&Line>, Vec<&Line>) =
        lines.iter().partition(|line| line.stream.entries.is_some());
    print_head(&format!("{} entries", grouped(SHOWN as usize)));
    for line in tables
        .iter()
        .filter(|line| line.stream.entries == Some(SHOWN))
    {
        line.print(&line.stream.name);
    }
    print_head("boxes");
    for line in &small {
        line.print(&format!(
            "{}, {}",
            line.stream.name,
            grouped(count(line.stream))
        ));
    }
    print_other_lengths(&tables);
    print_each(&small);
    samples.print();
    declared.print();
    let missed: Vec<String> = lines.iter().flat_map(Line::missed).collect();
    let missed = if missed.is_empty() {
        "none".to_owned()
    } else {
        missed.join(", ")
    };
    println!("\nAims missed: {missed}.");
}

/// Prints the range of the ratios of all tables, for each length except `SHOWN`.
fn print_other_lengths(tables: &[&Line]) {
    println!("\n| entries | ratios in reading | in writing |");
    println!("|--:|--:|--:|");
    let mut lengths: Vec<u32> = tables
        .iter()
        .filter_map(|line| line.stream.entries)
        .collect();
    lengths.dedup();
    for length in lengths.into_iter().filter(|length| *length != SHOWN) {
        let range = |times: fn(&Times) -> [f64; 4]| {
            let of_length = tables
                .iter()
                .filter(|line| line.stream.entries == Some(length));
            let ratios: Vec<f64> = of_length.map(|line| line.ratios(times).middle()).collect();
            let all = Ratios::new(ratios.into_iter());
            format!("{:.2} to {:.2}", all.least(), all.greatest())
        };
        let (reading, writing) = (range(|run| run.read), range(|run| run.write));
        println!("| {} | {reading} | {writing} |", grouped(length as usize));
    }
}

/// Prints the times of small boxes: read into a list, one at a time, and into a list of only boxes of fragments.
fn print_each(lines: &[&Line]) {
    println!(
        "\n| boxes, read | into a list | one at a time | best effort, one at a time | ratio | into a list of \
         `FragmentBox` |"
    );
    println!("|---|--:|--:|--:|--:|--:|");
    for line in lines {
        let list = micros(line.least(|run| run.read[1]));
        let [each, best] = [0, 1].map(|way| micros(line.least(|run| run.small[way])));
        let ratio = Ratios::new(line.runs.iter().map(|run| run.small[0] / run.small[1])).text();
        let fragments = line.least(|run| run.small[2]);
        let fragments = if fragments == f64::MAX {
            String::new()
        } else {
            micros(fragments)
        };
        let name = format!("{}, {}", line.stream.name, grouped(count(line.stream)));
        println!("| {name} | {list} | {each} | {best} | {ratio} | {fragments} |");
    }
}

impl SampleLine {
    /// Returns the least `time` of all runs, in nanoseconds.
    fn nanos(&self, time: impl Fn(&SampleTimes) -> f64) -> String {
        figures(self.runs.iter().map(time).fold(f64::MAX, f64::min) * 1e9)
    }

    fn print(&self) {
        println!(
            "\n| {} samples, ns each | codec | best effort | ratio | as the crate `mp4` looks one up |",
            grouped(COUNT as usize)
        );
        println!("|---|--:|--:|--:|--:|");
        let ratio = Ratios::new(
            self.runs
                .iter()
                .map(|run| run.in_order[0] / run.in_order[1]),
        )
        .text();
        let [codec, best] = [0, 1].map(|way| self.nanos(|run| run.in_order[way]));
        println!("| one after the other, tables checked first | {codec} | {best} | {ratio} | |");
        let ratio = Ratios::new(
            self.runs
                .iter()
                .map(|run| run.by_number[0] / run.by_number[1]),
        )
        .text();
        let [codec, best, naive] = [0, 1, 2].map(|way| self.nanos(|run| run.by_number[way]));
        println!("| each by its number, from an index | {codec} | {best} | {ratio} | {naive} |");
    }
}

impl DeclaredLine {
    /// Returns the least times of both ways in microseconds, and the ratio.
    fn columns(&self, times: impl Fn(&DeclaredTimes) -> [f64; 2]) -> String {
        let least = |way: usize| self.runs.iter().map(|run| times(run)[way]).fold(f64::MAX, f64::min);
        let ratio = Ratios::new(self.runs.iter().map(|run| times(run)[1] / times(run)[0])).text();
        format!("{} | {} | {ratio}", micros(least(0)), micros(least(1)))
    }

    fn print(&self) {
        println!(
            "\n| {} `mfhd`, read and written one by one | by hand | declared | ratio |",
            grouped(declared::COUNT as usize)
        );
        println!("|---|--:|--:|--:|");
        println!("| reading | {} |", self.columns(|run| run.read));
        println!("| writing | {} |", self.columns(|run| run.write));
    }
}
