//! The samples of a track. In order, they are found by a position in each table. By number, they are found by an index
//! of the starts of all runs.

use crate::boxes::*;

/// Checks that the tables agree, so that each sample has a position.
pub fn check(t: Tables) -> Result<()> {
    let count = t.stsz.sample_count;
    test(t.stsz.sample_size != 0 || t.stsz.sample_sizes.len() == count as usize)?;
    let runs = &t.stsc.entries[..];
    test(runs.first().is_none_or(|entry| entry.first_chunk == 1))?;
    test(
        runs.windows(2)
            .all(|pair| pair[0].first_chunk < pair[1].first_chunk),
    )?;
    let chunks = u32::try_from(t.stco.entries.len()).map_err(|_| Error::InvalidData)?;
    let ends = runs
        .iter()
        .skip(1)
        .map(|entry| entry.first_chunk - 1)
        .chain([u32::MAX]);
    let held: u64 = runs
        .iter()
        .zip(ends)
        .map(|(entry, end)| {
            let in_run = end.min(chunks).saturating_sub(entry.first_chunk - 1);
            u64::from(in_run) * u64::from(entry.samples_per_chunk)
        })
        .sum();
    test(held >= u64::from(count))?;
    let timed: u64 = t
        .stts
        .entries
        .iter()
        .map(|entry| u64::from(entry.sample_count))
        .sum();
    test(timed >= u64::from(count))?;
    test(t.stss.entries.first().is_none_or(|first| *first > 0))?;
    test(t.stss.entries.windows(2).all(|pair| pair[0] < pair[1]))?;
    let bytes: u64 = if t.stsz.sample_size == 0 {
        t.stsz
            .sample_sizes
            .iter()
            .map(|size| u64::from(*size))
            .sum()
    } else {
        u64::from(count) * u64::from(t.stsz.sample_size)
    };
    let last = t
        .stco
        .entries
        .iter()
        .max()
        .map_or(0, |offset| u64::from(*offset));
    test(last.checked_add(bytes).is_some())
}

/// An iterator over the samples of tables that agree. It keeps the values that all samples of a run share.
pub struct Samples<'a> {
    tables: Tables<'a>,
    number: u32,
    chunk: u32,
    per_chunk: u32,
    description: u32,
    in_chunk: u32,
    position: u64,
    duration: u32,
    timed: u32,
    time: u64,
    rendering_offset: i64,
    composed: u32,
    next_sync: u32,
    runs: std::slice::Iter<'a, StscEntry>,
    durations: std::slice::Iter<'a, SttsEntry>,
    offsets: std::slice::Iter<'a, CttsEntry>,
    syncs: std::slice::Iter<'a, u32>,
}

impl<'a> Samples<'a> {
    pub fn new(tables: Tables<'a>) -> Samples<'a> {
        let mut syncs = tables.stss.entries.iter();
        Samples {
            tables,
            number: 0,
            chunk: 0,
            per_chunk: 0,
            description: 0,
            in_chunk: 0,
            position: 0,
            duration: 0,
            timed: 0,
            time: 0,
            rendering_offset: 0,
            composed: 0,
            next_sync: syncs.next().copied().unwrap_or(0),
            runs: tables.stsc.entries.iter(),
            durations: tables.stts.entries.iter(),
            offsets: tables.ctts.entries.iter(),
            syncs,
        }
    }

    /// Moves to the next chunk that has samples.
    fn next_chunk(&mut self) {
        while self.in_chunk == 0 {
            self.position = u64::from(self.tables.stco.entries[self.chunk as usize]);
            self.chunk += 1;
            if let Some(entry) = self.runs.as_slice().first() {
                if entry.first_chunk == self.chunk {
                    self.per_chunk = entry.samples_per_chunk;
                    self.description = entry.sample_description_index;
                    self.runs.next();
                }
            }
            self.in_chunk = self.per_chunk;
        }
    }
}

impl Iterator for Samples<'_> {
    type Item = Sample;

    #[inline]
    fn next(&mut self) -> Option<Sample> {
        let stsz = self.tables.stsz;
        if self.number >= stsz.sample_count {
            return None;
        }
        if self.in_chunk == 0 {
            self.next_chunk();
        }
        while self.timed == 0 {
            let entry = self.durations.next()?;
            (self.timed, self.duration) = (entry.sample_count, entry.sample_delta);
        }
        while self.composed == 0 {
            (self.composed, self.rendering_offset) =
                self.offsets.next().map_or((u32::MAX, 0), |entry| {
                    (entry.sample_count, i64::from(entry.sample_offset))
                });
        }
        let size = match stsz.sample_size {
            0 => stsz.sample_sizes[self.number as usize],
            size => size,
        };
        self.number += 1;
        let is_sync = self.next_sync == self.number;
        if is_sync {
            self.next_sync = self.syncs.next().copied().unwrap_or(0);
        }
        let sample = Sample {
            offset: self.position,
            size,
            start_time: self.time,
            duration: self.duration,
            rendering_offset: self.rendering_offset,
            is_sync,
            sample_description_index: self.description,
            chunk: self.chunk,
        };
        self.in_chunk -= 1;
        self.position += u64::from(size);
        self.timed -= 1;
        self.time += u64::from(self.duration);
        self.composed -= 1;
        Some(sample)
    }
}

/// The number of sizes for each sum in an index.
const STEP: usize = 64;

/// An index of tables that agree: the starts of all runs.
pub struct Index<'a> {
    tables: Tables<'a>,
    chunk_runs: Vec<u64>,
    duration_runs: Vec<(u64, u64)>,
    offset_runs: Vec<u64>,
    sums: Vec<u64>,
}

impl<'a> Index<'a> {
    pub fn new(tables: Tables<'a>) -> Index<'a> {
        let (mut first, mut last, mut per_chunk) = (0, 1, 0);
        let mut chunk_runs = Vec::with_capacity(tables.stsc.entries.len());
        for entry in &tables.stsc.entries {
            first += u64::from(entry.first_chunk - last) * u64::from(per_chunk);
            (last, per_chunk) = (entry.first_chunk, entry.samples_per_chunk);
            chunk_runs.push(first);
        }
        let (mut first, mut time) = (0, 0u64);
        let mut duration_runs = Vec::with_capacity(tables.stts.entries.len());
        for entry in &tables.stts.entries {
            duration_runs.push((first, time));
            first += u64::from(entry.sample_count);
            time = time.wrapping_add(u64::from(entry.sample_count) * u64::from(entry.sample_delta));
        }
        let mut first = 0;
        let mut offset_runs = Vec::with_capacity(tables.ctts.entries.len());
        for entry in &tables.ctts.entries {
            offset_runs.push(first);
            first += u64::from(entry.sample_count);
        }
        let mut sum = 0;
        let mut sums = Vec::with_capacity(tables.stsz.sample_sizes.len() / STEP + 1);
        for sizes in tables.stsz.sample_sizes.chunks(STEP) {
            sums.push(sum);
            sum += sizes.iter().map(|size| u64::from(*size)).sum::<u64>();
        }
        Index {
            tables,
            chunk_runs,
            duration_runs,
            offset_runs,
            sums,
        }
    }

    /// Returns the number of bytes of the samples from `first` to `number - 1`.
    fn bytes_between(&self, first: usize, number: usize) -> u64 {
        if self.tables.stsz.sample_size != 0 {
            return (number - first) as u64 * u64::from(self.tables.stsz.sample_size);
        }
        let sizes = &self.tables.stsz.sample_sizes;
        let total = |sizes: &[u32]| sizes.iter().map(|size| u64::from(*size)).sum::<u64>();
        if number - first < 2 * STEP {
            return total(&sizes[first..number]);
        }
        let (from, to) = (first.div_ceil(STEP), number / STEP);
        total(&sizes[first..from * STEP]) + self.sums[to] - self.sums[from]
            + total(&sizes[to * STEP..number])
    }

    /// Returns the sample `number`, counted from 0.
    pub fn sample(&self, number: u32) -> Option<Sample> {
        let t = self.tables;
        if number >= t.stsz.sample_count {
            return None;
        }
        let wide = u64::from(number);
        let run = self.chunk_runs.partition_point(|first| *first <= wide) - 1;
        let entry = &t.stsc.entries[run];
        let into = wide - self.chunk_runs[run];
        let chunk = u64::from(entry.first_chunk) + into / u64::from(entry.samples_per_chunk);
        let first = wide - into % u64::from(entry.samples_per_chunk);
        let timed = self
            .duration_runs
            .partition_point(|(first, _)| *first <= wide)
            - 1;
        let duration = t.stts.entries[timed].sample_delta;
        let (first_timed, time) = self.duration_runs[timed];
        let composed = self
            .offset_runs
            .partition_point(|first| *first <= wide)
            .checked_sub(1);
        let composed = composed
            .map(|run| (&t.ctts.entries[run], wide - self.offset_runs[run]))
            .filter(|(entry, into)| *into < u64::from(entry.sample_count));
        let size = match t.stsz.sample_size {
            0 => t.stsz.sample_sizes[number as usize],
            size => size,
        };
        Some(Sample {
            offset: u64::from(t.stco.entries[chunk as usize - 1])
                + self.bytes_between(first as usize, number as usize),
            size,
            start_time: time + (wide - first_timed) * u64::from(duration),
            duration,
            rendering_offset: composed.map_or(0, |(entry, _)| i64::from(entry.sample_offset)),
            is_sync: t.stss.entries.binary_search(&(number + 1)).is_ok(),
            sample_description_index: entry.sample_description_index,
            chunk: chunk as u32,
        })
    }
}
