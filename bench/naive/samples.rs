//! The samples of a track by number. As in the Rust crate `mp4`, each look-up visits the runs of each table in order,
//! and adds up the sizes of the samples before it in its chunk.

use crate::boxes::*;

/// Returns the entry of `stsc` for sample `id`, by the first samples that reading has computed.
fn chunk_run<'a>(t: Tables<'a>, id: u32) -> Option<&'a StscEntry> {
    for (index, entry) in t.stsc.entries.iter().enumerate() {
        if id < entry.first_sample {
            return t.stsc.entries.get(index.checked_sub(1)?);
        }
    }
    t.stsc.entries.last()
}

fn size(t: Tables, id: u32) -> Option<u32> {
    if t.stsz.sample_size > 0 {
        return Some(t.stsz.sample_size);
    }
    t.stsz.sample_sizes.get(id as usize - 1).copied()
}

/// Returns the offset of sample `id`, and its chunk.
fn place(t: Tables, id: u32) -> Option<(u64, u32)> {
    let entry = chunk_run(t, id)?;
    let chunk = entry.first_chunk + (id - entry.first_sample) / entry.samples_per_chunk;
    let mut offset = u64::from(*t.stco.entries.get(chunk as usize - 1)?);
    let first = id - (id - entry.first_sample) % entry.samples_per_chunk;
    for before in first..id {
        offset += u64::from(size(t, before)?);
    }
    Some((offset, chunk))
}

/// Returns the start time and the duration of sample `id`.
fn time(t: Tables, id: u32) -> Option<(u64, u32)> {
    let (mut first, mut elapsed) = (1, 0);
    for entry in &t.stts.entries {
        if id < first + entry.sample_count {
            let start = elapsed + u64::from(id - first) * u64::from(entry.sample_delta);
            return Some((start, entry.sample_delta));
        }
        first += entry.sample_count;
        elapsed += u64::from(entry.sample_count) * u64::from(entry.sample_delta);
    }
    None
}

fn rendering_offset(t: Tables, id: u32) -> i32 {
    let mut first = 1;
    for entry in &t.ctts.entries {
        if id < first + entry.sample_count {
            return entry.sample_offset;
        }
        first += entry.sample_count;
    }
    0
}

/// Returns the sample `number`, counted from 0.
pub fn sample(t: Tables, number: u32) -> Option<Sample> {
    let id = number + 1;
    let (offset, chunk) = place(t, id)?;
    let (start_time, duration) = time(t, id)?;
    Some(Sample {
        offset,
        size: size(t, id)?,
        start_time,
        duration,
        rendering_offset: i64::from(rendering_offset(t, id)),
        is_sync: t.stss.entries.binary_search(&id).is_ok(),
        sample_description_index: chunk_run(t, id)?.sample_description_index,
        chunk,
    })
}
