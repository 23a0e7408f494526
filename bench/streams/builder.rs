//! A builder of streams, byte by byte.

/// Pseudo-random numbers, which are the same in each run.
pub struct Numbers(pub u64);

impl Numbers {
    pub fn next(&mut self) -> u32 {
        self.0 = self
            .0
            .wrapping_mul(6_364_136_223_846_793_005)
            .wrapping_add(1_442_695_040_888_963_407);
        (self.0 >> 32) as u32
    }

    /// Returns a number that is at least `least` and below `end`.
    pub fn between(&mut self, least: u32, end: u32) -> u32 {
        least + self.next() % (end - least)
    }
}

#[derive(Default)]
pub struct Builder {
    pub bytes: Vec<u8>,
}

impl Builder {
    pub fn u8(&mut self, number: u8) {
        self.bytes.push(number);
    }

    pub fn u16(&mut self, number: u16) {
        self.bytes.extend(number.to_be_bytes());
    }

    pub fn u32(&mut self, number: u32) {
        self.bytes.extend(number.to_be_bytes());
    }

    pub fn u64(&mut self, number: u64) {
        self.bytes.extend(number.to_be_bytes());
    }

    pub fn numbers(&mut self, numbers: &[u32]) {
        for number in numbers {
            self.u32(*number);
        }
    }

    pub fn zeros(&mut self, count: usize) {
        self.bytes.resize(self.bytes.len() + count, 0);
    }

    pub fn text(&mut self, text: &str) {
        self.bytes.extend(text.as_bytes());
    }

    /// Appends a box whose content the function `put` appends.
    pub fn plain(&mut self, code: &[u8; 4], put: impl FnOnce(&mut Builder)) {
        let start = self.bytes.len();
        self.u32(0);
        self.bytes.extend(code);
        put(self);
        let size = (self.bytes.len() - start) as u32;
        self.bytes[start..start + 4].copy_from_slice(&size.to_be_bytes());
    }

    /// Appends a box with this version and flags, after which `put` appends the rest.
    pub fn full(
        &mut self,
        code: &[u8; 4],
        version: u8,
        flags: u32,
        put: impl FnOnce(&mut Builder),
    ) {
        self.plain(code, |b| {
            b.u32(u32::from(version) << 24 | flags);
            put(b);
        });
    }

    /// Appends a box of version 0 without flags, with a count and numbers.
    pub fn table(&mut self, code: &[u8; 4], count: u32, numbers: &[u32]) {
        self.full(code, 0, 0, |b| {
            b.u32(count);
            b.numbers(numbers);
        });
    }
}

/// Returns the bytes of each box of a stream in which all headers have 8 bytes.
pub fn boxes_of(mut stream: &[u8]) -> impl Iterator<Item = &[u8]> {
    std::iter::from_fn(move || {
        let size = u32::from_be_bytes(*stream.first_chunk()?);
        let (first, rest) = stream.split_at(size as usize);
        stream = rest;
        Some(first)
    })
}

/// Returns the boxes of a stream except those with `codes`.
pub fn without(stream: &[u8], codes: &[&[u8; 4]]) -> Vec<u8> {
    boxes_of(stream)
        .filter(|b| codes.iter().all(|code| b[4..8] != code[..]))
        .collect::<Vec<_>>()
        .concat()
}
