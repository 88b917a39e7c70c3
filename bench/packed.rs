// Samples in packed chunks, in the server's format: each sample as three numbers in groups of seven bits. They say how its
// distance from the previous sample differs from the distance before, and how its value and its number of rules differ
// from the previous ones. A full chunk is split in halves.
use crate::store::{Sample, Store};
use std::ops::Range;
use std::slice::Iter;

/// The most bytes of a chunk.
const LIMIT: usize = 4096;

/// The first capacity of a chunk in bytes. It doubles up to the limit.
const ROOM: usize = 128;

/// The most bytes of a sample: ten of its time, twelve of its value, five of its number of rules.
const WIDEST: usize = 27;

/// How many samples are coded again after an inserted one: from the third on, their coding context is unchanged.
const ANEW: usize = 2;

fn zigzag(number: i64) -> u64 {
    (number << 1 ^ number >> 63) as u64
}

fn unzigzag(number: u64) -> i64 {
    (number >> 1) as i64 ^ -((number & 1) as i64)
}

fn zigzag_wide(number: i128) -> u128 {
    (number << 1 ^ number >> 127) as u128
}

fn unzigzag_wide(number: u128) -> i128 {
    (number >> 1) as i128 ^ -((number & 1) as i128)
}

/// The bytes of a few samples.
struct Coded {
    bytes: [u8; (1 + ANEW) * WIDEST],
    count: usize,
}

impl Coded {
    fn new() -> Coded {
        Coded { bytes: [0; (1 + ANEW) * WIDEST], count: 0 }
    }

    fn as_slice(&self) -> &[u8] {
        &self.bytes[..self.count]
    }

    fn push(&mut self, byte: u8) {
        self.bytes[self.count] = byte;
        self.count += 1;
    }

    fn put(&mut self, mut number: u64) {
        while number >= 128 {
            self.push(number as u8 | 128);
            number >>= 7;
        }
        self.push(number as u8);
    }

    fn put_wide(&mut self, mut number: u128) {
        while number > u128::from(u64::MAX) {
            self.push(number as u8 | 128);
            number >>= 7;
        }
        self.put(number as u64);
    }

    /// Writes a sample, and returns the coding context after it.
    fn put_sample(&mut self, known: &Known, sample: Sample) -> Known {
        let gap = (sample.time - known.last.time) as i64;
        self.put(zigzag(gap - known.step));
        match i64::try_from(sample.value - known.last.value) {
            Ok(near) => self.put(zigzag(near)),
            Err(_) => self.put_wide(zigzag_wide(sample.value - known.last.value)),
        }
        self.put(zigzag(i64::from(sample.made) - i64::from(known.last.made)));
        known.after(sample)
    }
}

/// The number at the beginning of some bytes, and the bytes after it.
#[inline]
fn split(bytes: &[u8]) -> (u64, &[u8]) {
    match bytes {
        [byte @ 0..=127, rest @ ..] => (u64::from(*byte), rest),
        _ => split_long(bytes),
    }
}

fn split_long(mut bytes: &[u8]) -> (u64, &[u8]) {
    let (mut number, mut shift) = (0, 0);
    while let [byte, rest @ ..] = bytes {
        bytes = rest;
        number |= u64::from(byte & 127) << shift;
        if *byte < 128 {
            break;
        }
        shift += 7;
    }
    (number, bytes)
}

/// The difference of values at the beginning of some bytes, and the bytes after it. Nine bytes of it fit in 64 bits.
#[inline]
fn split_wide(mut bytes: &[u8]) -> (i128, &[u8]) {
    let (mut number, mut shift) = (0, 0);
    while let [byte, rest @ ..] = bytes {
        bytes = rest;
        number |= u64::from(byte & 127) << shift;
        if *byte < 128 {
            return (i128::from(unzigzag(number)), bytes);
        }
        shift += 7;
        if shift == 63 {
            break;
        }
    }
    let (higher, rest) = split(bytes);
    (unzigzag_wide(u128::from(number) | u128::from(higher) << shift), rest)
}

/// The coding context: the last sample, and its distance from the one before it.
#[derive(Clone, Copy, Default)]
struct Known {
    last: Sample,
    step: i64,
    begun: bool,
}

impl Known {
    fn after(&self, sample: Sample) -> Known {
        let step = if self.begun { (sample.time - self.last.time) as i64 } else { 0 };
        Known { last: sample, step, begun: true }
    }
}

/// Decodes samples one after another.
#[derive(Clone, Copy, Default)]
struct Decoder<'a> {
    bytes: &'a [u8],
    left: usize,
    known: Known,
}

impl<'a> Decoder<'a> {
    /// The next sample, and the bytes after it.
    #[inline(always)]
    fn peek(&self) -> Option<(Sample, &'a [u8])> {
        if self.left == 0 {
            return None;
        }
        let Sample { time, value, made } = self.known.last;
        let (beside_step, bytes) = split(self.bytes);
        let (farther, bytes) = split_wide(bytes);
        let (more_made, bytes) = split(bytes);
        let time = time + (self.known.step + unzigzag(beside_step)) as u64;
        let made = (i64::from(made) + unzigzag(more_made)) as u32;
        Some((Sample { time, value: value + farther, made }, bytes))
    }

    #[inline(always)]
    fn pass(&mut self, sample: Sample, after: &'a [u8]) {
        self.known = self.known.after(sample);
        self.bytes = after;
        self.left -= 1;
    }

    /// Skips the samples before a time.
    fn seek(&mut self, time: u64) {
        while let Some((sample, after)) = self.peek() {
            if sample.time >= time {
                break;
            }
            self.pass(sample, after);
        }
    }
}

impl Iterator for Decoder<'_> {
    type Item = Sample;

    #[inline]
    fn next(&mut self) -> Option<Sample> {
        let (sample, after) = self.peek()?;
        self.pass(sample, after);
        Some(sample)
    }
}

/// A chunk: at least one sample, in at most a limit of bytes.
struct Chunk {
    bytes: Vec<u8>,
    count: usize,
    first: Sample,
    known: Known,
}

/// The result of replacing samples of a chunk.
enum Spliced {
    /// This many were removed.
    Done(usize),
    /// There are some that must not be removed.
    Taken,
    /// The new ones do not fit.
    Full,
}

impl Chunk {
    /// A chunk of one sample, which always fits.
    fn new(sample: Sample) -> Chunk {
        let mut coded = Coded::new();
        let known = coded.put_sample(&Known::default(), sample);
        let mut bytes = Vec::with_capacity(ROOM);
        bytes.extend_from_slice(coded.as_slice());
        Chunk { bytes, count: 1, first: sample, known }
    }

    fn last(&self) -> Sample {
        self.known.last
    }

    fn samples(&self) -> Decoder<'_> {
        Decoder { bytes: &self.bytes, left: self.count, known: Known::default() }
    }

    /// Appends a sample, if it fits.
    fn append(&mut self, sample: Sample) -> bool {
        let mut coded = Coded::new();
        let known = coded.put_sample(&self.known, sample);
        if self.bytes.len() + coded.count > LIMIT {
            return false;
        }
        self.bytes.extend_from_slice(coded.as_slice());
        self.count += 1;
        self.known = known;
        true
    }

    /// Replaces the samples between two times by a sample, or by none, if it fits and they may be removed. The bytes after
    /// them are moved.
    fn splice(&mut self, from: u64, to: u64, sample: Option<Sample>, over: bool) -> Spliced {
        let mut rest = self.samples();
        rest.seek(from);
        let (begin, mut known, before) = (self.bytes.len() - rest.bytes.len(), rest.known, rest.left);
        rest.seek(to + 1);
        let gone = before - rest.left;
        if gone > 0 && !over {
            return Spliced::Taken;
        }
        let mut coded = Coded::new();
        for sample in sample.into_iter().chain(rest.by_ref().take(ANEW)) {
            known = coded.put_sample(&known, sample);
        }
        let (left, end) = (rest.left, self.bytes.len() - rest.bytes.len());
        if self.bytes.len() - (end - begin) + coded.count > LIMIT {
            return Spliced::Full;
        }
        self.bytes.splice(begin..end, coded.as_slice().iter().copied());
        self.count = self.count - gone + usize::from(sample.is_some());
        if begin == 0 {
            self.first = self.samples().next().unwrap_or_default();
        }
        if left == 0 {
            self.known = known;
        }
        Spliced::Done(gone)
    }

    /// Splits off the samples from a position on, at least one. All but the first few keep their bytes.
    fn split_off(&mut self, place: usize) -> Chunk {
        let mut rest = self.samples();
        for _ in 0..place {
            rest.next();
        }
        let (known, end) = (rest.known, self.bytes.len() - rest.bytes.len());
        let first = rest.peek().map_or_else(Sample::default, |(sample, _)| sample);
        let (mut coded, mut after) = (Coded::new(), Known::default());
        for sample in rest.by_ref().take(ANEW) {
            after = coded.put_sample(&after, sample);
        }
        let mut bytes = Vec::with_capacity(LIMIT);
        bytes.extend_from_slice(coded.as_slice());
        bytes.extend_from_slice(rest.bytes);
        let known_there = if rest.left == 0 { after } else { self.known };
        let late = Chunk { bytes, count: self.count - place, first, known: known_there };
        self.bytes.truncate(end);
        self.count = place;
        self.known = known;
        late
    }
}

/// Adds chunks of these samples: one if they fit, and else those of each half.
fn cut(samples: &[Sample], into: &mut Vec<Chunk>) {
    let Some((&first, rest)) = samples.split_first() else {
        return;
    };
    let mut chunk = Chunk::new(first);
    if rest.iter().all(|&sample| chunk.append(sample)) {
        into.push(chunk);
        return;
    }
    let (early, late) = samples.split_at(samples.len() / 2);
    cut(early, into);
    cut(late, into);
}

/// The samples of some chunks up to a time.
struct Walk<'a> {
    chunks: Iter<'a, Chunk>,
    at: Decoder<'a>,
    to: u64,
}

impl Iterator for Walk<'_> {
    type Item = Sample;

    #[inline]
    fn next(&mut self) -> Option<Sample> {
        loop {
            if let Some(sample) = self.at.next() {
                return (sample.time <= self.to).then_some(sample);
            }
            self.at = self.chunks.next()?.samples();
        }
    }
}

#[derive(Default)]
pub struct Packed {
    chunks: Vec<Chunk>,
}

impl Packed {
    /// The index range of the chunks that may have samples between two times.
    fn meeting(&self, from: u64, to: u64) -> Range<usize> {
        let start = self.chunks.partition_point(|chunk| chunk.last().time < from);
        let end = self.chunks.partition_point(|chunk| chunk.first.time <= to);
        start..end.max(start)
    }

    /// Inserts a sample at its time, and returns whether it did.
    fn place(&mut self, sample: Sample, over: bool) -> bool {
        let late = self.chunks.last().is_some_and(|chunk| chunk.last().time >= sample.time);
        if !late {
            self.append(sample);
            return true;
        }
        let at = self.chunks.partition_point(|chunk| chunk.last().time < sample.time);
        match self.chunks[at].splice(sample.time, sample.time, Some(sample), over) {
            Spliced::Done(_) => true,
            Spliced::Taken => false,
            Spliced::Full => {
                self.place_in_half(at, sample);
                true
            }
        }
    }

    fn append(&mut self, sample: Sample) {
        let fits = self.chunks.last_mut().is_some_and(|chunk| chunk.append(sample));
        if !fits {
            self.chunks.push(Chunk::new(sample));
        }
    }

    /// Splits a full chunk so that each half gets half of the samples with this one, and inserts it into its half.
    fn place_in_half(&mut self, at: usize, sample: Sample) {
        let chunk = &mut self.chunks[at];
        let mut rest = chunk.samples();
        rest.seek(sample.time);
        let place = chunk.count - rest.left;
        let is_new = rest.peek().is_none_or(|(next, _)| next.time != sample.time);
        let half = (chunk.count + usize::from(is_new)) / 2;
        let is_early = place < half;
        let late = chunk.split_off(half - usize::from(is_early && is_new));
        self.chunks.insert(at + 1, late);
        let at = if is_early { at } else { at + 1 };
        if let Spliced::Full = self.chunks[at].splice(sample.time, sample.time, Some(sample), true) {
            self.change(at, |samples| samples.put(sample));
        }
    }

    /// Rebuilds a chunk from its samples after a change.
    fn change(&mut self, at: usize, change: impl FnOnce(&mut Vec<Sample>)) {
        let mut samples: Vec<Sample> = self.chunks[at].samples().collect();
        change(&mut samples);
        let mut anew = Vec::new();
        cut(&samples, &mut anew);
        self.chunks.splice(at..=at, anew);
    }

    /// Removes the chunks whose samples are all between two times, and returns how many samples they had.
    fn remove_whole(&mut self, from: u64, to: u64) -> usize {
        let start = self.chunks.partition_point(|chunk| chunk.first.time < from);
        let end = self.chunks.partition_point(|chunk| chunk.last().time <= to);
        self.chunks.drain(start..end.max(start)).map(|chunk| chunk.count).sum()
    }

    /// Removes the samples of a chunk between two times, which are not all of its samples, and returns how many there were.
    fn remove_within(&mut self, at: usize, from: u64, to: u64) -> usize {
        if let Spliced::Done(gone) = self.chunks[at].splice(from, to, None, true) {
            return gone;
        }
        let mut gone = 0;
        self.change(at, |samples| gone = samples.take_out(from, to));
        gone
    }
}

impl Store for Packed {
    fn between(&self, from: u64, to: u64) -> impl Iterator<Item = Sample> {
        let mut chunks = self.chunks[self.meeting(from, to)].iter();
        let mut at = chunks.next().map(Chunk::samples).unwrap_or_default();
        at.seek(from);
        Walk { chunks, at, to }
    }

    fn backwards(&self, from: u64, to: u64) -> impl Iterator<Item = Sample> {
        let chunks = self.chunks[self.meeting(from, to)].iter().rev();
        let all = chunks.flat_map(|chunk| chunk.samples().collect::<Vec<_>>().into_iter().rev());
        all.skip_while(move |s| s.time > to).take_while(move |s| s.time >= from)
    }

    fn ends(&self) -> Option<(u64, u64)> {
        Some((self.chunks.first()?.first.time, self.chunks.last()?.last().time))
    }

    fn add(&mut self, sample: Sample) -> bool {
        self.place(sample, false)
    }

    fn put(&mut self, sample: Sample) {
        self.place(sample, true);
    }

    fn take_out(&mut self, from: u64, to: u64) -> usize {
        let whole = self.remove_whole(from, to);
        let within = self.meeting(from, to).rev().map(|at| self.remove_within(at, from, to));
        whole + within.sum::<usize>()
    }

    fn forget(&mut self, times: &[u64]) {
        let ([first, .., last] | [first @ last]) = times else {
            return;
        };
        let stays = |s: Sample| times.binary_search(&s.time).is_err();
        if !self.between(*first, *last).any(stays) {
            self.take_out(*first, *last);
            return;
        }
        for at in self.meeting(*first, *last).rev() {
            self.change(at, |samples| samples.forget(times));
        }
    }

    fn bytes(&self) -> usize {
        self.chunks.iter().map(|chunk| chunk.bytes.len()).sum()
    }
}
