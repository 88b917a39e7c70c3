// How a yardstick stores the samples of a series: the trait, and the plain way, one ascending vector.
use std::ops::Range;

#[derive(Clone, Copy, Default)]
pub struct Sample {
    pub time: u64,
    pub value: i128,
    pub made: u32,
}

/// Samples in ascending time.
pub trait Store: Default {
    /// The samples between two times, both included, in ascending order.
    fn between(&self, from: u64, to: u64) -> impl Iterator<Item = Sample>;

    /// The same, the last one first.
    fn backwards(&self, from: u64, to: u64) -> impl Iterator<Item = Sample>;

    /// The times of the first and the last one.
    fn ends(&self) -> Option<(u64, u64)>;

    /// Inserts a sample, unless its time has one.
    fn add(&mut self, sample: Sample) -> bool;

    /// Inserts a sample, replacing one at its time.
    fn put(&mut self, sample: Sample);

    /// Removes the samples between two times, both included, and returns how many there were.
    fn take_out(&mut self, from: u64, to: u64) -> usize;

    /// Removes the samples at these ascending times.
    fn forget(&mut self, times: &[u64]);

    /// How many bytes the samples take.
    fn bytes(&self) -> usize;
}

impl Store for Vec<Sample> {
    fn between(&self, from: u64, to: u64) -> impl Iterator<Item = Sample> {
        self[places(self, from, to)].iter().copied()
    }

    fn backwards(&self, from: u64, to: u64) -> impl Iterator<Item = Sample> {
        self[places(self, from, to)].iter().rev().copied()
    }

    fn ends(&self) -> Option<(u64, u64)> {
        Some((self.first()?.time, self.last()?.time))
    }

    fn add(&mut self, sample: Sample) -> bool {
        let place = place(self, sample.time);
        if self.get(place).is_some_and(|s| s.time == sample.time) {
            return false;
        }
        self.insert(place, sample);
        true
    }

    fn put(&mut self, sample: Sample) {
        let place = place(self, sample.time);
        match self.get_mut(place) {
            Some(held) if held.time == sample.time => *held = sample,
            _ => self.insert(place, sample),
        }
    }

    fn take_out(&mut self, from: u64, to: u64) -> usize {
        self.drain(places(self, from, to)).len()
    }

    fn forget(&mut self, times: &[u64]) {
        if let [first, .., last] | [first @ last] = times {
            let range = places(self, *first, *last);
            let stays = |s: &&Sample| times.binary_search(&s.time).is_err();
            let kept: Vec<Sample> = self[range.clone()].iter().filter(stays).copied().collect();
            self.splice(range, kept);
        }
    }

    fn bytes(&self) -> usize {
        size_of::<Sample>() * self.len()
    }
}

/// The index of the sample at this time, or where it would be inserted.
fn place(list: &[Sample], time: u64) -> usize {
    match list.last() {
        Some(last) if last.time >= time => list.partition_point(|s| s.time < time),
        _ => list.len(),
    }
}

/// The index range of the samples between two times, both included.
fn places(list: &[Sample], from: u64, to: u64) -> Range<usize> {
    let start = list.partition_point(|s| s.time < from);
    let end = list.partition_point(|s| s.time <= to);
    start..end.max(start)
}
