// A yardstick for `tsd pipe`: the same work in plain Rust, without crates and without proofs.
//
// It reads requests from standard input, at most 4096 bytes per read, checks them as the server does, and makes one write
// per reply. Series are in a vector, and a BTreeMap leads from keys to their ids. A series has its samples in an ascending
// vector, with values in millionths, or else in packed chunks, and its labels in a vector. An index has the ids of the
// series with each value of each label, and a query over many series tests those of the most selective filter. A rule has
// a summary of its open bucket, and computes a changed bucket again from its samples.
// It knows
//   TS.CREATE key
//   TS.CREATE key LABELS label value ..
//   TS.CREATERULE source destination AGGREGATION avg duration
//   TS.CREATERULE source destination AGGREGATION max duration
//   TS.ADD key time value
//   TS.ADD key time value ON_DUPLICATE LAST
//   TS.MADD key time value ..
//   TS.DEL key from to
//   TS.RANGE key from to [query]
//   TS.REVRANGE key from to [query]
//   TS.MRANGE from to [query] FILTER label=value .., where a value may be (value,..)
//   TS.MRANGE from to [query] FILTER label=value .. GROUPBY label REDUCE avg, or max, of a query without EMPTY and
//   FILTER_BY_TS
//   TS.MGET FILTER label=value ..
//   TS.QUERYINDEX label=value ..
// with the query options
//   FILTER_BY_TS time ..
//   FILTER_BY_VALUE least greatest
//   AGGREGATION avg duration
//   AGGREGATION avg duration EMPTY, for TS.RANGE and without a filter
//   COUNT number
// and for itself
//   BYTES key    replies how many bytes the samples of a series take
// and is run as
//   yardstick          copies each argument of a request, as the server does
//   yardstick slices   takes arguments as slices of the buffer, and copies a key only if it is new
//   yardstick slices ADDRESS   does so for one TCP connection, and sends unsent replies before each read, as the server does
// With --packed among these arguments, each series is stored in packed chunks, in the server's format.
mod packed;
mod store;

use packed::Packed;
use std::collections::BTreeMap;
use std::fs::File;
use std::io::{Read, Write};
use std::iter::Peekable;
use std::mem::take;
use std::net::{TcpListener, TcpStream};
use std::ops::{Range, RangeInclusive};
use std::os::fd::{FromRawFd, OwnedFd};
use std::process::exit;
use store::{Sample, Store};

const PIECE: usize = 4096;
const WORDS: u64 = 1_048_576;
const WORD_BYTES: u64 = 1_048_576;
const REQUEST_BYTES: u64 = 16_777_216;
const MAX_TIME: u64 = i64::MAX as u64;
const DURATION: u64 = 100_000_000_000_000;
const BOUND: i128 = 1_000_000_000_000_000_000_000_000;
const LABELS: usize = 64;
const RULES: usize = 16;

const MULTIBULK: &[u8] = b"-ERR Protocol error: invalid multibulk length\r\n";
const BULK: &[u8] = b"-ERR Protocol error: invalid bulk length\r\n";
const MARK: &[u8] = b"-ERR Protocol error: expected '$'\r\n";
const CRLF: &[u8] = b"-ERR Protocol error: expected CRLF\r\n";
const TOO_LARGE: &[u8] = b"-ERR Protocol error: request too large\r\n";

/// The state of a part of a request in the buffer: whole, incomplete, or broken at a position.
enum Part<T> {
    Whole(T),
    Open,
    Broken(&'static [u8], usize),
}

/// The number in a header line after its first byte, and the position after the line.
fn header(buf: &[u8], from: usize, limit: u64, negative: bool, room: u64, kind: &'static [u8]) -> Part<(u64, usize)> {
    let mut at = from;
    let number = match buf.get(at) {
        None => return Part::Open,
        Some(b'0') => {
            at += 1;
            0
        }
        Some(b'-') if negative => {
            match buf.get(at + 1) {
                None => return Part::Open,
                Some(b'1') => {}
                Some(_) => return Part::Broken(kind, at + 1),
            }
            at += 2;
            0
        }
        Some(_) => {
            let mut number = 0;
            while let Some(byte @ b'0'..=b'9') = buf.get(at) {
                let more = 10 * number + u64::from(byte - b'0');
                if more > limit {
                    return Part::Broken(kind, at);
                }
                number = more;
                at += 1;
            }
            if at == from {
                return Part::Broken(kind, at);
            }
            number
        }
    };
    match buf.get(at) {
        None => return Part::Open,
        Some(b'\r') if number > room => return Part::Broken(TOO_LARGE, at),
        Some(b'\r') => {}
        Some(_) => return Part::Broken(kind, at),
    }
    match buf.get(at + 1) {
        None => Part::Open,
        Some(b'\n') => Part::Whole((number, at + 2)),
        Some(_) => Part::Broken(CRLF, at + 1),
    }
}

/// The range of the next argument, and the position after it.
fn word(buf: &[u8], from: usize, room: u64) -> Part<(Range<usize>, usize)> {
    match buf.get(from) {
        None => return Part::Open,
        Some(b'$') => {}
        Some(_) => return Part::Broken(MARK, from),
    }
    let (length, start) = match header(buf, from + 1, WORD_BYTES, false, room, BULK) {
        Part::Whole(found) => found,
        Part::Open => return Part::Open,
        Part::Broken(kind, at) => return Part::Broken(kind, at),
    };
    let end = start + length as usize;
    match (buf.get(end), buf.get(end + 1)) {
        (Some(b'\r'), Some(b'\n')) => Part::Whole((start..end, end + 2)),
        (None, _) | (Some(b'\r'), None) => Part::Open,
        (Some(b'\r'), Some(_)) => Part::Broken(CRLF, end + 1),
        (Some(_), _) => Part::Broken(CRLF, end),
    }
}

/// The requests of a stream: some of its bytes, the position of the first of them, where the current request begins
/// among them, and how far it was read.
struct Reader {
    buf: Vec<u8>,
    place: u64,
    begin: usize,
    at: usize,
    left: Option<u64>,
    room: u64,
    words: Vec<Range<usize>>,
}

impl Reader {
    /// Reads until a request is whole.
    fn next(&mut self) -> Part<()> {
        loop {
            match self.left {
                None => match self.buf.get(self.at) {
                    None => return Part::Open,
                    Some(b'*') => match header(&self.buf, self.at + 1, WORDS, true, u64::MAX, MULTIBULK) {
                        Part::Whole((0, after)) => {
                            self.at = after;
                            self.pass();
                        }
                        Part::Whole((count, after)) => {
                            self.at = after;
                            self.left = Some(count);
                            self.room = REQUEST_BYTES;
                        }
                        Part::Open => return Part::Open,
                        Part::Broken(kind, at) => return Part::Broken(kind, at),
                    },
                    Some(_) => return Part::Broken(MULTIBULK, self.at),
                },
                Some(0) => {
                    self.left = None;
                    return Part::Whole(());
                }
                Some(count) => match word(&self.buf, self.at, self.room) {
                    Part::Whole((range, after)) => {
                        self.room -= range.len() as u64;
                        self.words.push(range);
                        self.at = after;
                        self.left = Some(count - 1);
                    }
                    Part::Open => return Part::Open,
                    Part::Broken(kind, at) => return Part::Broken(kind, at),
                },
            }
        }
    }

    /// Skips a whole request.
    fn pass(&mut self) {
        self.words.clear();
        self.begin = self.at;
    }

    /// Drops the bytes of whole requests. Called once per read.
    fn drop_front(&mut self) {
        if self.begin == 0 {
            return;
        }
        self.buf.drain(..self.begin);
        for range in &mut self.words {
            *range = range.start - self.begin..range.end - self.begin;
        }
        self.place += self.begin as u64;
        self.at -= self.begin;
        self.begin = 0;
    }
}

fn number(text: &[u8]) -> Option<u64> {
    if text.is_empty() || text.len() > 19 || !text.iter().all(u8::is_ascii_digit) {
        return None;
    }
    let number = text.iter().fold(0, |n: u64, b| 10 * n + u64::from(b - b'0'));
    (number <= MAX_TIME).then_some(number)
}

fn split_sign(text: &[u8]) -> (bool, &[u8]) {
    match text {
        [b'-', rest @ ..] => (true, rest),
        [b'+', rest @ ..] => (false, rest),
        _ => (false, text),
    }
}

/// The digits of a number that matter, and how many more there were.
struct Digits {
    first: u128,
    dropped: usize,
}

impl Digits {
    fn take<'a>(&mut self, mut text: &'a [u8]) -> &'a [u8] {
        while let [byte @ b'0'..=b'9', rest @ ..] = text {
            if self.first < 100_000_000_000_000_000_000_000_000_000 {
                self.first = 10 * self.first + u128::from(byte - b'0');
            } else {
                self.dropped += 1;
            }
            text = rest;
        }
        text
    }
}

const NOT_A_NUMBER: &[u8] = b"-ERR TSDB: invalid value\r\n";
const OUT_OF_RANGE: &[u8] = b"-ERR TSDB: value out of range\r\n";

/// A decimal text in millionths, rounded half away from zero.
fn value(text: &[u8]) -> Result<i128, &'static [u8]> {
    if text.is_empty() || text.len() > 64 {
        return Err(NOT_A_NUMBER);
    }
    let (negative, body) = split_sign(text);
    let mut digits = Digits { first: 0, dropped: 0 };
    let after_whole = digits.take(body);
    let mut count = body.len() - after_whole.len();
    let (mut down, mut up) = (0, 0);
    let mut rest = after_whole;
    if let [b'.', part @ ..] = rest {
        rest = digits.take(part);
        down = part.len() - rest.len();
        count += down;
    }
    if let [b'e' | b'E', power @ ..] = rest {
        let (lower, power) = split_sign(power);
        if power.is_empty() || power.len() > 3 || !power.iter().all(u8::is_ascii_digit) {
            return Err(NOT_A_NUMBER);
        }
        let power = power.iter().fold(0, |n: usize, b| 10 * n + usize::from(b - b'0'));
        if lower { down += power } else { up = power }
        rest = &[];
    }
    if count == 0 || !rest.is_empty() {
        return Err(NOT_A_NUMBER);
    }
    let raised = digits.dropped + up + 6;
    let magnitude = if digits.first == 0 {
        0
    } else if down <= raised {
        let power = raised - down;
        if power > 24 || digits.first > 10u128.pow(24 - power as u32) {
            return Err(OUT_OF_RANGE);
        }
        digits.first * 10u128.pow(power as u32)
    } else if down - raised > 30 {
        0
    } else {
        let power = 10u128.pow((down - raised) as u32);
        (digits.first + power / 2) / power
    };
    let magnitude = magnitude as i128;
    if magnitude > BOUND {
        return Err(OUT_OF_RANGE);
    }
    Ok(if negative { -magnitude } else { magnitude })
}

#[derive(Default)]
struct Series<S> {
    samples: S,
    labels: Vec<(Vec<u8>, Vec<u8>)>,
    /// The highest time of any sample that it ever had.
    high: Option<u64>,
    /// How many rules were ever made on it.
    born: u32,
    rules: Vec<Rule>,
    is_dest: bool,
}

impl<S> Series<S> {
    /// Whether it passes all these filters.
    fn has(&self, filters: &[Filter]) -> bool {
        filters.iter().all(|filter| self.labels.iter().any(|(name, held)| name == filter.label && filter.wants(held)))
    }
}

/// A filter: a label and the values that pass.
struct Filter<'a> {
    label: &'a [u8],
    values: Vec<&'a [u8]>,
}

impl Filter<'_> {
    fn wants(&self, held: &[u8]) -> bool {
        self.values.iter().any(|value| *value == held)
    }
}

/// What a write does if its time has a sample.
#[derive(Clone, Copy)]
enum Policy {
    Block,
    Last,
}

#[derive(Default)]
struct Database<S> {
    numbers: BTreeMap<Vec<u8>, usize>,
    keys: Vec<Vec<u8>>,
    series: Vec<Series<S>>,
    /// The ids of the series with each value of each label, in ascending order.
    index: BTreeMap<Vec<u8>, BTreeMap<Vec<u8>, Vec<usize>>>,
}

impl<S: Store> Database<S> {
    fn number(&self, key: &[u8]) -> Result<usize, &'static [u8]> {
        self.numbers.get(key).copied().ok_or(b"-ERR TSDB: the key does not exist\r\n")
    }

    fn make(&mut self, key: &[u8], series: Series<S>) -> usize {
        let number = self.series.len();
        for (label, value) in &series.labels {
            match self.index.get_mut(label).and_then(|values| values.get_mut(value)) {
                Some(numbers) => numbers.push(number),
                None => _ = self.index.entry(label.clone()).or_default().insert(value.clone(), vec![number]),
            }
        }
        self.numbers.insert(key.to_vec(), number);
        self.keys.push(key.to_vec());
        self.series.push(series);
        number
    }

    /// The ids of the series that pass a filter.
    fn candidates<'a>(&'a self, filter: &'a Filter<'a>) -> impl Iterator<Item = &'a Vec<usize>> {
        filter.values.iter().filter_map(|value| self.index.get(filter.label)?.get(*value))
    }

    /// Writes a sample, unless the policy blocks it, and updates the destinations of the series' rules.
    fn write(&mut self, number: usize, time: u64, value: i128, policy: Policy) -> bool {
        let series = &mut self.series[number];
        let sample = Sample { time, value, made: series.born };
        match policy {
            Policy::Block if !series.samples.add(sample) => return false,
            Policy::Block => {}
            Policy::Last => series.samples.put(sample),
        }
        let late = series.high >= Some(time);
        series.high = series.high.max(Some(time));
        let mut rules = take(&mut series.rules);
        for rule in &mut rules {
            if let Some(row) = rule.count(&self.series[number].samples, &sample, late) {
                self.series[rule.dest].samples.put(row);
            }
        }
        self.series[number].rules = rules;
        true
    }

    /// Removes the samples of an interval and updates the destinations. Returns how many there were.
    fn delete(&mut self, number: usize, from: u64, to: u64) -> usize {
        let series = &mut self.series[number];
        let mut rules = take(&mut series.rules);
        let gone: Vec<u64> = if rules.is_empty() {
            Vec::new()
        } else {
            series.samples.between(from, to).map(|s| s.time).collect()
        };
        let count = series.samples.take_out(from, to);
        for rule in &mut rules {
            let (touched, rows) = rule.forget(&self.series[number].samples, &gone);
            let shown = &mut self.series[rule.dest].samples;
            shown.forget(&touched);
            for row in rows {
                shown.put(row);
            }
        }
        self.series[number].rules = rules;
        count
    }
}

#[derive(Clone, Copy)]
enum Aggregator {
    Avg,
    Max,
}

/// The summary of a bucket: all that either aggregator needs.
#[derive(Clone, Copy)]
struct Summary {
    sum: i128,
    count: u64,
    greatest: i128,
}

impl Summary {
    const EMPTY: Summary = Summary { sum: 0, count: 0, greatest: i128::MIN };

    fn push(&mut self, value: i128) {
        self.sum += value;
        self.count += 1;
        self.greatest = self.greatest.max(value);
    }

    /// The aggregate, if there is one.
    fn told(&self, aggregator: Aggregator) -> Option<i128> {
        match aggregator {
            _ if self.count == 0 => None,
            Aggregator::Avg => Some(rounded(self.sum, self.count)),
            Aggregator::Max => Some(self.greatest),
        }
    }
}

struct Rule {
    dest: usize,
    aggregator: Aggregator,
    duration: u64,
    made: u32,
    open: Option<(u64, Summary)>,
}

impl Rule {
    fn start(&self, time: u64) -> u64 {
        time - time % self.duration
    }

    /// The summary of the bucket with this start, over samples written since the rule was made.
    fn summary(&self, samples: &impl Store, start: u64) -> Summary {
        let mut summary = Summary::EMPTY;
        for sample in samples.between(start, start + (self.duration - 1)) {
            if sample.made >= self.made {
                summary.push(sample.value);
            }
        }
        summary
    }

    /// The row of a bucket that has samples.
    fn row(&self, start: u64, summary: Summary) -> Option<Sample> {
        let value = summary.told(self.aggregator)?;
        Some(Sample { time: start, value, made: 0 })
    }

    /// Counts a written sample. Returns the row of the bucket that it closes, or of the earlier bucket that it changes.
    fn count(&mut self, samples: &impl Store, sample: &Sample, late: bool) -> Option<Sample> {
        let start = self.start(sample.time);
        match self.open {
            Some((open, _)) if start < open => return self.row(start, self.summary(samples, start)),
            Some((open, _)) if start == open && late => {
                self.open = Some((open, self.summary(samples, start)));
                return None;
            }
            _ => {}
        }
        match &mut self.open {
            Some((open, summary)) if start == *open => {
                summary.push(sample.value);
                None
            }
            _ => {
                let mut summary = Summary::EMPTY;
                summary.push(sample.value);
                let (closed, told) = self.open.replace((start, summary))?;
                self.row(closed, told)
            }
        }
    }

    /// Removes samples at these times from the rule: the closed buckets that had some, and their rows now. Only the first
    /// and the last can have samples left.
    fn forget(&mut self, samples: &impl Store, gone: &[u64]) -> (Vec<u64>, Vec<Sample>) {
        let mut touched: Vec<u64> = gone.iter().map(|&time| self.start(time)).collect();
        touched.dedup();
        let Some((open, _)) = self.open else {
            return (Vec::new(), Vec::new());
        };
        if touched.binary_search(&open).is_ok() {
            self.open = Some((open, self.summary(samples, open)));
        }
        touched.retain(|&start| start < open);
        let rows = touched.iter().filter_map(|&start| self.row(start, self.summary(samples, start))).collect();
        (touched, rows)
    }
}

/// Writes the digits of a number, computed two at a time from its end.
fn put_digits(mut number: u64, room: &mut Vec<u8>) {
    let mut digits = [0; 20];
    let mut at = 20;
    while number >= 10 {
        let pair = (number % 100) as u8;
        number /= 100;
        at -= 2;
        digits[at] = b'0' + pair / 10;
        digits[at + 1] = b'0' + pair % 10;
    }
    if number > 0 || at == 20 {
        at -= 1;
        digits[at] = b'0' + number as u8;
    }
    room.extend_from_slice(&digits[at..]);
}

/// Writes a line of this kind with a number.
fn put_line(kind: u8, number: u64, room: &mut Vec<u8>) {
    room.push(kind);
    put_digits(number, room);
    room.extend_from_slice(b"\r\n");
}

/// Writes a bulk string.
fn put_bulk(text: &[u8], room: &mut Vec<u8>) {
    put_line(b'$', text.len() as u64, room);
    room.extend_from_slice(text);
    room.extend_from_slice(b"\r\n");
}

/// Writes millionths as a decimal without trailing zeros.
fn put_value(value: i128, room: &mut Vec<u8>) {
    let magnitude = value.unsigned_abs();
    if value < 0 {
        room.push(b'-');
    }
    // Most values fit in 64 bits, which are much cheaper to divide than 128.
    let (whole, mut rest) = match u64::try_from(magnitude) {
        Ok(small) => (small / 1_000_000, (small % 1_000_000) as u32),
        Err(_) => ((magnitude / 1_000_000) as u64, (magnitude % 1_000_000) as u32),
    };
    put_digits(whole, room);
    if rest == 0 {
        return;
    }
    room.push(b'.');
    let mut unit = 100_000;
    while rest > 0 {
        room.push(b'0' + (rest / unit) as u8);
        rest %= unit;
        unit /= 10;
    }
}

/// A value in a row, or none.
#[derive(Clone, Copy)]
struct Row {
    time: u64,
    value: Option<i128>,
}

impl From<Sample> for Row {
    fn from(sample: Sample) -> Row {
        Row { time: sample.time, value: Some(sample.value) }
    }
}

/// Writes an array of rows, each with its time and its value.
fn put_rows(rows: impl Iterator<Item = Row>, room: &mut Vec<u8>) {
    if let (count, Some(most)) = rows.size_hint() {
        if count == most {
            put_line(b'*', count as u64, room);
            rows.for_each(|row| put_row(row, room));
            return;
        }
    }
    // Their number is known after the last one, and is inserted before the first one then.
    let (start, mut count) = (room.len(), 0);
    rows.for_each(|row| {
        put_row(row, room);
        count += 1;
    });
    let end = room.len();
    put_line(b'*', count, room);
    let line = room.len() - end;
    room[start..].rotate_right(line);
}

fn put_row(row: Row, room: &mut Vec<u8>) {
    room.extend_from_slice(b"*2\r\n");
    put_line(b':', row.time, room);
    room.push(b'+');
    match row.value {
        Some(value) => put_value(value, room),
        None => room.extend_from_slice(b"NaN"),
    }
    room.extend_from_slice(b"\r\n");
}

/// A quotient, rounded half away from zero.
fn rounded(sum: i128, count: u64) -> i128 {
    let half = i128::from(count / 2);
    (if sum < 0 { sum - half } else { sum + half }) / i128::from(count)
}

/// The mean of each bucket of this duration that has samples, at the bucket's start, in the order of the samples.
struct Means<I: Iterator> {
    samples: Peekable<I>,
    duration: u64,
}

impl<I: Iterator<Item = Sample>> Means<I> {
    fn new(samples: I, duration: u64) -> Means<I> {
        Means { samples: samples.peekable(), duration }
    }
}

impl<I: Iterator<Item = Sample>> Iterator for Means<I> {
    type Item = Row;

    fn next(&mut self) -> Option<Row> {
        let first = self.samples.next()?;
        let time = first.time - first.time % self.duration;
        let (mut sum, mut count) = (first.value, 1);
        while let Some(sample) = self.samples.next_if(|s| s.time.wrapping_sub(time) < self.duration) {
            sum += sample.value;
            count += 1;
        }
        Some(Row { time, value: Some(rounded(sum, count)) })
    }
}

fn time(text: &[u8]) -> Result<u64, &'static [u8]> {
    number(text).ok_or(b"-ERR TSDB: invalid timestamp\r\n")
}

/// A time that ends an interval.
fn bound(text: &[u8]) -> Result<u64, &'static [u8]> {
    match text {
        b"-" => Ok(0),
        b"+" => Ok(MAX_TIME),
        _ => time(text),
    }
}

const UNKNOWN: &[u8] = b"-ERR TSDB: unknown aggregator\r\n";

fn aggregator(told: &[u8]) -> Result<Aggregator, &'static [u8]> {
    match told {
        _ if told.eq_ignore_ascii_case(b"avg") => Ok(Aggregator::Avg),
        _ if told.eq_ignore_ascii_case(b"max") => Ok(Aggregator::Max),
        _ => Err(UNKNOWN),
    }
}

/// How long a bucket is.
fn duration(length: &[u8]) -> Result<u64, &'static [u8]> {
    match number(length) {
        Some(length @ 1..=DURATION) => Ok(length),
        _ => Err(b"-ERR TSDB: invalid bucket duration\r\n"),
    }
}

const ARITY: &[u8] = b"-ERR wrong number of arguments\r\n";
const OPTION: &[u8] = b"-ERR TSDB: invalid option\r\n";

/// A query: the samples of an interval, or the means of its buckets, filtered by times or values, up to a count.
struct Asked {
    times: Option<Vec<u64>>,
    values: Option<RangeInclusive<i128>>,
    duration: Option<u64>,
    empty: bool,
    most: usize,
}

impl Asked {
    /// The query of these options.
    fn read<W: AsRef<[u8]>>(mut options: &[W]) -> Result<Asked, &'static [u8]> {
        let mut asked = Asked { times: None, values: None, duration: None, empty: false, most: usize::MAX };
        while let [name, rest @ ..] = options {
            options = asked.read_option(name.as_ref(), rest)?;
        }
        if asked.empty && (asked.duration.is_none() || asked.times.is_some() || asked.values.is_some()) {
            return Err(OPTION);
        }
        Ok(asked)
    }

    /// Parses an option, and returns the arguments after it.
    fn read_option<'a, W: AsRef<[u8]>>(&mut self, name: &[u8], rest: &'a [W]) -> Result<&'a [W], &'static [u8]> {
        let is = |wanted: &[u8]| name.eq_ignore_ascii_case(wanted);
        match rest {
            [told, length, rest @ ..] if is(b"AGGREGATION") => {
                let Aggregator::Avg = aggregator(told.as_ref())? else {
                    return Err(UNKNOWN);
                };
                self.duration = Some(duration(length.as_ref())?);
                Ok(rest)
            }
            [least, greatest, rest @ ..] if is(b"FILTER_BY_VALUE") => {
                self.values = Some(value(least.as_ref())?..=value(greatest.as_ref())?);
                Ok(rest)
            }
            [first, ..] if is(b"FILTER_BY_TS") && number(first.as_ref()).is_some() => {
                let mut times: Vec<u64> = rest.iter().map_while(|word| number(word.as_ref())).collect();
                let rest = &rest[times.len()..];
                times.sort_unstable();
                times.dedup();
                self.times = Some(times);
                Ok(rest)
            }
            [most, rest @ ..] if is(b"COUNT") => {
                self.most = number(most.as_ref()).ok_or(OPTION)? as usize;
                Ok(rest)
            }
            _ if is(b"EMPTY") => {
                self.empty = true;
                Ok(rest)
            }
            _ => Err(OPTION),
        }
    }

    /// Writes its rows of an interval.
    fn put(&self, samples: &impl Store, from: u64, to: u64, room: &mut Vec<u8>) {
        match (&self.times, self.duration) {
            (Some(times), _) => {
                let within = times.iter().filter(|time| (from..=to).contains(time));
                self.put_of(within.flat_map(|&time| samples.between(time, time)), room);
            }
            (None, Some(duration)) if self.empty => {
                let rows = with_empty(samples, from, to, duration);
                put_rows(rows.take(self.most), room);
            }
            _ => self.put_of(samples.between(from, to), room),
        }
    }

    /// The same, the last one first.
    fn put_backwards(&self, samples: &impl Store, from: u64, to: u64, room: &mut Vec<u8>) -> Result<(), &'static [u8]> {
        if self.times.is_some() || self.empty {
            return Err(OPTION);
        }
        self.put_of(samples.backwards(from, to), room);
        Ok(())
    }

    fn put_of(&self, samples: impl Iterator<Item = Sample>, room: &mut Vec<u8>) {
        match &self.values {
            None => self.put_each(samples, room),
            Some(values) => self.put_each(samples.filter(|s| values.contains(&s.value)), room),
        }
    }

    /// Passes each row to `take`, without a limit.
    fn each_row(&self, samples: &impl Store, from: u64, to: u64, take: impl FnMut(Row)) {
        let samples = samples.between(from, to).filter(|s| self.values.as_ref().is_none_or(|values| values.contains(&s.value)));
        match self.duration {
            None => samples.map(Row::from).for_each(take),
            Some(duration) => Means::new(samples, duration).for_each(take),
        }
    }

    fn put_each(&self, samples: impl Iterator<Item = Sample>, room: &mut Vec<u8>) {
        match self.duration {
            None => put_rows(samples.map(Row::from).take(self.most), room),
            Some(duration) => put_rows(Means::new(samples, duration).take(self.most), room),
        }
    }
}

/// The mean of each bucket between two times, including empty ones, but not those before the first sample of the series
/// and after its last one.
fn with_empty<S: Store>(samples: &S, from: u64, to: u64, duration: u64) -> impl Iterator<Item = Row> + use<'_, S> {
    let (first, last) = samples.ends().map_or((1, 0), |(first, last)| (from.max(first), to.min(last)));
    let starts = if first <= last { first / duration..last / duration + 1 } else { 0..0 };
    let mut told = Means::new(samples.between(from, to), duration).peekable();
    starts.map(move |bucket| {
        let time = bucket * duration;
        told.next_if(|row| row.time == time).unwrap_or(Row { time, value: None })
    })
}

const FILTER: &[u8] = b"-ERR TSDB: invalid filter\r\n";

/// A filter: a label and its values, split at the first `=`.
fn filter(text: &[u8]) -> Result<Filter<'_>, &'static [u8]> {
    let place = text.iter().position(|&byte| byte == b'=').ok_or(FILTER)?;
    let (label, values) = (&text[..place], &text[place + 1..]);
    if label.is_empty() || label.ends_with(b"!") {
        return Err(FILTER);
    }
    let values = match values {
        [b'(', listed @ .., b')'] => listed.split(|&byte| byte == b',').collect(),
        _ => vec![values],
    };
    if values.iter().any(|value| value.is_empty()) {
        return Err(FILTER);
    }
    Ok(Filter { label, values })
}

fn filters<W: AsRef<[u8]>>(words: &[W]) -> Result<Vec<Filter<'_>>, &'static [u8]> {
    words.iter().map(|word| filter(word.as_ref())).collect()
}

/// A key, and its series.
type Member<'a, S> = (&'a Vec<u8>, &'a Series<S>);

/// The series whose labels pass all filters, in the order of their keys.
fn select<'a, S: Store>(database: &'a Database<S>, filters: &[Filter]) -> Vec<Member<'a, S>> {
    let count = |filter: &&Filter| database.candidates(filter).map(Vec::len).sum::<usize>();
    let narrowest = filters.iter().min_by_key(count);
    let candidates = narrowest.into_iter().flat_map(|filter| database.candidates(filter)).flatten();
    let mut found: Vec<usize> = candidates.copied().filter(|&number| database.series[number].has(filters)).collect();
    found.sort_unstable_by_key(|&number| &database.keys[number]);
    found.dedup();
    found.into_iter().map(|number| (&database.keys[number], &database.series[number])).collect()
}

/// The labels of a new series. A repeated label keeps its first position and takes its last value.
fn labels<W: AsRef<[u8]>>(words: &[W]) -> Result<Vec<(Vec<u8>, Vec<u8>)>, &'static [u8]> {
    let mut labels: Vec<(Vec<u8>, Vec<u8>)> = Vec::with_capacity(words.len() / 2);
    for pair in words.chunks(2) {
        let [label, value] = pair else {
            return Err(b"-ERR TSDB: invalid labels\r\n");
        };
        let (label, value) = (label.as_ref(), value.as_ref());
        if label.is_empty() || value.is_empty() {
            return Err(b"-ERR TSDB: invalid labels\r\n");
        }
        match labels.iter_mut().find(|(name, _)| name == label) {
            Some((_, held)) => *held = value.to_vec(),
            None => labels.push((label.to_vec(), value.to_vec())),
        }
    }
    Ok(labels)
}

/// A request was answered, or the text of its error.
type Outcome = Result<(), &'static [u8]>;

/// TS.CREATE, after its name.
fn create<S: Store>(words: &[impl AsRef<[u8]>], database: &mut Database<S>, room: &mut Vec<u8>) -> Outcome {
    let (key, labels) = match words {
        [] => return Err(ARITY),
        [key] => (key, Vec::new()),
        [key, name, rest @ ..] if name.as_ref().eq_ignore_ascii_case(b"LABELS") => (key, labels(rest)?),
        _ => return Err(OPTION),
    };
    if database.numbers.contains_key(key.as_ref()) {
        return Err(b"-ERR TSDB: the key already exists\r\n");
    }
    if labels.len() > LABELS {
        return Err(b"-ERR TSDB: too many labels\r\n");
    }
    database.make(key.as_ref(), Series { labels, ..Series::default() });
    room.extend_from_slice(b"+OK\r\n");
    Ok(())
}

/// TS.CREATERULE, after its name.
fn create_rule<S: Store>(words: &[impl AsRef<[u8]>], database: &mut Database<S>, room: &mut Vec<u8>) -> Outcome {
    let [source, dest, name, told, length] = words else {
        return Err(ARITY);
    };
    if !name.as_ref().eq_ignore_ascii_case(b"AGGREGATION") {
        return Err(OPTION);
    }
    let (aggregator, duration) = (aggregator(told.as_ref())?, duration(length.as_ref())?);
    if source.as_ref() == dest.as_ref() {
        return Err(b"-ERR TSDB: source and destination are the same\r\n");
    }
    let (source, dest) = (database.number(source.as_ref())?, database.number(dest.as_ref())?);
    if database.series[source].is_dest {
        return Err(b"-ERR TSDB: the source is a destination\r\n");
    }
    if !database.series[dest].rules.is_empty() {
        return Err(b"-ERR TSDB: the destination is a source\r\n");
    }
    if database.series[dest].is_dest {
        return Err(b"-ERR TSDB: the destination has a source\r\n");
    }
    let series = &mut database.series[source];
    if series.rules.len() >= RULES {
        return Err(b"-ERR TSDB: too many rules\r\n");
    }
    series.born += 1;
    series.rules.push(Rule { dest, aggregator, duration, made: series.born, open: None });
    database.series[dest].is_dest = true;
    room.extend_from_slice(b"+OK\r\n");
    Ok(())
}

const DUPLICATE: &[u8] = b"-ERR TSDB: duplicate sample\r\n";

/// TS.ADD, after its name.
fn add<S: Store>(words: &[impl AsRef<[u8]>], database: &mut Database<S>, room: &mut Vec<u8>) -> Outcome {
    let [key, at, amount, options @ ..] = words else {
        return Err(ARITY);
    };
    let time = time(at.as_ref())?;
    let value = value(amount.as_ref())?;
    let policy = match options {
        [] => Policy::Block,
        [name, told] if name.as_ref().eq_ignore_ascii_case(b"ON_DUPLICATE") && told.as_ref().eq_ignore_ascii_case(b"LAST") => Policy::Last,
        _ => return Err(OPTION),
    };
    let number = match database.numbers.get(key.as_ref()) {
        Some(&number) => number,
        None => database.make(key.as_ref(), Series::default()),
    };
    if !database.write(number, time, value, policy) {
        return Err(DUPLICATE);
    }
    put_line(b':', time, room);
    Ok(())
}

/// TS.MADD, after its name.
fn add_many<S: Store>(words: &[impl AsRef<[u8]>], database: &mut Database<S>, room: &mut Vec<u8>) -> Outcome {
    if words.is_empty() || words.len() % 3 != 0 {
        return Err(ARITY);
    }
    put_line(b'*', words.len() as u64 / 3, room);
    for triple in words.chunks_exact(3) {
        match add_one(triple[0].as_ref(), triple[1].as_ref(), triple[2].as_ref(), database) {
            Ok(time) => put_line(b':', time, room),
            Err(text) => room.extend_from_slice(text),
        }
    }
    Ok(())
}

fn add_one<S: Store>(key: &[u8], at: &[u8], amount: &[u8], database: &mut Database<S>) -> Result<u64, &'static [u8]> {
    let (time, value) = (time(at)?, value(amount)?);
    let number = database.number(key)?;
    if database.write(number, time, value, Policy::Block) { Ok(time) } else { Err(DUPLICATE) }
}

/// TS.DEL, after its name.
fn delete<S: Store>(words: &[impl AsRef<[u8]>], database: &mut Database<S>, room: &mut Vec<u8>) -> Outcome {
    let [key, from, to] = words else {
        return Err(ARITY);
    };
    let (from, to) = (bound(from.as_ref())?, bound(to.as_ref())?);
    let number = database.number(key.as_ref())?;
    put_line(b':', database.delete(number, from, to) as u64, room);
    Ok(())
}

/// TS.RANGE or TS.REVRANGE, after its name.
fn range<S: Store>(words: &[impl AsRef<[u8]>], database: &Database<S>, is_backwards: bool, room: &mut Vec<u8>) -> Outcome {
    let [key, from, to, options @ ..] = words else {
        return Err(ARITY);
    };
    let (from, to) = (bound(from.as_ref())?, bound(to.as_ref())?);
    let asked = Asked::read(options)?;
    let series = &database.series[database.number(key.as_ref())?];
    if is_backwards {
        return asked.put_backwards(&series.samples, from, to, room);
    }
    asked.put(&series.samples, from, to, room);
    Ok(())
}

/// GROUPBY: one reply item for each value of a label, with the rows of its series reduced time by time.
struct Group<'a> {
    label: &'a [u8],
    reducer: Aggregator,
}

impl<'a> Group<'a> {
    /// Parses the arguments after GROUPBY.
    fn read<W: AsRef<[u8]>>(words: &'a [W]) -> Result<Group<'a>, &'static [u8]> {
        match words {
            [label, reduce, reducer] if reduce.as_ref().eq_ignore_ascii_case(b"REDUCE") => {
                Ok(Group { label: label.as_ref(), reducer: aggregator(reducer.as_ref())? })
            }
            _ => Err(OPTION),
        }
    }

    /// Writes the reply.
    fn put<S: Store>(&self, members: &[Member<S>], asked: &Asked, from: u64, to: u64, room: &mut Vec<u8>) -> Outcome {
        if asked.times.is_some() || asked.empty {
            return Err(OPTION);
        }
        let mut groups: BTreeMap<&[u8], Vec<&Series<S>>> = BTreeMap::new();
        for &(_, series) in members {
            if let Some((_, value)) = series.labels.iter().find(|(name, _)| name == self.label) {
                groups.entry(value).or_default().push(series);
            }
        }
        put_line(b'*', groups.len() as u64, room);
        for (value, series) in groups {
            room.extend_from_slice(b"*3\r\n");
            put_bulk(&[self.label, b"=", value].concat(), room);
            room.extend_from_slice(b"*0\r\n");
            put_rows(self.reduced(&series, asked, from, to).into_iter().take(asked.most), room);
        }
        Ok(())
    }

    /// The reduced rows of these series.
    fn reduced<S: Store>(&self, series: &[&Series<S>], asked: &Asked, from: u64, to: u64) -> Vec<Row> {
        let mut cells: BTreeMap<u64, Summary> = BTreeMap::new();
        for it in series {
            asked.each_row(&it.samples, from, to, |row| {
                let cell = cells.entry(row.time).or_insert(Summary::EMPTY);
                row.value.into_iter().for_each(|value| cell.push(value));
            });
        }
        cells.into_iter().map(|(time, cell)| Row { time, value: cell.told(self.reducer) }).collect()
    }
}

/// TS.MRANGE, after its name. FILTER is the last option, except for GROUPBY.
fn many_range<S: Store>(words: &[impl AsRef<[u8]>], database: &Database<S>, room: &mut Vec<u8>) -> Outcome {
    let [from, to, options @ ..] = words else {
        return Err(ARITY);
    };
    if options.len() < 2 {
        return Err(ARITY);
    }
    let (from, to) = (bound(from.as_ref())?, bound(to.as_ref())?);
    let place = options.iter().position(|word| word.as_ref().eq_ignore_ascii_case(b"FILTER")).unwrap_or(options.len());
    let asked = Asked::read(&options[..place])?;
    let rest = options.get(place + 1..).unwrap_or(&[]);
    let end = rest.iter().position(|word| word.as_ref().eq_ignore_ascii_case(b"GROUPBY"));
    let members = match &rest[..end.unwrap_or(rest.len())] {
        [] => return Err(OPTION),
        words => select(database, &filters(words)?),
    };
    if let Some(end) = end {
        return Group::read(&rest[end + 1..])?.put(&members, &asked, from, to, room);
    }
    put_line(b'*', members.len() as u64, room);
    for (key, series) in members {
        room.extend_from_slice(b"*3\r\n");
        put_bulk(key, room);
        room.extend_from_slice(b"*0\r\n");
        asked.put(&series.samples, from, to, room);
    }
    Ok(())
}

/// TS.MGET, after its name.
fn many_last<S: Store>(words: &[impl AsRef<[u8]>], database: &Database<S>, room: &mut Vec<u8>) -> Outcome {
    let members = match words {
        [name, words @ ..] if !words.is_empty() && name.as_ref().eq_ignore_ascii_case(b"FILTER") => select(database, &filters(words)?),
        _ => return Err(OPTION),
    };
    put_line(b'*', members.len() as u64, room);
    for (key, series) in members {
        room.extend_from_slice(b"*3\r\n");
        put_bulk(key, room);
        room.extend_from_slice(b"*0\r\n");
        match series.samples.backwards(0, MAX_TIME).next() {
            Some(last) => put_row(last.into(), room),
            None => room.extend_from_slice(b"*0\r\n"),
        }
    }
    Ok(())
}

/// TS.QUERYINDEX, after its name.
fn query_index<S: Store>(words: &[impl AsRef<[u8]>], database: &Database<S>, room: &mut Vec<u8>) -> Outcome {
    if words.is_empty() {
        return Err(ARITY);
    }
    let found = select(database, &filters(words)?);
    put_line(b'*', found.len() as u64, room);
    for (key, _) in found {
        put_bulk(key, room);
    }
    Ok(())
}

/// BYTES, after its name.
fn bytes<S: Store>(words: &[impl AsRef<[u8]>], database: &Database<S>, room: &mut Vec<u8>) -> Outcome {
    let [key] = words else {
        return Err(ARITY);
    };
    let number = database.number(key.as_ref())?;
    put_line(b':', database.series[number].samples.bytes() as u64, room);
    Ok(())
}

/// Writes the reply to a request.
fn answer<W: AsRef<[u8]>, S: Store>(words: &[W], database: &mut Database<S>, room: &mut Vec<u8>) -> Outcome {
    let is = |name: &W, wanted: &[u8]| name.as_ref().eq_ignore_ascii_case(wanted);
    match words {
        [name, rest @ ..] if is(name, b"TS.ADD") => add(rest, database, room),
        [name, rest @ ..] if is(name, b"TS.CREATE") => create(rest, database, room),
        [name, rest @ ..] if is(name, b"TS.CREATERULE") => create_rule(rest, database, room),
        [name, rest @ ..] if is(name, b"TS.DEL") => delete(rest, database, room),
        [name, rest @ ..] if is(name, b"TS.MADD") => add_many(rest, database, room),
        [name, rest @ ..] if is(name, b"TS.RANGE") => range(rest, database, false, room),
        [name, rest @ ..] if is(name, b"TS.REVRANGE") => range(rest, database, true, room),
        [name, rest @ ..] if is(name, b"TS.MRANGE") => many_range(rest, database, room),
        [name, rest @ ..] if is(name, b"TS.MGET") => many_last(rest, database, room),
        [name, rest @ ..] if is(name, b"TS.QUERYINDEX") => query_index(rest, database, room),
        [name, rest @ ..] if is(name, b"BYTES") => bytes(rest, database, room),
        _ => Err(b"-ERR unknown command\r\n"),
    }
}

fn end(line: &str, status: i32) -> ! {
    eprintln!("{line}");
    exit(status)
}

fn write(out: &mut File, reply: &[u8]) {
    if out.write_all(reply).is_err() {
        end("yardstick: write fault", 5);
    }
}

fn accept(address: &str) -> std::io::Result<(TcpStream, File, File)> {
    let (link, _) = TcpListener::bind(address)?.accept()?;
    let (input, out) = (link.try_clone()?, link.try_clone()?);
    Ok((link, OwnedFd::from(input).into(), OwnedFd::from(out).into()))
}

fn push(link: &TcpStream) {
    let _ = link.set_nodelay(true);
    let _ = link.set_nodelay(false);
}

/// The mode it runs in.
#[derive(Default)]
struct Words {
    slices: bool,
    packed: bool,
    address: Option<String>,
}

impl Words {
    fn read() -> Words {
        let mut words = Words::default();
        for word in std::env::args().skip(1) {
            match word.as_str() {
                "slices" => words.slices = true,
                "--packed" => words.packed = true,
                _ => words.address = Some(word),
            }
        }
        words
    }
}

fn main() {
    let words = Words::read();
    if words.packed { serve::<Packed>(words) } else { serve::<Vec<Sample>>(words) }
}

fn serve<S: Store>(words: Words) {
    let slices = words.slices;
    let (link, mut input, mut out) = match words.address {
        Some(address) => match accept(&address) {
            Ok((link, input, out)) => (Some(link), input, out),
            Err(_) => end("yardstick: accept fault", 7),
        },
        None => unsafe { (None, File::from_raw_fd(0), File::from_raw_fd(1)) },
    };
    let mut reader = Reader { buf: Vec::new(), place: 0, begin: 0, at: 0, left: None, room: 0, words: Vec::new() };
    let mut database = Database::<S>::default();
    let mut room = Vec::with_capacity(128);
    let mut piece = [0; PIECE];
    loop {
        if let Some(link) = &link {
            push(link);
        }
        let count = match input.read(&mut piece) {
            Ok(0) if reader.begin == reader.buf.len() => return,
            Ok(0) => end(&format!("yardstick: input ends inside a request that begins at byte {}", reader.place), 2),
            Ok(count) => count,
            Err(_) => end("yardstick: read fault", 4),
        };
        reader.buf.extend_from_slice(&piece[..count]);
        loop {
            match reader.next() {
                Part::Whole(()) => {
                    room.clear();
                    let buf = &reader.buf;
                    let outcome = if slices {
                        let words: Vec<&[u8]> = reader.words.iter().map(|r| &buf[r.clone()]).collect();
                        answer(&words, &mut database, &mut room)
                    } else {
                        let words: Vec<Vec<u8>> = reader.words.iter().map(|r| buf[r.clone()].to_vec()).collect();
                        answer(&words, &mut database, &mut room)
                    };
                    match outcome {
                        Ok(()) => write(&mut out, &room),
                        Err(text) => write(&mut out, text),
                    }
                    reader.pass();
                }
                Part::Open => break,
                Part::Broken(text, at) => {
                    write(&mut out, text);
                    end(&format!("yardstick: protocol fault at byte {}", reader.place + at as u64), 3);
                }
            }
        }
        reader.drop_front();
    }
}
