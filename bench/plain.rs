//! What `mdstore check FILE` does, in plain Rust: it reads a NEM12 file line by line, holds each
//! record against the layouts and the faults of `docs/FORMATS.md`, adds up each day's values in
//! millionths, and prints a line for each day, or the file's first fault. `plain FILE nem13` does
//! so with a NEM13 file, and prints a line for each accumulation. `bench/run` compares the two.

use std::env;
use std::fs::File;
use std::io::{self, BufRead, BufReader, Read, Write};
use std::process::ExitCode;

/// How many bytes are read at a time.
const BLOCK: usize = 1 << 17;

/// How many bytes a line may have before its line feed.
const LONGEST_LINE: usize = 16_384;

/// How many lines a file may have.
const MOST_LINES: usize = 1_000_000;

/// The names of the units, as they are written.
const UNITS: [&str; 23] = [
    "MWh", "kWh", "Wh", "MVArh", "kVArh", "VArh", "MVAr", "kVAr", "VAr", "MW", "kW", "W", "MVAh",
    "kVAh", "VAh", "MVA", "kVA", "VA", "kV", "V", "kA", "A", "pf",
];

/// The powers of ten up to that of the sixth decimal.
const POWERS: [i64; 7] = [1, 10, 100, 1_000, 10_000, 100_000, 1_000_000];

/// The first fault of a file: its code, its line and, where it isn't 0, its field.
struct Fault {
    code: &'static str,
    line: usize,
    field: usize,
}

/// Why a file isn't reported.
enum Failure {
    Read,
    Fault(Fault),
}

/// The records that a file may have.
#[derive(Clone, Copy, PartialEq)]
enum Kind {
    Header,
    Details,
    Day,
    Event,
    B2b,
    End,
    Accumulation,
    AccumulationB2b,
}

/// The stream, the unit and the count of intervals of the last 200 record.
struct Details {
    nmi: [u8; 10],
    suffix: [u8; 2],
    unit: &'static str,
    count: usize,
}

/// The last 300 record, while 400 records may follow it.
struct Day {
    date: [u8; 8],
    flag: u8,
    /// The last interval of the last run.
    run_end: usize,
    /// How many intervals the runs hold.
    held: usize,
    /// How many intervals have a value in the end, by the runs so far, and the sum of these
    /// values.
    count: usize,
    sum: i128,
}

/// A file's check, as far as it has come.
struct Check {
    /// Whether it is a NEM13 file.
    is_nem13: bool,
    line: usize,
    last: Option<Kind>,
    details: Option<Details>,
    day: Option<Day>,
    /// The values of the day, none where the field is empty.
    values: Vec<Option<i64>>,
    report: Vec<u8>,
}

/// The fields of a line in order, and the first of them that was found bad.
struct Fields<I> {
    parts: I,
    /// The number of the field that was read last.
    number: usize,
    /// How many fields the line had so far.
    given: usize,
    /// The first bad field, or 0.
    bad: usize,
}

fn main() -> ExitCode {
    let Some(path) = env::args().nth(1) else {
        eprintln!("usage: plain FILE [nem13]");
        return ExitCode::from(2);
    };
    let is_nem13 = env::args().nth(2).is_some_and(|kind| kind == "nem13");
    let result = File::open(path)
        .map_err(|_| Failure::Read)
        .and_then(|file| report_of(file, is_nem13));
    let (status, text) = match result {
        Ok(report) => (0, report),
        Err(Failure::Read) => (3, b"cannot read file\n".to_vec()),
        Err(Failure::Fault(Fault { code, line, field })) => (
            1,
            match field {
                0 => format!("{code} line {line}\n").into_bytes(),
                _ => format!("{code} line {line} field {field}\n").into_bytes(),
            },
        ),
    };
    match io::stdout().write_all(&text) {
        Ok(()) => ExitCode::from(status),
        Err(_) => ExitCode::from(3),
    }
}

/// What is printed of a file.
fn report_of(file: impl Read, is_nem13: bool) -> Result<Vec<u8>, Failure> {
    let mut reader = BufReader::with_capacity(BLOCK, file);
    let mut check = Check {
        is_nem13,
        line: 0,
        last: None,
        details: None,
        day: None,
        values: Vec::new(),
        report: Vec::new(),
    };
    let mut line = Vec::new();
    loop {
        line.clear();
        let mut limited = reader.by_ref().take(LONGEST_LINE as u64 + 1);
        match limited.read_until(b'\n', &mut line) {
            Ok(0) => break,
            Ok(_) => check.take_line(&line).map_err(Failure::Fault)?,
            Err(_) => return Err(Failure::Read),
        }
    }
    check.finish().map_err(Failure::Fault)
}

impl Check {
    fn fault(&self, code: &'static str) -> Fault {
        Fault {
            code,
            line: self.line,
            field: 0,
        }
    }

    /// Checks a line, with its line feed if it has one.
    fn take_line(&mut self, line: &[u8]) -> Result<(), Fault> {
        self.line += 1;
        let line = line.strip_suffix(b"\n").unwrap_or(line);
        if line.len() > LONGEST_LINE || self.line > MOST_LINES {
            return Err(self.fault("L10"));
        }
        let line = line.strip_suffix(b"\r").unwrap_or(line);
        if line.is_empty() {
            return Ok(());
        }
        if std::str::from_utf8(line).is_err() {
            return Err(self.fault("L1"));
        }
        let mut fields = fields_of(line);
        let kind = kind_of(fields.next()).ok_or_else(|| self.fault("L2"))?;
        let is_in_place = match self.is_nem13 {
            true => may_follow_in_nem13(self.last, kind),
            false => may_follow(self.last, kind),
        };
        if !is_in_place {
            return Err(self.fault("L3"));
        }
        self.last = Some(kind);
        if kind != Kind::Event {
            self.end_day()?;
        }
        match kind {
            Kind::Header => self.take_header(fields),
            Kind::Details => self.take_details(fields),
            Kind::Day => self.take_day(fields),
            Kind::Event => self.take_event(fields),
            Kind::B2b => self.take_b2b(fields),
            Kind::Accumulation => self.take_accumulation(fields),
            Kind::AccumulationB2b => self.take_accumulation_b2b(fields),
            Kind::End => fields.finish(self.line, 1),
        }
    }

    /// What is printed, at the end of the file.
    fn finish(mut self) -> Result<Vec<u8>, Fault> {
        self.line += 1;
        self.end_day()?;
        if self.last != Some(Kind::End) {
            return Err(self.fault("L9"));
        }
        Ok(self.report)
    }

    /// Prints the day before this line, if no other line has ended it.
    fn end_day(&mut self) -> Result<(), Fault> {
        let (Some(day), Some(details)) = (self.day.take(), &self.details) else {
            return Ok(());
        };
        if day.flag == b'V' && day.held != details.count {
            return Err(self.fault("L8"));
        }
        let report = &mut self.report;
        for text in [&details.nmi[..], &details.suffix, &day.date] {
            report.extend_from_slice(text);
            report.push(b' ');
        }
        report.extend_from_slice(day.count.to_string().as_bytes());
        report.push(b' ');
        print_total(day.sum, report);
        report.push(b' ');
        report.extend_from_slice(details.unit.as_bytes());
        report.push(b'\n');
        Ok(())
    }

    fn take_header<'a>(
        &self,
        mut fields: Fields<impl Iterator<Item = &'a [u8]>>,
    ) -> Result<(), Fault> {
        let name = fields.next();
        let (own, other) = match self.is_nem13 {
            true => (b"NEM13", b"NEM12"),
            false => (b"NEM12", b"NEM13"),
        };
        if name == other {
            return Err(self.fault("L11"));
        }
        fields.judge(name == own);
        fields.test(|text| is_minute(text) || is_moment(text));
        fields.test(is_printable);
        fields.test(is_printable);
        fields.finish(self.line, 3)
    }

    fn take_details<'a>(
        &mut self,
        mut fields: Fields<impl Iterator<Item = &'a [u8]>>,
    ) -> Result<(), Fault> {
        let nmi = fields.read(name_of);
        fields.test(is_printable);
        fields.test(is_printable);
        let suffix = fields.read(name_of);
        fields.test(is_printable);
        fields.test(is_printable);
        let unit = fields.read(unit_of);
        let count = fields.read(count_of);
        fields.test(|text| text.is_empty() || is_day(text));
        fields.finish(self.line, 9)?;
        if let (Some(nmi), Some(suffix), Some(unit), Some(count)) = (nmi, suffix, unit, count) {
            self.details = Some(Details {
                nmi,
                suffix,
                unit,
                count,
            });
        }
        Ok(())
    }

    fn take_day<'a>(
        &mut self,
        mut fields: Fields<impl Iterator<Item = &'a [u8]>>,
    ) -> Result<(), Fault> {
        let n = self.details.as_ref().map_or(0, |details| details.count);
        let date = fields.read(|text| text.try_into().ok().filter(|_| is_day(text)));
        let (sum, first_empty) = self.take_values(&mut fields, n);
        let flag = fields.read(flag_of);
        let has_values = flag.is_some_and(|flag| flag != b'N' && flag != b'V');
        if has_values && first_empty != 0 && (fields.bad == 0 || first_empty < fields.bad) {
            fields.bad = first_empty;
        }
        fields.test(is_code);
        fields.test(is_reason);
        fields.test(is_no_moment_or_one);
        fields.test(is_no_moment_or_one);
        fields.finish(self.line, n + 3)?;
        if let (Some(date), Some(flag)) = (date, flag) {
            let (count, sum) = if has_values { (n, sum) } else { (0, 0) };
            self.day = Some(Day {
                date,
                flag,
                run_end: 0,
                held: 0,
                count,
                sum,
            });
        }
        Ok(())
    }

    /// Reads the values of a day, and returns their sum and the number of the first empty field, or 0.
    fn take_values<'a>(
        &mut self,
        fields: &mut Fields<impl Iterator<Item = &'a [u8]>>,
        n: usize,
    ) -> (i128, usize) {
        self.values.clear();
        let mut first_empty = 0;
        let mut sum = 0i128;
        for _ in 0..n {
            let text = fields.next();
            let value = millionths(text);
            if !text.is_empty() {
                fields.judge(value.is_some());
            } else if first_empty == 0 {
                first_empty = fields.number;
            }
            sum += i128::from(value.unwrap_or(0));
            self.values.push(value);
        }
        (sum, first_empty)
    }

    fn take_event<'a>(
        &mut self,
        mut fields: Fields<impl Iterator<Item = &'a [u8]>>,
    ) -> Result<(), Fault> {
        let first = fields.read(interval_of);
        let last = fields.read(interval_of);
        let flag = fields.read(|text| flag_of(text).filter(|flag| *flag != b'V'));
        fields.test(is_code);
        fields.test(is_reason);
        fields.finish(self.line, 4)?;
        let line = self.line;
        let fault = |code| Fault {
            code,
            line,
            field: 0,
        };
        if let (Some(first), Some(last), Some(flag), Some(day)) =
            (first, last, flag, self.day.as_mut())
        {
            if first < 1 || first > last || last > self.values.len() {
                return Err(fault("L6"));
            }
            if first <= day.run_end {
                return Err(fault("L7"));
            }
            let values = &self.values[first - 1..last];
            if flag != b'N' && values.contains(&None) {
                return Err(fault("L12"));
            }
            day.take_run(flag, values);
            day.run_end = last;
        }
        Ok(())
    }

    fn take_b2b<'a>(
        &self,
        mut fields: Fields<impl Iterator<Item = &'a [u8]>>,
    ) -> Result<(), Fault> {
        fields.test(is_trans);
        fields.test(is_printable);
        fields.test(is_no_moment_or_one);
        fields.test(is_printable);
        fields.finish(self.line, 1)
    }

    /// Prints the accumulation of a 250 record.
    fn take_accumulation<'a>(
        &mut self,
        mut fields: Fields<impl Iterator<Item = &'a [u8]>>,
    ) -> Result<(), Fault> {
        let nmi = fields.read(name_of::<10>);
        fields.test(is_printable);
        fields.test(is_printable);
        let suffix = fields.read(name_of::<2>);
        fields.test(is_printable);
        fields.test(is_printable);
        fields.test(|text| matches!(text, b"I" | b"E"));
        let previous = fields.read_read(false);
        let current = fields.read_read(true);
        let quantity = fields.read(millionths);
        let unit = fields.read(unit_of);
        fields.test(|text| text.is_empty() || is_day(text));
        fields.test(is_no_moment_or_one);
        fields.test(is_no_moment_or_one);
        fields.finish(self.line, 20)?;
        if let (Some(nmi), Some(suffix), Some(quantity), Some(unit)) = (nmi, suffix, quantity, unit) {
            let report = &mut self.report;
            for text in [&nmi[..], &suffix, previous, current] {
                report.extend_from_slice(text);
                report.push(b' ');
            }
            print_total(i128::from(quantity), report);
            report.push(b' ');
            report.extend_from_slice(unit.as_bytes());
            report.push(b'\n');
        }
        Ok(())
    }

    fn take_accumulation_b2b<'a>(
        &self,
        mut fields: Fields<impl Iterator<Item = &'a [u8]>>,
    ) -> Result<(), Fault> {
        fields.test(is_trans);
        fields.test(is_printable);
        fields.test(is_trans);
        fields.test(is_printable);
        fields.finish(self.line, 1)
    }
}

impl Day {
    /// Counts the values of a run, or counts them no longer.
    fn take_run(&mut self, flag: u8, values: &[Option<i64>]) {
        let sum: i128 = values
            .iter()
            .flatten()
            .map(|value| i128::from(*value))
            .sum();
        let is_counted = self.flag != b'N' && self.flag != b'V';
        if flag != b'N' && !is_counted {
            self.count += values.len();
            self.sum += sum;
        } else if flag == b'N' && is_counted {
            self.count -= values.len();
            self.sum -= sum;
        }
        self.held += values.len();
    }
}

/// The fields of a line.
fn fields_of(line: &[u8]) -> Fields<impl Iterator<Item = &[u8]>> {
    Fields {
        parts: line.split(|c| *c == b','),
        number: 0,
        given: 0,
        bad: 0,
    }
}

impl<'a, I: Iterator<Item = &'a [u8]>> Fields<I> {
    /// The next field, empty where the line has no more.
    fn next(&mut self) -> &'a [u8] {
        self.number += 1;
        match self.parts.next() {
            Some(text) => {
                self.given += 1;
                text
            }
            None => b"",
        }
    }

    /// Notes that the field that was read last is bad, if it isn't good.
    fn judge(&mut self, is_good: bool) {
        if !is_good && self.bad == 0 {
            self.bad = self.number;
        }
    }

    /// Judges the next field by a test.
    fn test(&mut self, is_good: impl Fn(&[u8]) -> bool) {
        let text = self.next();
        self.judge(is_good(text));
    }

    /// What the next field denotes.
    fn read<T>(&mut self, read: impl Fn(&[u8]) -> Option<T>) -> Option<T> {
        let value = read(self.next());
        self.judge(value.is_some());
        value
    }

    /// Judges the fields of a register read, and answers that of its moment.
    fn read_read(&mut self, has_quality: bool) -> &'a [u8] {
        self.test(is_printable);
        let moment = self.next();
        self.judge(is_moment(moment));
        self.test(|text| match text {
            [] => !has_quality,
            _ => flag_of(text).is_some_and(|flag| flag != b'V'),
        });
        self.test(is_code);
        self.test(is_reason);
        moment
    }

    /// The fault of a line whose fields are all read: L4, or L5 of its first bad field.
    fn finish(mut self, line: usize, least: usize) -> Result<(), Fault> {
        if self.given < least || self.parts.any(|text| !text.is_empty()) {
            return Err(Fault {
                code: "L4",
                line,
                field: 0,
            });
        }
        match self.bad {
            0 => Ok(()),
            field => Err(Fault {
                code: "L5",
                line,
                field,
            }),
        }
    }
}

/// The kind of record that an indicator names.
fn kind_of(indicator: &[u8]) -> Option<Kind> {
    Some(match indicator {
        b"100" => Kind::Header,
        b"200" => Kind::Details,
        b"250" => Kind::Accumulation,
        b"300" => Kind::Day,
        b"400" => Kind::Event,
        b"500" => Kind::B2b,
        b"550" => Kind::AccumulationB2b,
        b"900" => Kind::End,
        _ => return None,
    })
}

/// Whether a record may stand after the last one.
fn may_follow(last: Option<Kind>, kind: Kind) -> bool {
    use Kind::*;
    match last {
        None => kind == Header,
        Some(Header) => matches!(kind, Details | End),
        Some(Details) => matches!(kind, Details | Day | End),
        Some(Day | Event) => matches!(kind, Day | Event | B2b | Details | End),
        Some(B2b) => matches!(kind, B2b | Day | Details | End),
        Some(End | Accumulation | AccumulationB2b) => false,
    }
}

/// Whether a record of a NEM13 file may stand after the last one.
fn may_follow_in_nem13(last: Option<Kind>, kind: Kind) -> bool {
    use Kind::*;
    match last {
        None => kind == Header,
        Some(Header) => matches!(kind, Accumulation | End),
        Some(Accumulation | AccumulationB2b) => matches!(kind, Accumulation | AccumulationB2b | End),
        Some(_) => false,
    }
}

/// Whether a text is empty or a transaction code.
fn is_trans(text: &[u8]) -> bool {
    matches!(text, [] | [b'A'..=b'Z'])
}

/// An NMI or a suffix.
fn name_of<const N: usize>(text: &[u8]) -> Option<[u8; N]> {
    let is_name = text
        .iter()
        .all(|c| c.is_ascii_uppercase() || c.is_ascii_digit());
    text.try_into().ok().filter(|_| is_name)
}

/// The unit that a text names, whatever its case.
fn unit_of(text: &[u8]) -> Option<&'static str> {
    UNITS
        .into_iter()
        .find(|name| name.as_bytes().eq_ignore_ascii_case(text))
}

/// How many intervals a day has, by the text of their length in minutes.
fn count_of(text: &[u8]) -> Option<usize> {
    match text {
        b"5" | b"05" => Some(288),
        b"15" => Some(96),
        b"30" => Some(48),
        _ => None,
    }
}

/// The flag of a quality.
fn flag_of(text: &[u8]) -> Option<u8> {
    match *text {
        [flag @ (b'A' | b'N' | b'V')] => Some(flag),
        [flag @ (b'E' | b'F' | b'S'), tens, ones]
            if tens.is_ascii_digit() && ones.is_ascii_digit() =>
        {
            Some(flag)
        }
        _ => None,
    }
}

/// The number of an interval: one to four digits.
fn interval_of(text: &[u8]) -> Option<usize> {
    let is_number = (1..=4).contains(&text.len()) && text.iter().all(u8::is_ascii_digit);
    is_number.then(|| number_of(text))
}

/// The number that digits denote.
fn number_of(digits: &[u8]) -> usize {
    digits
        .iter()
        .fold(0, |number, c| number * 10 + usize::from(c - b'0'))
}

/// Whether a text is empty or a reason code.
fn is_code(text: &[u8]) -> bool {
    text.len() <= 3 && text.iter().all(u8::is_ascii_digit)
}

/// Whether a text is the description of a reason.
fn is_reason(text: &[u8]) -> bool {
    std::str::from_utf8(text)
        .is_ok_and(|text| text.chars().count() <= 240 && !text.chars().any(char::is_control))
}

/// Whether a text is printable ASCII of at most 240 bytes.
fn is_printable(text: &[u8]) -> bool {
    text.len() <= 240 && text.iter().all(|c| (0x20..=0x7E).contains(c))
}

/// Whether a text is a day, CCYYMMDD.
fn is_day(text: &[u8]) -> bool {
    if text.len() != 8 || !text.iter().all(u8::is_ascii_digit) {
        return false;
    }
    let (year, month, day) = (
        number_of(&text[..4]),
        number_of(&text[4..6]),
        number_of(&text[6..]),
    );
    let is_leap = year % 400 == 0 || (year % 4 == 0 && year % 100 != 0);
    let days = match month {
        2 if is_leap => 29,
        2 => 28,
        4 | 6 | 9 | 11 => 30,
        1..=12 => 31,
        _ => 0,
    };
    year >= 1970 && (1..=days).contains(&day)
}

/// Whether a text is a day with an hour and a minute, CCYYMMDDhhmm.
fn is_minute(text: &[u8]) -> bool {
    text.len() == 12
        && text.iter().all(u8::is_ascii_digit)
        && is_day(&text[..8])
        && number_of(&text[8..10]) < 24
        && number_of(&text[10..]) < 60
}

/// Whether a text is a moment, CCYYMMDDhhmmss.
fn is_moment(text: &[u8]) -> bool {
    text.len() == 14
        && text.iter().all(u8::is_ascii_digit)
        && is_minute(&text[..12])
        && number_of(&text[12..]) < 60
}

/// Whether a text is empty or a moment.
fn is_no_moment_or_one(text: &[u8]) -> bool {
    text.is_empty() || is_moment(text)
}

/// A value in millionths: an optional minus sign, then digits with at most one point; at most
/// twelve whole digits after leading zeros, and no digit but 0 past the sixth decimal.
fn millionths(text: &[u8]) -> Option<i64> {
    let digits = text.strip_prefix(b"-").unwrap_or(text);
    let mut total = 0i64;
    let mut whole = 0;
    while let Some(c @ b'0'..=b'9') = digits.get(whole) {
        total = total * 10 + i64::from(c - b'0');
        if total >= 1_000_000_000_000 {
            return None;
        }
        whole += 1;
    }
    let mut decimals = 0;
    if whole < digits.len() {
        let (b'.', rest) = digits[whole..].split_first()? else {
            return None;
        };
        if whole == 0 && rest.is_empty() {
            return None;
        }
        for c in rest {
            match c {
                b'0'..=b'9' if decimals < 6 => {
                    total = total * 10 + i64::from(c - b'0');
                    decimals += 1;
                }
                b'0' => {}
                _ => return None,
            }
        }
    } else if whole == 0 {
        return None;
    }
    let total = total * POWERS[6 - decimals];
    Some(if digits.len() < text.len() {
        -total
    } else {
        total
    })
}

/// Appends a sum of millionths, as a decimal number without needless digits.
fn print_total(sum: i128, report: &mut Vec<u8>) {
    if sum < 0 {
        report.push(b'-');
    }
    let size = sum.unsigned_abs();
    report.extend_from_slice((size / 1_000_000).to_string().as_bytes());
    let decimals = size % 1_000_000;
    if decimals != 0 {
        let text = format!(".{decimals:06}");
        report.extend_from_slice(text.trim_end_matches('0').as_bytes());
    }
}
