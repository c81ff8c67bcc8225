//! What a picture of a symbol's day shows: steps, marks and bands, never more than fit in a picture.

use quotebook::log::Call;

use crate::clock::Clock;
use crate::entries::{bytes, decoded, flags, NAMES};
use crate::message::{detail, Kind};
use crate::recording::Played;

/// More points of a line than this are drawn together.
const POINTS: usize = 1000;
/// More bands than this are counted only.
const BANDS: usize = 400;

/// A change of an entry, or several that are drawn as one.
#[derive(Clone, PartialEq, Eq, Debug)]
pub struct Point {
    /// Nanoseconds of the day.
    pub time: u128,
    /// The price behind it, and the lowest and highest of those drawn together.
    pub price: Option<u64>,
    pub low: u64,
    pub high: u64,
    /// What a reader sees of it.
    pub label: String,
}

/// One entry's changes.
#[derive(Clone, Default, PartialEq, Eq, Debug)]
pub struct Series {
    pub points: Vec<Point>,
    /// Points nearer than this are drawn together.
    width: u128,
    pub changes: u64,
}

impl Series {
    fn add(&mut self, point: Point) {
        self.changes += 1;
        self.join(point);
        if self.points.len() > POINTS {
            self.width = (2 * self.width).max(1000);
            let points = std::mem::take(&mut self.points);
            points.into_iter().for_each(|point| self.join(point));
        }
    }

    fn join(&mut self, point: Point) {
        match self.points.last_mut() {
            Some(last) if self.width > 0 && point.time / self.width == last.time / self.width => {
                let (low, high) = (last.low, last.high);
                *last = point;
                if last.price.is_some() {
                    last.low = last.low.min(low);
                    last.high = last.high.max(high);
                } else {
                    (last.low, last.high) = (low, high);
                }
            }
            _ => self.points.push(point),
        }
    }
}

/// What a band tells.
#[derive(Clone, Copy, PartialEq, Eq, Debug)]
pub enum BandKind {
    Halt,
    Gap,
    FinraClose,
    Closed,
}

impl BandKind {
    pub const ALL: [BandKind; 4] = [
        BandKind::Halt,
        BandKind::Gap,
        BandKind::FinraClose,
        BandKind::Closed,
    ];

    pub fn name(self) -> &'static str {
        match self {
            BandKind::Halt => "halted",
            BandKind::Gap => "gap of a line",
            BandKind::FinraClose => "FINRA closed",
            BandKind::Closed => "day closed",
        }
    }
}

/// A stretch of time.
#[derive(Clone, PartialEq, Eq, Debug)]
pub struct Band {
    pub kind: BandKind,
    pub from: u128,
    pub to: Option<u128>,
    pub label: String,
}

/// Messages that were not accepted whole, drawn as one.
#[derive(Clone, PartialEq, Eq, Debug)]
pub struct Rejected {
    pub time: u128,
    pub count: u64,
    /// Of the last of them.
    pub label: String,
}

/// The day of a symbol.
#[derive(Clone, PartialEq, Eq, Debug)]
pub struct Day {
    pub symbol: String,
    place: usize,
    from: u64,
    /// The first and the last time of a record in the picture.
    pub first: Option<u128>,
    pub last: u128,
    /// National bid and offer, FINRA bid and offer, odd bid and offer.
    pub series: [Series; 6],
    pub bands: Vec<Band>,
    pub rejected: Vec<Rejected>,
    /// Rejected messages nearer than this are drawn as one.
    rejected_width: u128,
    /// Bands that are not drawn.
    pub left_out: u64,
    /// When each line's last block came.
    heard: [Option<u128>; 64],
}

impl Day {
    /// The day of the symbol in this place, from a time on.
    pub fn new(symbol: String, place: usize, from: u64) -> Day {
        Day {
            symbol,
            place,
            from,
            first: None,
            last: 0,
            series: Default::default(),
            bands: Vec::new(),
            rejected: Vec::new(),
            rejected_width: 0,
            left_out: 0,
            heard: [None; 64],
        }
    }

    /// Takes in a record of a player that goes step by step.
    pub fn note(&mut self, played: &Played, clock: &Clock) {
        let time = clock.of_day(played.record.time);
        let is_shown = played.record.time >= self.from;
        if is_shown {
            self.first.get_or_insert(time);
            self.last = self.last.max(time);
        }
        self.note_bands(played, time, is_shown);
        for change in &played.player.changes {
            if change.symbol == self.place {
                let at = if is_shown {
                    time
                } else {
                    clock.of_day(self.from)
                };
                self.note_change(played, change, at, is_shown);
            }
        }
    }

    fn note_change(
        &mut self,
        played: &Played,
        change: &crate::play::Change,
        time: u128,
        is_shown: bool,
    ) {
        let after = decoded(&change.after);
        let by = match (change.message, played.record.call) {
            (Some(i), Call::TakeBlock { line, block, .. }) => {
                let worked = &played.player.messages[i];
                let message = &block[worked.start..worked.end];
                format!(
                    "line {line} sequence {} (record {}): {} {}\nchanged: {}",
                    worked.sequence,
                    played.index,
                    Kind::of(message).name(),
                    detail(message),
                    flags(worked.flags)
                )
            }
            _ => format!("record {}", played.index),
        };
        for (at, entry) in after.into_iter().enumerate() {
            if bytes(&change.before, at) == bytes(&change.after, at) {
                continue;
            }
            let price = entry.map(|entry| entry.price.0);
            let shown = crate::entries::text(entry);
            let point = Point {
                time,
                price,
                low: price.unwrap_or(u64::MAX),
                high: price.unwrap_or(0),
                label: format!("{} {shown}\n{by}", NAMES[at]),
            };
            match is_shown {
                true => self.series[at].add(point),
                // What stands when the picture begins.
                false => self.series[at].points = vec![point],
            }
        }
    }

    fn note_bands(&mut self, played: &Played, time: u128, is_shown: bool) {
        let done = &played.player.done;
        let is_done = matches!(done.number, 0 | 70);
        match played.record.call {
            Call::StartDay if is_done => {
                self.end(BandKind::Closed, time);
                self.end(BandKind::Halt, time);
            }
            Call::EndDay if is_done => {
                self.begin(BandKind::Closed, time, "the day is closed".to_string())
            }
            Call::TakeBlock { line, block, .. } => {
                let since = self.heard.get(line as usize).copied().flatten();
                if let (70, Some(report), true) = (done.number, done.report, is_shown) {
                    let label = format!(
                        "line {line}: {} sequence numbers are missing before {} (record {})",
                        report.gap,
                        report
                            .expected
                            .wrapping_sub(played.player.messages.len() as u32),
                        played.index
                    );
                    self.begin(BandKind::Gap, since.unwrap_or(time), label);
                    self.end(BandKind::Gap, time);
                }
                if let Some(heard) = self.heard.get_mut(line as usize) {
                    *heard = Some(time);
                }
                for worked in &played.player.messages {
                    let message = &block[worked.start..worked.end];
                    let place = format!(
                        "line {line} sequence {} (record {})",
                        worked.sequence, played.index
                    );
                    match Kind::of(message) {
                        Kind::FinraClose if worked.code == 0 => {
                            self.begin(BandKind::FinraClose, time, format!("FINRA Close: {place}"));
                        }
                        Kind::FinraOpen if worked.code == 0 => self.end(BandKind::FinraClose, time),
                        _ => {}
                    }
                    if worked.symbol == Some(self.place) && worked.code != 0 && is_shown {
                        let label = format!(
                            "{}\n{place}: {} {}",
                            crate::commands::code_text(worked.code, worked.is_in_force),
                            Kind::of(message).name(),
                            detail(message)
                        );
                        self.reject(Rejected {
                            time,
                            count: 1,
                            label,
                        });
                    }
                    let is_status = Kind::of(message) == Kind::Status && worked.code == 0;
                    if is_status && worked.symbol == Some(self.place) {
                        self.end(BandKind::Halt, time);
                        if message[31] == b'H' {
                            self.begin(BandKind::Halt, time, format!("halted: {place}"));
                        }
                    }
                }
            }
            _ => {}
        }
    }

    fn reject(&mut self, rejected: Rejected) {
        self.join_rejected(rejected);
        if self.rejected.len() > BANDS {
            self.rejected_width = (2 * self.rejected_width).max(1000);
            let rejected = std::mem::take(&mut self.rejected);
            rejected
                .into_iter()
                .for_each(|rejected| self.join_rejected(rejected));
        }
    }

    fn join_rejected(&mut self, rejected: Rejected) {
        let width = self.rejected_width;
        match self.rejected.last_mut() {
            Some(last) if width > 0 && last.time / width == rejected.time / width => {
                let count = last.count + rejected.count;
                *last = Rejected { count, ..rejected };
            }
            _ => self.rejected.push(rejected),
        }
    }

    fn begin(&mut self, kind: BandKind, from: u128, label: String) {
        match self.bands.len() < BANDS {
            true => self.bands.push(Band {
                kind,
                from,
                to: None,
                label,
            }),
            false => self.left_out += 1,
        }
    }

    /// Ends the band of this kind that has no end.
    fn end(&mut self, kind: BandKind, to: u128) {
        let open = self
            .bands
            .iter_mut()
            .rev()
            .find(|band| band.kind == kind && band.to.is_none());
        if let Some(band) = open {
            band.to = Some(to);
        }
    }

    /// Whether there is anything to draw.
    pub fn is_empty(&self) -> bool {
        self.series.iter().all(|series| series.points.is_empty())
    }
}
