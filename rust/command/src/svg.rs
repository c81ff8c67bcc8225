//! Pictures, drawn by hand as SVG.

use quotebook::Price;

use crate::clock::Clock;
use crate::day::{BandKind, Day, Point, Series};

const WIDTH: f64 = 1200.0;
const HEIGHT: f64 = 460.0;
const LEFT: f64 = 84.0;
const RIGHT: f64 = 34.0;
const TOP: f64 = 56.0;
const BOTTOM: f64 = 56.0;

const BID: &str = "#1b5e9e";
const OFFER: &str = "#b3341f";
const REJECTED: &str = "#7a3fa0";

/// The style that the picture carries along.
const STYLE: &str = "text{font:12px sans-serif;fill:#333}.title{font-size:15px;font-weight:bold}\
.grid{stroke:#ddd;stroke-width:1}.axis{stroke:#888;stroke-width:1}.step{fill:none;stroke-width:1.4}\
.dot:hover,.odd:hover,.rejected:hover{stroke:#000;stroke-width:2}";

fn band_color(kind: BandKind) -> &'static str {
    match kind {
        BandKind::Halt => "#f2b8b0",
        BandKind::Gap => "#f4d58a",
        BandKind::FinraClose => "#bfd8c2",
        BandKind::Closed => "#d8d8d8",
    }
}

/// A text inside of an element or an attribute.
pub fn escape(text: &str) -> String {
    text.replace('&', "&amp;")
        .replace('<', "&lt;")
        .replace('>', "&gt;")
        .replace('"', "&quot;")
}

/// Where times and prices lie in the picture.
struct Scale {
    first: u128,
    last: u128,
    low: u64,
    high: u64,
}

impl Scale {
    fn of(day: &Day) -> Scale {
        let first = day.first.unwrap_or(0);
        let drawn = [0, 1, 4, 5].map(|at| &day.series[at].points);
        let points = drawn.into_iter().flatten();
        let mut prices: Vec<u64> = points
            .flat_map(|point| [point.low, point.high])
            .filter(|&price| price > 0 && price < u64::MAX)
            .collect();
        prices.sort_unstable();
        let at = |share: usize| prices.get((prices.len().saturating_sub(1)) * share / 100);
        let (low, high) = (at(0).copied().unwrap_or(0), at(100).copied().unwrap_or(1));
        let middle = at(50).copied().unwrap_or(0);
        // Prices far off, as of a stub quote, would flatten all others: they are cut off.
        let (low, high) = match high - low > middle / 4 {
            true => (
                at(2).copied().unwrap_or(low),
                at(98).copied().unwrap_or(high),
            ),
            false => (low, high),
        };
        let margin = ((high - low) / 12).max(1);
        Scale {
            first,
            last: day.last.max(first + 1),
            low: low.saturating_sub(margin),
            high: high.saturating_add(margin),
        }
    }

    fn x(&self, time: u128) -> f64 {
        let time = time.clamp(self.first, self.last) - self.first;
        let share = time as f64 / (self.last - self.first) as f64;
        LEFT + share * (WIDTH - LEFT - RIGHT)
    }

    fn y(&self, price: u64) -> f64 {
        let share = (price as f64 - self.low as f64) / (self.high - self.low) as f64;
        let y = HEIGHT - BOTTOM - share * (HEIGHT - TOP - BOTTOM);
        y.clamp(TOP - 4.0, HEIGHT - BOTTOM + 4.0)
    }
}

/// The steps between which at most so many lines are drawn: for prices one, two or five.
fn price_step(range: u64, lines: u64) -> u64 {
    let mut unit = 1;
    loop {
        for step in [unit, 2 * unit, 5 * unit] {
            if range / step <= lines {
                return step;
            }
        }
        unit *= 10;
    }
}

const SECOND: u128 = 1_000_000_000;

/// For times whole parts of a minute, an hour or a day.
fn time_step(range: u128, lines: u128) -> u128 {
    let fine =
        [1, 2, 5, 10, 20, 50, 100, 200, 500].map(|milliseconds| milliseconds * SECOND / 1000);
    let coarse = [
        1, 2, 5, 10, 15, 30, 60, 120, 300, 600, 900, 1800, 3600, 7200, 14_400, 43_200,
    ];
    let steps = fine
        .into_iter()
        .chain(coarse.map(|seconds| seconds * SECOND));
    let mut steps = steps.filter(|step| range / step <= lines);
    steps.next().unwrap_or(86_400 * SECOND)
}

/// The picture of a day.
pub fn draw(day: &Day, clock: &Clock) -> String {
    let scale = Scale::of(day);
    let mut svg = format!(
        "<svg xmlns=\"http://www.w3.org/2000/svg\" viewBox=\"0 0 {WIDTH} {HEIGHT}\" \
         width=\"{WIDTH}\" height=\"{HEIGHT}\" role=\"img\">\n<style>{STYLE}</style>\n\
         <rect width=\"{WIDTH}\" height=\"{HEIGHT}\" fill=\"#fff\"/>\n\
         <text class=\"title\" x=\"{LEFT}\" y=\"20\">{}</text>\n",
        escape(&day.symbol)
    );
    svg += &legend(day);
    svg += &bands(day, &scale);
    svg += &axes(&scale, clock);
    for (at, color, up) in [(4, BID, true), (5, OFFER, false)] {
        svg += &odd_lots(&day.series[at], &scale, color, up);
    }
    for (at, color) in [(0, BID), (1, OFFER)] {
        svg += &steps(&day.series[at], &scale, color);
    }
    for rejected in &day.rejected {
        let label = match rejected.count {
            1 => escape(&rejected.label),
            count => format!("{count} messages, the last:\n{}", escape(&rejected.label)),
        };
        let (x, y) = (scale.x(rejected.time), HEIGHT - BOTTOM - 7.0);
        svg += &format!(
            "<path class=\"rejected\" d=\"M{:.1} {:.1}l8 8m0 -8l-8 8\" stroke=\"{REJECTED}\" \
             stroke-width=\"2\"><title>{}</title></path>\n",
            x - 4.0,
            y - 4.0,
            label
        );
    }
    if day.is_empty() {
        svg += &format!(
            "<text x=\"{LEFT}\" y=\"{}\">no entries in this time</text>\n",
            TOP + 30.0
        );
    }
    svg += "</svg>\n";
    svg
}

fn legend(day: &Day) -> String {
    let line = |x: f64, color: &str| {
        format!("<path d=\"M{x} 40h22\" stroke=\"{color}\" stroke-width=\"2\"/>")
    };
    let mut x = LEFT;
    let mut legend = String::new();
    let mut put = |shape: &dyn Fn(f64) -> String, text: &str| {
        legend += &shape(x);
        legend += &format!("<text x=\"{}\" y=\"44\">{text}</text>\n", x + 27.0);
        x += 44.0 + 6.4 * text.len() as f64;
    };
    put(&|x| line(x, BID), "national bid");
    put(&|x| line(x, OFFER), "national offer");
    put(
        &|x| triangle(x + 14.0, 40.0, (5.0, 1.0), BID, true, ""),
        "odd bid",
    );
    put(
        &|x| triangle(x + 14.0, 40.0, (5.0, 1.0), OFFER, false, ""),
        "odd offer",
    );
    if !day.rejected.is_empty() {
        let cross = |x: f64| {
            format!(
                "<path d=\"M{} 36l8 8m0 -8l-8 8\" stroke=\"{REJECTED}\" stroke-width=\"2\"/>",
                x + 10.0
            )
        };
        put(&cross, "rejected or partly accepted");
    }
    for kind in BandKind::ALL {
        if day.bands.iter().any(|band| band.kind == kind) {
            let color = band_color(kind);
            let patch = |x: f64| {
                format!("<rect x=\"{x}\" y=\"33\" width=\"22\" height=\"13\" fill=\"{color}\"/>")
            };
            put(&patch, kind.name());
        }
    }
    if day.left_out > 0 {
        let text = format!("{} more are not drawn", day.left_out);
        put(&|_| String::new(), &text);
    }
    legend
}

fn bands(day: &Day, scale: &Scale) -> String {
    let mut drawn = String::new();
    for band in &day.bands {
        let to = band.to.unwrap_or(scale.last);
        if to < scale.first || band.from > scale.last {
            continue;
        }
        let (from, to) = (scale.x(band.from), scale.x(to));
        drawn += &format!(
            "<rect class=\"band\" x=\"{from:.1}\" y=\"{TOP}\" width=\"{:.1}\" height=\"{}\" \
             fill=\"{}\" fill-opacity=\"0.6\"><title>{}</title></rect>\n",
            (to - from).max(2.0),
            HEIGHT - TOP - BOTTOM,
            band_color(band.kind),
            escape(&band.label)
        );
    }
    drawn
}

fn axes(scale: &Scale, clock: &Clock) -> String {
    let mut drawn = String::new();
    let step = price_step(scale.high - scale.low, 8);
    let mut price = scale.low.div_ceil(step) * step;
    while price <= scale.high {
        let y = scale.y(price);
        drawn += &format!(
            "<path class=\"grid\" d=\"M{LEFT} {y:.1}H{}\"/>\
             <text x=\"{}\" y=\"{:.1}\" text-anchor=\"end\">{}</text>\n",
            WIDTH - RIGHT,
            LEFT - 8.0,
            y + 4.0,
            Price(price)
        );
        price = price.saturating_add(step);
    }
    let step = time_step(scale.last - scale.first, 10);
    let mut time = scale.first.div_ceil(step) * step;
    while time <= scale.last {
        let x = scale.x(time);
        let text = match step < SECOND {
            true => clock.show_fine(time),
            false => clock.show_short(time),
        };
        drawn += &format!(
            "<path class=\"grid\" d=\"M{x:.1} {TOP}V{}\"/>\
             <text x=\"{x:.1}\" y=\"{}\" text-anchor=\"middle\">{text}</text>\n",
            HEIGHT - BOTTOM,
            HEIGHT - BOTTOM + 18.0
        );
        time += step;
    }
    drawn += &format!(
        "<path class=\"axis\" d=\"M{LEFT} {TOP}V{}H{}\" fill=\"none\"/>\n",
        HEIGHT - BOTTOM,
        WIDTH - RIGHT
    );
    drawn
}

/// A line that goes on at its price until the next change, with a break where there is none.
fn steps(series: &Series, scale: &Scale, color: &str) -> String {
    let mut path = String::new();
    let mut dots = String::new();
    let mut is_down = false;
    for point in &series.points {
        let x = scale.x(point.time);
        if is_down {
            path += &format!("H{x:.1}");
        }
        if point.low < point.high {
            // Several changes at one place of the picture.
            let (low, high) = (scale.y(point.low), scale.y(point.high));
            path += &format!("M{x:.1} {low:.1}V{high:.1}");
        }
        let was_down = std::mem::replace(&mut is_down, point.price.is_some());
        if let Some(price) = point.price {
            let y = scale.y(price);
            // Up or down from the price before, or a new beginning.
            path += &match was_down && point.low >= point.high {
                true => format!("V{y:.1}"),
                false => format!("M{x:.1} {y:.1}"),
            };
            dots += &dot(point, x, y, color);
        }
    }
    if is_down {
        path += &format!("H{:.1}", scale.x(scale.last));
    }
    format!("<path class=\"step\" d=\"{path}\" stroke=\"{color}\"/>\n{dots}")
}

fn dot(point: &Point, x: f64, y: f64, color: &str) -> String {
    format!(
        "<circle class=\"dot\" cx=\"{x:.1}\" cy=\"{y:.1}\" r=\"2\" fill=\"{color}\"><title>{}</title></circle>\n",
        escape(&point.label)
    )
}

/// Each odd lot as a mark where it begins, with a thin line as long as it is the best one.
fn odd_lots(series: &Series, scale: &Scale, color: &str, up: bool) -> String {
    let mut drawn = String::new();
    // Many marks are small and pale, so that the steps are seen.
    let (size, opacity) = match series.points.len() > 200 {
        true => (2.5, 0.45),
        false => (5.0, 1.0),
    };
    for (at, point) in series.points.iter().enumerate() {
        let Some(price) = point.price else {
            continue;
        };
        let (x, y) = (scale.x(point.time), scale.y(price));
        let next = series
            .points
            .get(at + 1)
            .map_or(scale.last, |next| next.time);
        drawn += &format!(
            "<path d=\"M{x:.1} {y:.1}H{:.1}\" stroke=\"{color}\" stroke-width=\"1\" \
             stroke-opacity=\"{opacity}\" stroke-dasharray=\"2 3\"/>",
            scale.x(next)
        );
        drawn += &triangle(x, y, (size, opacity), color, up, &point.label);
        drawn.push('\n');
    }
    drawn
}

fn triangle(
    x: f64,
    y: f64,
    (size, opacity): (f64, f64),
    color: &str,
    up: bool,
    label: &str,
) -> String {
    let high = if up { -size } else { size };
    format!(
        "<path class=\"odd\" d=\"M{:.1} {:.1}L{:.1} {:.1}L{x:.1} {:.1}Z\" fill=\"{color}\" \
         fill-opacity=\"{opacity}\"><title>{}</title></path>",
        x - size,
        y - high,
        x + size,
        y - high,
        y + high,
        escape(label)
    )
}

#[cfg(test)]
mod tests {
    use super::*;

    #[test]
    fn steps_of_axes() {
        assert_eq!(price_step(80_000, 8), 10_000);
        assert_eq!(price_step(90_000, 8), 20_000);
        assert_eq!(price_step(0, 8), 1);
        assert_eq!(time_step(10 * SECOND, 10), SECOND);
        assert_eq!(time_step(4 * 3600 * SECOND, 10), 1800 * SECOND);
        assert_eq!(time_step(SECOND / 100, 10), SECOND / 1000);
    }

    #[test]
    fn texts_are_escaped() {
        assert_eq!(escape("<a & \"b\">"), "&lt;a &amp; &quot;b&quot;&gt;");
    }
}
