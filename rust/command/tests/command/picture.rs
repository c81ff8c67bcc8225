//! Pictures and the report: their form, and what they show. Where Chromium is, it opens the report.

use std::collections::BTreeMap;
use std::fs;
use std::process::Command;

use crate::support::{run_in, sample};

/// An element: its name, attributes, and text up to the next tag.
struct Element {
    name: String,
    attributes: BTreeMap<String, String>,
    text: String,
}

/// The elements of a text, which has to be well-formed: every tag is closed in its turn, every attribute
/// quoted, every & begins an entity.
fn elements(text: &str) -> Vec<Element> {
    let mut elements: Vec<Element> = Vec::new();
    let mut open: Vec<String> = Vec::new();
    let mut rest = text.trim();
    while let Some(at) = rest.find('<') {
        let (before, tag) = rest.split_at(at);
        if let Some(last) = elements.last_mut() {
            last.text += before;
        }
        for entity in before.split('&').skip(1) {
            let known = ["amp;", "lt;", "gt;", "quot;"];
            assert!(
                known.iter().any(|known| entity.starts_with(known)),
                "&{entity}"
            );
        }
        let end = tag.find('>').expect("a tag ends");
        let inner = &tag[1..end];
        rest = &tag[end + 1..];
        if let Some(name) = inner.strip_prefix('/') {
            assert_eq!(open.pop().as_deref(), Some(name), "closed in its turn");
            continue;
        }
        let (inner, is_closed) = match inner.strip_suffix('/') {
            Some(inner) => (inner, true),
            None => (inner, false),
        };
        let (name, mut left) = inner.split_once(' ').unwrap_or((inner, ""));
        let mut attributes = BTreeMap::new();
        while let Some((key, value)) = left.split_once("=\"") {
            let (value, more) = value.split_once('"').expect("a quoted value");
            attributes.insert(key.trim().to_string(), value.to_string());
            left = more;
        }
        assert_eq!(left.trim(), "", "attributes of {name}");
        if !is_closed {
            open.push(name.to_string());
        }
        elements.push(Element {
            name: name.to_string(),
            attributes,
            text: String::new(),
        });
    }
    assert_eq!(open, [""; 0], "all is closed");
    elements
}

fn class<'a>(elements: &'a [Element], class: &str) -> Vec<&'a Element> {
    let has = |element: &&Element| {
        element
            .attributes
            .get("class")
            .is_some_and(|own| own == class)
    };
    elements.iter().filter(has).collect()
}

fn picture(symbol: &str, more: &[&str]) -> Vec<Element> {
    let folder = sample();
    let file = format!("{symbol}{}.svg", more.join("").replace(':', ""));
    let plot = ["plot", "day.log", "--symbol", symbol, "-o", &file];
    let ran = run_in(&folder, &[&plot[..], more].concat());
    assert_eq!(ran.status, 0, "{}", ran.errors);
    elements(&fs::read_to_string(folder.join(file)).expect("a picture"))
}

/// The labels of marks; each mark's title comes behind it.
fn labels(elements: &[Element], wanted: &str) -> Vec<String> {
    let pairs = elements.windows(2);
    let own = pairs.filter(|pair| {
        pair[0]
            .attributes
            .get("class")
            .is_some_and(|own| own == wanted)
    });
    own.map(|pair| pair[1].text.clone())
        .filter(|text| !text.is_empty())
        .collect()
}

#[test]
fn what_a_picture_shows() {
    let ibm = picture("IBM", &[]);
    let bands = labels(&ibm, "band");
    for begins in [
        "halted: line 5",
        "line 7: 3 sequence numbers are missing",
        "FINRA Close: line 30",
    ] {
        assert_eq!(
            bands.iter().filter(|band| band.starts_with(begins)).count(),
            1,
            "{begins}"
        );
    }
    let zt = picture("ZT", &[]);
    let odd = labels(&zt, "odd");
    for begins in [
        "OB Z 9.95 x 30",
        "OO Z 10.04 x 25",
        "OB N 9.94 x 10",
        "OO N 10.05 x 40",
    ] {
        assert_eq!(
            odd.iter().filter(|mark| mark.starts_with(begins)).count(),
            1,
            "{begins}: {odd:?}"
        );
    }
    let rejected = labels(&zt, "rejected");
    assert_eq!(
        rejected.iter().filter(|mark| mark.contains("64: ")).count(),
        1
    );
    // A dot for each change of the national bid or offer that leaves one.
    let folder = sample();
    let changes = [
        "changes", "day.log", "--symbol", "ZT", "--entry", "NB,NO", "--json",
    ];
    let changes = run_in(&folder, &changes).output;
    let left = changes
        .lines()
        .filter(|row| !row.contains("\"after\":\"none\""))
        .count();
    assert_eq!(class(&zt, "dot").len(), left);
    assert_eq!(class(&zt, "step").len(), 2);
    let dots = labels(&zt, "dot");
    assert!(
        dots.iter().all(|dot| dot.contains("changed: N")),
        "the flags"
    );
}

/// Everything lies inside of the picture.
#[test]
fn coordinates() {
    for (symbol, more) in [
        ("ZT", &[][..]),
        ("IBM", &["--from", "10:30:00", "--to", "10:30:01"]),
        ("NVR", &["--from", "15:00"]),
        ("NVR", &["--to", "09:25"]),
    ] {
        for element in picture(symbol, more) {
            let number = |name: &str| -> Option<f64> {
                let value = element.attributes.get(name)?;
                Some(value.parse().expect("a number"))
            };
            for (name, most) in [("x", 1200.0), ("cx", 1200.0), ("y", 460.0), ("cy", 460.0)] {
                assert!(
                    number(name).is_none_or(|at| (0.0..=most).contains(&at)),
                    "{name}"
                );
            }
            if let (Some(x), Some(width)) = (number("x"), number("width")) {
                assert!(x + width <= 1200.0);
            }
            if let Some(path) = element.attributes.get("d") {
                let numbers =
                    path.split(|letter: char| !(letter.is_ascii_digit() || ".-".contains(letter)));
                for number in numbers.filter(|number| !number.is_empty()) {
                    let number: f64 = number.parse().expect("a number");
                    assert!((-10.0..=1200.0).contains(&number), "{path}");
                }
            }
        }
    }
}

#[test]
fn the_report() {
    let folder = sample();
    let ran = run_in(&folder, &["report", "day.log", "-o", "day.html"]);
    assert_eq!(ran.status, 0, "{}", ran.errors);
    crate::support::compare("report.txt", &ran.output);
    let page = fs::read_to_string(folder.join("day.html")).expect("a page");
    let (head, body) = page.split_once("<body>").expect("a body");
    assert!(head.contains("<style>"));
    let (body, script) = body.split_once("<script>").expect("a script");
    assert!(script.trim_end().ends_with("</script>\n</body></html>"));
    // Nothing is fetched: the only address is the name of a form.
    let addresses = page.matches("http").count();
    assert_eq!(
        addresses,
        page.matches("xmlns=\"http://www.w3.org/2000/svg\"").count()
    );
    for fetched in ["src=", "@import", "url(", "<link"] {
        assert!(!page.contains(fetched), "{fetched}");
    }
    let body = body.replace(
        "<input id=\"search\" type=\"search\" placeholder=\"words of a row\">",
        "",
    );
    let elements = elements(&body);
    let count = |name: &str| {
        elements
            .iter()
            .filter(|element| element.name == name)
            .count()
    };
    assert_eq!((count("svg"), count("section")), (3, 5));
    for table in [
        "recording",
        "symbols",
        "health of lines",
        "codes",
        "changes",
    ] {
        let caption = |element: &&Element| element.name == "caption" && element.text == table;
        assert!(elements.iter().find(caption).is_some(), "{table}");
    }
    assert!(page.contains("partly accepted, 64: An odd item would make a fifth level."));
    // Every table's rows have as many cells as it has columns.
    let mut columns = 0;
    let mut cells = 0;
    for element in &elements {
        match element.name.as_str() {
            "table" => (columns, cells) = (0, 0),
            "th" => columns += 1,
            "tr" if cells > 0 => {
                assert_eq!(cells, columns);
                cells = 0;
            }
            "td" => cells += 1,
            _ => {}
        }
    }
}

/// Chromium draws the report, and its script runs.
#[test]
fn the_report_in_chromium() {
    let names = ["chromium", "chromium-browser", "google-chrome"];
    let found = names
        .iter()
        .find(|name| Command::new(name).arg("--version").output().is_ok());
    let Some(chromium) = found else {
        println!("Chromium is missing here: the report is not opened");
        return;
    };
    let folder = sample();
    let ran = run_in(&folder, &["report", "day.log", "-o", "browser.html"]);
    assert_eq!(ran.status, 0);
    let page = format!("file://{}", folder.join("browser.html").display());
    let picture = folder.join("browser.png");
    let open = |more: &str| {
        let words = [
            "--headless",
            "--no-sandbox",
            "--disable-gpu",
            "--window-size=1280,2400",
            more,
            &page,
        ];
        Command::new(chromium)
            .args(words)
            .output()
            .expect("Chromium starts")
    };
    open(&format!("--screenshot={}", picture.display()));
    let drawn = fs::read(&picture).expect("a screenshot");
    assert!(
        drawn.starts_with(b"\x89PNG") && drawn.len() > 20_000,
        "{} bytes",
        drawn.len()
    );
    // The script adds the box for what a mark is about.
    let dumped = String::from_utf8_lossy(&open("--dump-dom").stdout).into_owned();
    assert!(dumped.contains("id=\"tip\""));
}
