//! Wrong figures planted in a router's log: an audit finds each, and names it.

use std::fs;

use crate::support::{folder, run_in};
use second::generate::Random;

/// The cells of a log, by rows.
fn cells(log: &str) -> Vec<Vec<String>> {
    let rows = log.lines();
    rows.map(|row| row.split(',').map(str::to_string).collect())
        .collect()
}

fn text(rows: &[Vec<String>]) -> String {
    rows.iter().map(|row| row.join(",") + "\n").collect()
}

#[test]
fn a_planted_figure_is_named() {
    let folder = folder("planted");
    let day = command::sample::recording();
    fs::write(folder.join("day.log"), &day).expect("a recording");
    let right = cells(&command::sample::right_log(&day));
    let mut random = Random::new(32);
    for _ in 0..60 {
        let mut rows = right.clone();
        let at = 1 + random.below(rows.len() - 1);
        let column = 2 + random.below(rows[0].len() - 2);
        let cell = &mut rows[at][column];
        let old = cell.clone();
        *cell = match old.as_str() {
            "" => continue,
            "none" => "N".to_string(),
            old if old.parse::<f64>().is_ok() => format!("{old}1"),
            _ => "?".to_string(),
        };
        // A price without decimals more is the same price.
        if cell.ends_with("01") && old.contains('.') {
            continue;
        }
        fs::write(folder.join("router.csv"), text(&rows)).expect("a log");
        let ran = run_in(
            &folder,
            &["audit", "day.log", "--log", "router.csv", "--json"],
        );
        assert_eq!(
            ran.status, 1,
            "row {at} {}: {}",
            rows[0][column], ran.output
        );
        let expect = |text: String| assert!(ran.output.contains(&text), "{text}\n{}", ran.output);
        expect(format!(
            "\"found in\",\"value\":\"the router's log, line {}\"",
            at + 1
        ));
        expect(format!("\"record\",\"value\":{}}}", rows[at][0]));
        expect(format!("\"message\",\"value\":{}}}", rows[at][1]));
        expect(format!(
            "\"figure\":\"{}\",\"the book has\":\"{old}\",\"the other has\":\"{}\"",
            rows[0][column], rows[at][column]
        ));
    }
}

/// A message can be named by its line and sequence, a block by its record; rows need no more than they
/// know, and have to be in order.
#[test]
fn forms_of_a_log() {
    let folder = folder("forms");
    fs::write(folder.join("day.log"), command::sample::recording()).expect("a recording");
    let audit = |log: &str| {
        fs::write(folder.join("router.csv"), log).expect("a log");
        let ran = run_in(
            &folder,
            &["audit", "day.log", "--log", "router.csv", "--json"],
        );
        (ran.status, ran.output)
    };
    let (status, output) = audit("line,sequence,oo_price,OO_NAME\n5,66,10.0500,N\n");
    assert_eq!(status, 0);
    assert!(output.contains("\"rows of the router's log compared\",\"value\":1}"));
    assert_eq!(audit("line,sequence,oo_price\n5,66,10.051\n").0, 1);
    let blocks = "record,number,gap\n253,70,3\n254,35,0\n255,32,\n";
    assert_eq!(audit(blocks).0, 0);
    // The row of a block stands before those of its messages, or behind.
    let block = "record,message,number,accepted,code,symbol,nb_price\n12,,0,3,,,\n12,0,,,0,ZT,9.97\n12,,0,3,,ZT,9.97\n";
    let (status, output) = audit(block);
    assert_eq!(status, 0, "{output}");
    let (status, output) = audit("record,number\n254,0\n");
    assert_eq!(status, 1);
    assert!(
        output.contains("\"figure\":\"number\",\"the book has\":\"35\",\"the other has\":\"0\"")
    );
    // In the wrong order, behind the end, a message that the block has not.
    for log in [
        "record,message,code\n13,0,0\n12,0,0\n",
        "record,message,code\n9999,0,0\n",
    ] {
        let (status, output) = audit(log);
        assert_eq!(status, 1);
        assert!(
            output.contains("not in the recording, or its row not in order"),
            "{output}"
        );
    }
    assert_eq!(audit("record,message,code\n12,44,0\n").0, 1);
    // No log.
    assert_eq!(audit("record,colour\n1,2\n").0, 2);
    assert_eq!(audit("code,flags\n1,2\n").0, 2);
    assert_eq!(audit("record,code\n1\n").0, 2);
    assert_eq!(audit("").0, 0);
}

/// What `export` writes can be given to an audit.
#[test]
fn an_export_is_a_log() {
    let folder = folder("export");
    fs::write(folder.join("day.log"), command::sample::recording()).expect("a recording");
    for what in ["best", "blocks"] {
        let exported = run_in(&folder, &["export", "day.log", "--what", what]).output;
        let rows = exported.lines().map(|row| match what {
            "blocks" => row
                .split(',')
                .enumerate()
                .filter(|(at, _)| *at != 4)
                .map(|(_, cell)| cell)
                .collect(),
            _ => row.split(',').collect::<Vec<_>>(),
        });
        let log: String = rows.map(|cells| cells.join(",") + "\n").collect();
        fs::write(folder.join("router.csv"), log).expect("a log");
        let ran = run_in(&folder, &["audit", "day.log", "--log", "router.csv"]);
        assert_eq!(ran.status, 0, "{what}: {}{}", ran.output, ran.errors);
    }
}
