//! What the command line asks for.

use std::collections::BTreeMap;

use crate::fault::Fault;
use crate::table::Form;

/// A command: its name, what it does, and the options that it takes beside the common ones.
pub struct Usage {
    pub name: &'static str,
    pub about: &'static str,
    pub options: &'static [&'static str],
}

/// An option: its name, its value if it takes one, and what it means.
type Meaning = (&'static str, &'static str, &'static str);

const OPTIONS: &[Meaning] = &[
    ("--symbol", "X", "the symbol"),
    ("--time", "T", "the time: as 09:30, 09:30:00.5 or 2026-11-17 09:30; the end of the recording if none is given"),
    ("--from", "T", "from this time on"),
    ("--to", "T", "up to this time"),
    ("--line", "L", "of this line alone"),
    ("--entry", "NB,OO", "of these entries alone: NB, NO, FB, FO, OB, OO"),
    ("--why", "", "the candidates, what decided, and what did not count"),
    ("--log", "ROUTER.csv", "a router's log of answers, compared too"),
    ("--second", "", "the second implementation's engine, compared too"),
    ("--what", "TABLE", "best, messages, blocks, quotes or levels"),
    ("--format", "F", "csv or jsonl"),
    ("-o", "FILE", "the file to write"),
    ("--side", "S", "B or S: bids or offers; of an order, buy or sell"),
    ("--price", "P", "a price such as 10.02"),
    ("--lots", "N", "round lots, 1 to 1,000,000"),
    ("--block", "FILE", "the venue's block, as it was sent"),
    ("--map", "FILE", "the symbols, and the ports of the lines, of a packet capture"),
    ("--index", "FILE", "where checkpoints are kept; RECORDING.index if no other is named, - for none"),
    ("--every", "N", "messages between two checkpoints, 1000000 if none are given"),
    ("--json", "", "tables as JSON, an object to a line"),
    ("--unit", "U", "the unit of the recording's times: ns (if none is given), us, ms or s"),
    ("--zone", "Z", "shows times since 1970 in this zone, as -05:00"),
    ("--quiet", "", "shows no progress"),
];

/// What every command takes.
const COMMON: &[&str] = &["--json", "--unit", "--zone", "--quiet"];

pub const COMMANDS: &[Usage] = &[
    Usage {
        name: "info",
        about: "symbols, lines, times, blocks, size",
        options: &[],
    },
    Usage {
        name: "health",
        about:
            "for each line: blocks, gaps, duplicates, refusals; for each code: rejected messages",
        options: &[],
    },
    Usage {
        name: "replay",
        about: "what each message did",
        options: &["--from", "--to", "--symbol", "--line"],
    },
    Usage {
        name: "at",
        about: "a symbol's six entries at a time, and why",
        options: &["--symbol", "--time", "--why", "--index", "--every"],
    },
    Usage {
        name: "changes",
        about: "every change of an entry and its message",
        options: &["--symbol", "--entry", "--from", "--to"],
    },
    Usage {
        name: "audit",
        about: "recompute everything and compare",
        options: &["--log", "--second"],
    },
    Usage {
        name: "export",
        about: "best, messages, blocks, quotes or levels",
        options: &["--what", "--symbol", "--format", "-o"],
    },
    Usage {
        name: "plot",
        about: "the day of a symbol as a picture (SVG)",
        options: &["--symbol", "--from", "--to", "-o"],
    },
    Usage {
        name: "report",
        about: "one HTML file with tables, search and charts",
        options: &["--from", "--to", "-o"],
    },
    Usage {
        name: "try",
        about: "what an order would have taken at a time",
        options: &[
            "--symbol", "--time", "--side", "--lots", "--index", "--every",
        ],
    },
    Usage {
        name: "protected",
        about: "whether a price was protected at a time",
        options: &[
            "--symbol", "--time", "--side", "--price", "--index", "--every",
        ],
    },
    Usage {
        name: "snapshot",
        about: "a symbol's snapshot at a time",
        options: &["--symbol", "--time", "-o", "--index", "--every"],
    },
    Usage {
        name: "convert",
        about: "a venue's own block as a run of blocks, by the symbols at a time",
        options: &["--block", "--time", "-o", "--index", "--every"],
    },
    Usage {
        name: "record",
        about: "a tape, or a packet capture with a map of ports to lines, to a recording",
        options: &["--map", "-o"],
    },
];

/// The command line, taken apart.
#[derive(Debug)]
pub struct Arguments {
    pub command: &'static str,
    pub recording: String,
    given: BTreeMap<&'static str, String>,
}

impl Arguments {
    /// None where help was asked for.
    pub fn parse(words: &[String]) -> Result<Option<Arguments>, Fault> {
        let is_help = |word: &String| ["help", "--help", "-h"].contains(&word.as_str());
        let Some((name, rest)) = words.split_first() else {
            return Fault::usage("a command is needed; quotebook help lists them");
        };
        if is_help(name) {
            return Ok(None);
        }
        let Some(usage) = COMMANDS.iter().find(|usage| usage.name == name) else {
            return Fault::usage(format!(
                "there is no command {name}; quotebook help lists them"
            ));
        };
        let mut recording = None;
        let mut given = BTreeMap::new();
        let mut words = rest.iter();
        while let Some(word) = words.next() {
            if is_help(word) {
                return Ok(None);
            }
            if !word.starts_with('-') {
                if recording.replace(word.clone()).is_some() {
                    return Fault::usage(format!("{word}: one recording is taken at a time"));
                }
                continue;
            }
            let (name, value) = match word.split_once('=') {
                Some((name, value)) => (name, Some(value.to_string())),
                None => (word.as_str(), None),
            };
            let taken = usage
                .options
                .iter()
                .chain(COMMON)
                .find(|&&taken| taken == name);
            let Some(&taken) = taken else {
                return Fault::usage(format!("{} takes no {name}", usage.name));
            };
            let value = match (has_value(taken), value) {
                (false, Some(_)) => return Fault::usage(format!("{taken} takes no value")),
                (false, None) => String::new(),
                (true, Some(value)) => value,
                (true, None) => match words.next() {
                    Some(value) => value.clone(),
                    None => return Fault::usage(format!("{taken} needs a value")),
                },
            };
            if given.insert(taken, value).is_some() {
                return Fault::usage(format!("{taken} is given twice"));
            }
        }
        match recording {
            None => Fault::usage(format!("{} needs a recording", usage.name)),
            Some(recording) => Ok(Some(Arguments {
                command: usage.name,
                recording,
                given,
            })),
        }
    }

    pub fn get(&self, name: &str) -> Option<&str> {
        self.given.get(name).map(String::as_str)
    }

    pub fn has(&self, name: &str) -> bool {
        self.given.contains_key(name)
    }

    pub fn need(&self, name: &str) -> Result<&str, Fault> {
        match self.get(name) {
            Some(value) => Ok(value),
            None => Fault::usage(format!("{} needs {name}", self.command)),
        }
    }

    /// How its tables are written.
    pub fn form(&self) -> Form {
        match self.has("--json") {
            true => Form::Json,
            false => Form::Text,
        }
    }
}

fn has_value(name: &str) -> bool {
    OPTIONS
        .iter()
        .any(|&(other, value, _)| other == name && !value.is_empty())
}

/// What `quotebook help` prints.
pub fn help() -> String {
    let mut text = String::from("quotebook COMMAND RECORDING [options]\n\n");
    for usage in COMMANDS {
        text += &format!("  {:10} {}\n", usage.name, usage.about);
        if !usage.options.is_empty() {
            text += &format!("  {:10} {}\n", "", usage.options.join(" "));
        }
    }
    text += &format!("\nEvery command takes {}.\n\n", COMMON.join(" "));
    for (name, value, about) in OPTIONS {
        text += &format!("  {:20} {about}\n", format!("{name} {value}"));
    }
    text += "\nExit status: 0 done or agreed, 1 a difference, 2 usage, 3 a damaged recording, 4 output lost.\n";
    text
}
