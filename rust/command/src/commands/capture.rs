//! Packet captures (the classic pcap form; UDP in IPv4 in Ethernet), and the map of ports to lines.

use std::fs;
use std::io::{Read, Write};

use quotebook::log::Call;

use super::record::{Writer, Written};
use crate::fault::Fault;
use crate::message::symbol_of_text;

/// What a capture says nothing of: symbols, lines, and the ports that the lines' packets are sent to.
///
/// A text of lines `symbol IBM 100 N` (round lot and primary letter) and `line 5 N 40005` (letter and
/// port; or 224.0.0.1:40005), in any order. What follows a # is not read.
pub struct Map {
    symbols: Vec<([u8; 11], u32, u8)>,
    lines: Vec<Port>,
}

struct Port {
    line: u32,
    letter: u8,
    address: Option<[u8; 4]>,
    port: u16,
}

impl Map {
    pub fn read(path: &str) -> Result<Map, Fault> {
        let text = fs::read_to_string(path);
        let text = text.map_err(|error| Fault::Usage(format!("{path}: {error}")))?;
        Map::parse(&text)
            .map_err(|line| Fault::Usage(format!("{path}: line {line} is no symbol or line")))
    }

    /// The number of a line that cannot be read is given back.
    fn parse(text: &str) -> Result<Map, usize> {
        let mut map = Map {
            symbols: Vec::new(),
            lines: Vec::new(),
        };
        for (at, line) in text.lines().enumerate() {
            let words: Vec<&str> = line
                .split('#')
                .next()
                .unwrap_or("")
                .split_whitespace()
                .collect();
            if !words.is_empty() && map.take(&words).is_none() {
                return Err(at + 1);
            }
        }
        Ok(map)
    }

    fn take(&mut self, words: &[&str]) -> Option<()> {
        let letter = |text: &str| match text.as_bytes() {
            &[letter] => Some(letter),
            _ => None,
        };
        match *words {
            ["symbol", symbol, round_lot, primary] => {
                let symbol = symbol_of_text(symbol)?;
                self.symbols
                    .push((symbol, round_lot.parse().ok()?, letter(primary)?));
            }
            ["line", line, name, port] => {
                let (address, port) = match port.split_once(':') {
                    Some((address, port)) => (Some(address), port),
                    None => (None, port),
                };
                let address = match address {
                    Some(address) => Some(address.parse::<std::net::Ipv4Addr>().ok()?.octets()),
                    None => None,
                };
                self.lines.push(Port {
                    line: line.parse().ok()?,
                    letter: letter(name)?,
                    address,
                    port: port.parse().ok()?,
                });
            }
            _ => return None,
        }
        Some(())
    }
}

/// The packets of a capture.
pub struct Packets<R> {
    input: R,
    is_little: bool,
    /// Nanoseconds of the fraction's unit.
    unit: u64,
}

/// A packet's time in nanoseconds since 1970, and its bytes.
struct Packet {
    time: u64,
    bytes: Vec<u8>,
}

/// No packet that is captured is longer.
const PACKET_MAX: usize = 1 << 18;

impl<R: Read> Packets<R> {
    pub fn open(mut input: R) -> Result<Packets<R>, Fault> {
        let mut head = [0; 24];
        let read = input.read_exact(&mut head);
        read.map_err(|_| Fault::Damaged("no packet capture: it is too short".to_string()))?;
        let (is_little, unit) = match head[..4] {
            [0xd4, 0xc3, 0xb2, 0xa1] => (true, 1000),
            [0xa1, 0xb2, 0xc3, 0xd4] => (false, 1000),
            [0x4d, 0x3c, 0xb2, 0xa1] => (true, 1),
            [0xa1, 0xb2, 0x3c, 0x4d] => (false, 1),
            _ => {
                let why = "no packet capture of the classic form (pcap)".to_string();
                return Err(Fault::Damaged(why));
            }
        };
        let packets = Packets {
            input,
            is_little,
            unit,
        };
        match packets.number(&head[20..]) {
            1 => Ok(packets),
            _ => Err(Fault::Damaged(
                "a capture of another link than Ethernet".to_string(),
            )),
        }
    }

    fn number(&self, bytes: &[u8]) -> u64 {
        let bytes = [bytes[0], bytes[1], bytes[2], bytes[3]];
        match self.is_little {
            true => u32::from_le_bytes(bytes).into(),
            false => u32::from_be_bytes(bytes).into(),
        }
    }

    /// The next packet; none at the end.
    fn next(&mut self) -> Result<Option<Packet>, Fault> {
        let cut = || Fault::Damaged("the capture is cut".to_string());
        let mut head = Vec::new();
        let read = self.input.by_ref().take(16).read_to_end(&mut head);
        match read {
            Ok(0) => return Ok(None),
            Ok(16) => {}
            _ => return Err(cut()),
        }
        let len = self.number(&head[8..]) as usize;
        if len > PACKET_MAX {
            return Err(Fault::Damaged(
                "a packet of the capture is too long".to_string(),
            ));
        }
        let mut bytes = vec![0; len];
        self.input.read_exact(&mut bytes).map_err(|_| cut())?;
        let time = self.number(&head) * 1_000_000_000 + self.number(&head[4..]) * self.unit;
        Ok(Some(Packet { time, bytes }))
    }
}

/// Where a packet was sent to, and what it carries; none if it is no whole UDP packet in IPv4. Tags of
/// virtual networks are passed over.
fn udp(packet: &[u8]) -> Option<([u8; 4], u16, &[u8])> {
    let mut at = 12;
    while matches!(packet.get(at..at + 2)?, [0x81, 0] | [0x88, 0xa8]) {
        at += 4;
    }
    let ip = match packet.get(at..at + 2)? {
        [8, 0] => packet.get(at + 2..)?,
        _ => return None,
    };
    let len = usize::from(ip.first()? & 15) * 4;
    let is_fragment = (u16::from_be_bytes([*ip.get(6)?, *ip.get(7)?]) & 0x3fff) != 0;
    if ip[0] >> 4 != 4 || *ip.get(9)? != 17 || is_fragment {
        return None;
    }
    let address = ip.get(16..20)?.try_into().ok()?;
    let udp = ip.get(len..)?;
    let port = u16::from_be_bytes([*udp.get(2)?, *udp.get(3)?]);
    let udp_len = usize::from(u16::from_be_bytes([*udp.get(4)?, *udp.get(5)?]));
    Some((address, port, udp.get(8..udp_len)?))
}

/// Writes the map's symbols and lines, Start of Day, and a block for each packet of a line. All have the
/// time at which they were captured.
pub fn record(
    map: &Map,
    mut packets: Packets<impl Read>,
    output: impl Write,
) -> Result<Written, Fault> {
    let n = u8::try_from(map.symbols.len())
        .ok()
        .filter(|n| (1..=64).contains(n));
    let Some(n) = n else {
        return Fault::usage("a map has 1 to 64 symbols");
    };
    let mut writer = Writer::new(output, n)?;
    let mut next = packets.next()?;
    let time = next.as_ref().map_or(0, |packet| packet.time);
    for (symbol, round_lot, primary) in &map.symbols {
        let add = Call::AddSymbol {
            symbol,
            round_lot: *round_lot,
            primary: *primary,
        };
        writer.call(time, &add)?;
    }
    for &Port { line, letter, .. } in &map.lines {
        writer.call(time, &Call::OpenLine { line, letter })?;
    }
    writer.call(time, &Call::StartDay)?;
    while let Some(packet) = next {
        let sent = udp(&packet.bytes);
        let line = sent.and_then(|(address, port, _)| {
            let is_for = |known: &&Port| {
                known.port == port && known.address.is_none_or(|known| known == address)
            };
            map.lines.iter().find(is_for)
        });
        match (sent, line) {
            (Some((_, _, block)), Some(&Port { line, .. })) => {
                let room = 180;
                writer.call(packet.time, &Call::TakeBlock { line, block, room })?;
            }
            _ => writer.written.passed += 1,
        }
        next = packets.next()?;
    }
    writer.end()
}

#[cfg(test)]
mod tests {
    use super::*;

    #[test]
    fn a_map() {
        let text =
            "# symbols\nsymbol IBM 100 N # here\n\nline 5 N 40005\nline 7 P 224.0.0.1:40007\n";
        let map = Map::parse(text).expect("a map");
        assert_eq!(map.symbols, [(*b"IBM        ", 100, b'N')]);
        let ports: Vec<_> = map
            .lines
            .iter()
            .map(|line| (line.line, line.address, line.port))
            .collect();
        assert_eq!(ports, [(5, None, 40005), (7, Some([224, 0, 0, 1]), 40007)]);
        assert_eq!(Map::parse("line 5 N 40005\nline 6 NN 7").err(), Some(2));
    }
}
