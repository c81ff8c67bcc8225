//! A symbol's snapshot (T-12) from the history, by the plainest way: its messages one after another,
//! and as many of them in each block as fit.

use super::account::Account;
use super::best::publication;
use super::fields::Side;

/// The blocks of the symbol's snapshot.
pub fn blocks(account: &Account, symbol: &[u8]) -> Vec<Vec<u8>> {
    let mut groups: Vec<Vec<Vec<u8>>> = Vec::new();
    for message in messages(account, symbol) {
        match groups.last_mut() {
            Some(group) if fits(group, &message) => group.push(message),
            _ => groups.push(vec![message]),
        }
    }
    let mut sequence = 1;
    let last = groups.len() - 1;
    let mut blocks = Vec::new();
    for (i, group) in groups.iter().enumerate() {
        let delivery_flag = match (i == 0, i == last) {
            (true, true) => 4,
            (true, false) => 1,
            (false, true) => 3,
            (false, false) => 2,
        };
        blocks.push(block(sequence, delivery_flag, group));
        sequence += group.len() as u32;
    }
    blocks
}

/// "a maximum of 1,000 bytes inclusive of Block Header, Block Data, and Block Pad Byte"
fn fits(group: &[Vec<u8>], message: &[u8]) -> bool {
    let data: usize = group.iter().map(Vec::len).sum();
    let len = 24 + data + message.len();
    len + len % 2 <= 1000
}

fn block(sequence: u32, delivery_flag: u8, messages: &[Vec<u8>]) -> Vec<u8> {
    let data = messages.concat();
    let pad = (24 + data.len()) % 2;
    let mut front = vec![11];
    front.extend(((24 + data.len() + pad) as u16).to_be_bytes());
    front.extend(sequence.to_be_bytes());
    front.push(messages.len() as u8);
    front.push(delivery_flag);
    // LastSeqNum, TotPubSeqRollover, SIP Block Timestamp
    front.extend([0; 4 + 1 + 8]);
    let behind = [data, vec![0; pad]].concat();
    let sum: u32 = front
        .iter()
        .chain(&behind)
        .map(|&byte| u32::from(byte))
        .sum();
    let checksum = (sum % 65536) as u16;
    [front, checksum.to_be_bytes().to_vec(), behind].concat()
}

/// "Consolidated goes first, then each letter with a round quote since Start of Day, from A on, then
/// FINRA, even with no maker."
fn messages(account: &Account, symbol: &[u8]) -> Vec<Vec<u8>> {
    let entries = publication(account);
    let mut messages = vec![consolidated(symbol, &entries)];
    for letter in (b'A'..=b'Z').filter(|&letter| letter != b'D') {
        messages.extend(participant(account, symbol, letter));
    }
    messages.push(finra(symbol, &entries));
    messages
}

/// A message with its header and symbol.
fn message(kind: u8, participant: u8, symbol: &[u8], body: &[&[u8]]) -> Vec<u8> {
    let body = body.concat();
    let len = (5 + symbol.len() + body.len()) as u16;
    let header = [&len.to_be_bytes()[..], &[b'R', kind, participant]].concat();
    [header, symbol.to_vec(), body].concat()
}

const SPACES: &[u8] = &[b' '; 8];
const ZEROS: &[u8] = &[0; 41];

/// 3.3. Of the national entries two bytes of name, price and size.
fn consolidated(symbol: &[u8], entries: &[u8]) -> Vec<u8> {
    let (bid, offer) = (&entries[..16], &entries[16..32]);
    let body = [
        &SPACES[..1],
        &ZEROS[..5 * 8 + 1],
        &bid[..2],
        &bid[4..],
        &SPACES[..4],
        &offer[..2],
        &offer[4..],
        &SPACES[..4],
        &SPACES[..5 + 3],
    ];
    message(b'C', b'S', symbol, &body)
}

/// 3.4, if the letter has a round quote.
fn participant(account: &Account, symbol: &[u8], letter: u8) -> Option<Vec<u8>> {
    let quote = account.quote(letter)?.quote;
    let (bid, offer) = (quote.side(Side::Bid), quote.side(Side::Offer));
    let body = [
        &[quote.condition][..],
        &bid.price.to_be_bytes(),
        &bid.size.to_be_bytes(),
        &offer.price.to_be_bytes(),
        &offer.size.to_be_bytes(),
        &SPACES[..4],
        &ZEROS[..2 * 8],
        &SPACES[..1],
    ];
    Some(message(b'P', letter, symbol, &body))
}

/// 3.5. Of the FINRA entries price, size and maker.
fn finra(symbol: &[u8], entries: &[u8]) -> Vec<u8> {
    let (bid, offer) = (&entries[32..48], &entries[48..64]);
    let body = [
        &SPACES[..1],
        &bid[4..],
        &bid[..4],
        &SPACES[..1],
        &offer[4..],
        &offer[..4],
        &SPACES[..1],
        &ZEROS[..2 * 8],
        &SPACES[..1],
    ];
    message(b'F', b'D', symbol, &body)
}
