import re
p='SCRATCH/e25/crates/walk/src/lib.rt'; s=open(p).read()
a=s.index('fn bid_national('); b=s.index('\nfn below(')
s=s[:a]+'''
// Whether all letters have to be looked at.
fn is_plain(side: Side, last: usize, top: u32, same: u32, who: u32) -> bool
{
    if last < Letter::Z {
        return true;
    }
    if top == full(side) {
        return true;
    }
    if has_d(same) {
        return true;
    }
    who == 0
}

fn full(side: Side) -> u32
{
    match side {
        Side::Bid => 0xffffffff,
        Side::Offer => 1,
    }
}

fn unkey(side: Side, key: u32) -> u64
{
    match side {
        Side::Bid => key as u64,
        Side::Offer => std::num::wrapping_sub_u32(0, key) as u64,
    }
}

fn read_at(page: &[u8], letter: usize, side: Side, finra: Candidate) -> Candidate
{
    if letter == Letter::D {
        return as_d(finra);
    }
    let at = page::slot_at(letter);
    let condition = field::get8(page, at);
    let level = Level::get(page, at + page::in_quote(side));
    Candidate { name: letter as u32, price: level.price, size: level.size, time: level.time, condition: condition as u32 }
}

fn decided_by(page: &[u8], side: Side, d: bool, who: u32) -> u32
{
    let decided = who % 8;
    if decided != 0 {
        return decided;
    }
    if others(page, side, d, who / 8) {
        return 1;
    }
    0
}

fn national(page: &[u8], side: Side, last: usize, finra: Candidate, top: u32, same: u32, who: u32, decided: u32) -> Lead
{
    if is_plain(side, last, top, same, who) {
        return lead_all(page, side, last, finra);
    }
    let best = read_at(page, (who / 8) as usize, side, finra);
    Lead { best, decided }
}
'''+s[b:]
s=s.replace('''    let bid = bid_national(page, last, finra.bid, top_bid, bids);
    let offer = offer_national(page, last, finra.offer, top_offer, offers);
''','''    let bid_who = leading(page, Side::Bid, with_d(bids, keys::key(Side::Bid, finra.bid.price) == top_bid), top_bid, finra.bid.size, finra.bid.time);
    let offer_who = leading(page, Side::Offer, with_d(offers, keys::key(Side::Offer, finra.offer.price) == top_offer), top_offer, finra.offer.size, finra.offer.time);
    let bid_by = decided_by(page, Side::Bid, stands(finra.bid), bid_who);
    let offer_by = decided_by(page, Side::Offer, stands(finra.offer), offer_who);
    let bid = national(page, Side::Bid, last, finra.bid, top_bid, bids, bid_who, bid_by);
    let offer = national(page, Side::Offer, last, finra.offer, top_offer, offers, offer_who, offer_by);
''')
i=s.index('fn national(page: &[u8], side: Side, last: usize, finra: Candidate, top: u32, same: u32) -> Lead')
i=s.rindex('// The leader of the letters A to',0,i); j=s.index('// The best odd lot among the letters of a set.')
s=s[:i]+s[j:]
open(p,'w').write(s)
