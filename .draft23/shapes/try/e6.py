import re
d='SCRATCH/e6/crates/'
p=d+'walk/src/lib.rt'; s=open(p).read()
# makers with floors
i=s.index('fn maker_of('); j=s.index('// The FINRA best of a walk')
s=s[:i]+'''
fn maker_of(page: &[u8], side: Side, spot: Spot) -> Candidate
{
    if spot.size == 0 {
        return Candidate::NONE;
    }
    let at = page::cell_at(spot.place as usize);
    Candidate { name: field::get32(page, at), price: ranking::rank(side, spot.rank), size: spot.size, time: field::low64(page, at + Cell::QUOTE + page::in_quote(side) + 12), condition: 0x52 }
}

struct Spots {
    bid: Spot,
    offer: Spot,
}

fn makers_above(page: &[u8], low: u64, high: u64) -> Spots
{
    let mut bid = Spot { rank: low, size: 0, place: 0 };
    let mut offer = Spot { rank: high, size: 0, place: 0 };
    for k in 0..Page::MAKERS {
        if field::get8(page, page::cell_at(k) + Cell::QUOTE) == b'R' {
            bid = with_spot(page, Side::Bid, k, bid);
            offer = with_spot(page, Side::Offer, k, offer);
        }
    }
    Spots { bid, offer }
}

fn walk_makers(page: &[u8]) -> Sides
{
    let spots = makers_above(page, ranking::rank(Side::Bid, field::get64(page, Page::ENTRIES + 36)), ranking::rank(Side::Offer, field::get64(page, Page::ENTRIES + 52)));
    if spots.bid.size == 0 {
        return all_makers(page);
    }
    if spots.offer.size == 0 {
        return all_makers(page);
    }
    Sides { bid: maker_of(page, Side::Bid, spots.bid), offer: maker_of(page, Side::Offer, spots.offer) }
}

fn all_makers(page: &[u8]) -> Sides
{
    let mut best = Sides::NONE;
    for k in 0..Page::MAKERS {
        best = with_maker(page, k, best);
    }
    best
}

fn with_maker(page: &[u8], k: usize, best: Sides) -> Sides
{
    let at = page::cell_at(k);
    let quote = at + Cell::QUOTE;
    if field::get8(page, quote) == b'R' {
        let name = field::get32(page, at);
        let bid = ranking::choose(Side::Bid, best.bid, quoted(page, quote, Side::Bid, name));
        let offer = ranking::choose(
            Side::Offer,
            best.offer,
            quoted(page, quote, Side::Offer, name),
        );
        return Sides { bid, offer };
    }
    best
}

'''+s[j:]
# national
i=s.index('// The leader among letters of one price.'); j=s.index('// Whether a letter other than the leader counts.\nfn others')
s=s[:i]+'''
struct Lead2 {
    key: u32,
    size: u32,
    time: u64,
    place: u32,
    decided: u32,
}

// The leader among letters.
fn leading(page: &[u8], side: Side, set: u32, d_key: u32, d_size: u32, d_time: u64) -> Lead2
{
    let mut left = set;
    let mut key: u32 = 0;
    let mut place: u32 = 0;
    let mut size: u32 = 0;
    let mut time: u64 = 0;
    let mut decided: u32 = 0;
    while left != 0 {
        let i = keysets::lowest(left);
        left = keysets::without(left, i);
        let mut next_key = d_key;
        let mut next_size = d_size;
        let mut next_time = d_time;
        if i != 3 {
            let letter = Letter::A + i as usize;
            let at = page::slot_at(letter);
            let level = at + page::in_quote(side);
            next_size = field::low32(page, level + 8);
            next_time = field::low64(page, level + 12);
            next_key = keys::quote_key(side, field::get8(page, at), Level { price: field::low64(page, level), size: next_size, time: next_time });
            if field::low32(page, page::quote_key_at(side, letter)) != next_key {
                next_key = 0;
            }
        }
        if next_key != 0 {
            let mut ahead = false;
            let mut by: u32 = 1;
            if next_key == key {
                by = 2;
                if next_size == size {
                    by = 3;
                    if next_time == time {
                        by = 4;
                    } else {
                        ahead = next_time < time;
                    }
                } else {
                    ahead = size < next_size;
                }
            } else {
                ahead = key < next_key;
            }
            if ahead {
                if place == 0 {
                    decided = 0;
                } else {
                    decided = by;
                }
                place = i + 65;
                key = next_key;
                size = next_size;
                time = next_time;
            } else {
                decided = keysets::higher(decided, by);
            }
        }
    }
    Lead2 { key, size, time, place, decided }
}

'''+s[j:]
i=s.index('fn bid_national(')
s=s[:i]
nat='''
fn bid_national(page: &[u8], finra: Candidate) -> Lead
{
    let d = keys::key(Side::Bid, finra.price);
    let guess = keys::key(Side::Bid, field::get64(page, Page::ENTRIES + 4));
    if guess == 0 {
        return lead_all(page, Side::Bid, Letter::Z, finra);
    }
    let set = keysets::above(page, page::quote_keys(Side::Bid), guess - 1);
    if has_d(set) {
        return lead_all(page, Side::Bid, Letter::Z, finra);
    }
    let lead = leading(page, Side::Bid, with_d(set, guess <= d), d, finra.size, finra.time);
    if lead.place == 0 {
        return lead_all(page, Side::Bid, Letter::Z, finra);
    }
    if lead.key == 0xffffffff {
        return lead_all(page, Side::Bid, Letter::Z, finra);
    }
    let best = Candidate { name: lead.place, price: lead.key as u64, size: lead.size, time: lead.time, condition: condition_of(page, lead.place, finra.condition) };
    if lead.decided == 0 {
        if others(page, Side::Bid, stands(finra), lead.place) {
            return Lead { best, decided: 1 };
        }
    }
    Lead { best, decided: lead.decided }
}
'''
off=nat.replace('bid_national','offer_national').replace('Side::Bid','Side::Offer').replace('0xffffffff','1').replace('ENTRIES + 4','ENTRIES + 20').replace('price: lead.key as u64','price: std::num::wrapping_sub_u32(0, lead.key) as u64')
s+='''
fn condition_of(page: &[u8], letter: u32, d: u32) -> u32
{
    if letter == 68 {
        return d;
    }
    field::get8(page, page::slot_at(letter as usize)) as u32
}
'''+nat+off
t=open('SCRATCH/e4/crates/walk/src/lib.rt').read()
s+=t[t.index('// The best odd lots beyond the national bests, both sides.'):]
a=s.index('    let top_bid = top_key('); b=s.index('    let odd = walk_odd(page, last')
s=s[:a]+'''    let bid = bid_national(page, finra.bid);
    let offer = offer_national(page, finra.offer);
'''+s[b:]
open(p,'w').write(s)
