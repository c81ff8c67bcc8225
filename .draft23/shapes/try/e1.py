import re
p='SCRATCH/e1/crates/walk/src/lib.rt'
s=open(p).read()
new='''
// The leader among letters of one price.
fn leading(page: &[u8], side: Side, set: u32, top: u32, d_size: u32, d_time: u64) -> u32
{
    let mut left = set;
    let mut place: u32 = 0;
    let mut size: u32 = 0;
    let mut time: u64 = 0;
    let mut decided: u32 = 0;
    while left != 0 {
        let i = keysets::lowest(left);
        left = keysets::without(left, i);
        let mut next_size = d_size;
        let mut next_time = d_time;
        if i != 3 {
            let at = page::slot_at(Letter::A + i as usize);
            let level = at + page::in_quote(side);
            next_size = field::low32(page, level + 8);
            next_time = field::low64(page, level + 12);
            let own = keys::quote_key(side, field::get8(page, at), Level { price: field::low64(page, level), size: next_size, time: next_time });
            if own != top {
                next_size = 0;
            }
        }
        if next_size != 0 {
            if size == 0 {
                place = i + 65;
                size = next_size;
                time = next_time;
            } else {
                if size < next_size {
                    place = i + 65;
                    size = next_size;
                    time = next_time;
                    decided = 2;
                } else {
                    if next_size < size {
                        decided = keysets::higher(decided, 2);
                    } else {
                        if next_time < time {
                            place = i + 65;
                            time = next_time;
                            decided = 3;
                        } else {
                            if time < next_time {
                                decided = keysets::higher(decided, 3);
                            } else {
                                decided = 4;
                            }
                        }
                    }
                }
            }
        }
    }
    place * 8 + decided
}

// Whether a letter other than the leader counts.
fn others(page: &[u8], side: Side, d: bool, leader: u32) -> bool
{
    for letter in Letter::A..Letter::Z + 1 {
        if letter as u32 != leader {
            if letter == Letter::D {
                if d {
                    return true;
                }
            } else {
                if letter != Letter::S {
                    let c = slots::quoted(page, letter, side);
                    if c.price != 0 {
                        return true;
                    }
                }
            }
        }
    }
    false
}

fn oddest(page: &[u8], side: Side, set: u32, d: bool) -> u32
{
    let mut left = set;
    let mut place: u32 = 0;
    let mut best = Candidate::NONE;
    while left != 0 {
        let i = keysets::lowest(left);
        left = keysets::without(left, i);
        let letter = Letter::A + i as usize;
        let mut good = d;
        if i != 3 {
            let condition = field::get8(page, page::slot_at(letter));
            good = true;
            if quote::is_quoted(condition) {
                good = quote::admits(side, condition);
            }
            if i == 18 {
                good = false;
            }
        }
        if good {
            best = ranking::choose(side, best, slots::first(page, letter, side));
        }
    }
    best.name
}

fn bid_national(page: &[u8], last: usize, finra: Candidate, top: u32, same: u32) -> Lead
{
    if last < Letter::Z {
        return lead_all(page, Side::Bid, last, finra);
    }
    if top == 0 {
        return Lead::NONE;
    }
    if has_d(same) {
        return lead_all(page, Side::Bid, last, finra);
    }
    if top == 0xffffffff {
        return lead_all(page, Side::Bid, last, finra);
    }
    let d = keys::key(Side::Bid, finra.price);
    let who = leading(page, Side::Bid, with_d(same, d == top), top, finra.size, finra.time);
    if who == 0 {
        return lead_all(page, Side::Bid, last, finra);
    }
    let best = standing(page, (who / 8) as usize, Side::Bid, finra);
    let decided = who % 8;
    if decided == 0 {
        if others(page, Side::Bid, stands(finra), who / 8) {
            return Lead { best, decided: 1 };
        }
    }
    Lead { best, decided }
}
'''
off=re.search(r'fn bid_national.*\Z',new,re.S).group(0).replace('bid_national','offer_national').replace('Side::Bid','Side::Offer').replace('0xffffffff','1')
new+=off
i=s.index('// The best odd lots beyond the national bests, both sides.')
s=s[:i]+new+s[i:]
s=s.replace('national(page, Side::Bid, last, finra.bid, top_bid, bids)','bid_national(page, last, finra.bid, top_bid, bids)').replace('national(page, Side::Offer, last, finra.offer, top_offer, offers)','offer_national(page, last, finra.offer, top_offer, offers)')
s=s.replace('use ranking::Sides;','use ranking::Sides;\nuse quote::Level;')
open(p,'w').write(s)
