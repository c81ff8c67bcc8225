import re
d='SCRATCH/f1/crates/'
p=d+'page/src/lib.rt'; s=open(p).read()
s=s.replace('    pub const LEN: usize = Page::KEYS + 4 * Page::KEY_ROW;','''    pub const SIZES: usize = Page::KEYS + 4 * Page::KEY_ROW;

    pub const CONDITIONS: usize = Page::SIZES + 4 * Page::KEY_ROW;

    pub const LEN: usize = Page::CONDITIONS + 26;''')
s+='''
pub fn quote_size_at(side: Side, letter: usize) -> usize
{
    match side {
        Side::Bid => Page::SIZES + 4 * (letter - Letter::A),
        Side::Offer => Page::SIZES + Page::KEY_ROW + 4 * (letter - Letter::A),
    }
}

pub fn first_size_at(side: Side, letter: usize) -> usize
{
    match side {
        Side::Bid => Page::SIZES + 2 * Page::KEY_ROW + 4 * (letter - Letter::A),
        Side::Offer => Page::SIZES + 3 * Page::KEY_ROW + 4 * (letter - Letter::A),
    }
}
'''
open(p,'w').write(s)
p=d+'slots/src/lib.rt'; s=open(p).read()
s=s.replace('''    field::put_low32(page, page::quote_key_at(Side::Offer, letter), offer);
''','''    field::put_low32(page, page::quote_key_at(Side::Offer, letter), offer);
    field::put_low32(page, page::quote_size_at(Side::Bid, letter), quote.bid.size);
    field::put_low32(page, page::quote_size_at(Side::Offer, letter), quote.offer.size);
    field::put8(page, Page::CONDITIONS + letter - 65, quote.condition);
''')
s=s.replace('''    field::put_low32(page, page::first_key_at(side, letter), key);
''','''    field::put_low32(page, page::first_key_at(side, letter), key);
    field::put_low32(page, page::first_size_at(side, letter), cells[0].size);
''')
s=s.replace('use page::Slot;','use page::Slot;\nuse page::Page;')
open(p,'w').write(s)
p=d+'walk/src/lib.rt'; s=open(p).read()
a=s.index('fn show(page'); b=s.index('// A new leader, and what put it ahead.')
s=s[:a]+'''fn show(page: &[u8], side: Side, i: u32, finra: Candidate) -> Shown
{
    if i == 3 {
        return Shown { letter: 68, size: finra.size, time: finra.time, decided: 0 };
    }
    let letter = Letter::A + i as usize;
    Shown {
        letter: letter as u32,
        size: field::low32(page, page::quote_size_at(side, letter)),
        time: 0,
        decided: 0,
    }
}

fn time_of(page: &[u8], side: Side, x: Shown) -> u64
{
    if x.letter == 68 {
        return x.time;
    }
    field::low64(page, page::slot_at(x.letter as usize) + page::in_quote(side) + 12)
}

fn unkey(side: Side, key: u32) -> u64
{
    match side {
        Side::Bid => key as u64,
        Side::Offer => std::num::wrapping_sub_u32(0, key) as u64,
    }
}

'''+s[b:]
a=s.index('fn beside(best: Shown, x: Shown) -> Shown'); b=s.index('// The leader among letters of one price.')
s=s[:a]+'''fn beside(page: &[u8], side: Side, best: Shown, x: Shown) -> Shown
{
    if x.size == 0 {
        return best;
    }
    if best.size == 0 {
        return x;
    }
    if best.size < x.size {
        return won(x, 2);
    }
    if x.size < best.size {
        return kept(best, 2);
    }
    by_time(best, x, time_of(page, side, best), time_of(page, side, x))
}

fn by_time(best: Shown, x: Shown, t: u64, u: u64) -> Shown
{
    if u < t {
        return won(x, 3);
    }
    if t < u {
        return kept(best, 3);
    }
    kept(best, 4)
}

'''+s[b:]
s=s.replace('best = beside(best, show(page, side, i, finra));','best = beside(page, side, best, show(page, side, i, finra));')
# led
s=s.replace('fn led(page: &[u8], side: Side, finra: Candidate, leader: Shown, by: u32) -> Lead','fn led(page: &[u8], side: Side, finra: Candidate, top: u32, leader: Shown, by: u32) -> Lead')
s=s.replace('''        best: standing(page, leader.letter as usize, side, finra),''','''        best: Candidate { name: leader.letter, price: unkey(side, top), size: leader.size, time: leader.time, condition: condition_of(page, leader.letter, finra.condition) },''')
s=s.replace('led(page, Side::Bid, finra.bid, bid, bid_by)','led(page, Side::Bid, finra.bid, top_bid, bid, bid_by)').replace('led(page, Side::Offer, finra.offer, offer, offer_by)','led(page, Side::Offer, finra.offer, top_offer, offer, offer_by)')
s+='''
fn condition_of(page: &[u8], letter: u32, d: u32) -> u32
{
    if letter == 68 {
        return d;
    }
    field::get8(page, Page::CONDITIONS + letter as usize - 65) as u32
}

fn key_other(page: &[u8], side: Side, d: bool, leader: u32) -> bool
{
    for letter in Letter::A..Letter::Z + 1 {
        if letter as u32 != leader {
            if letter == Letter::D {
                if d {
                    return true;
                }
            } else {
                if field::low32(page, page::quote_key_at(side, letter)) != 0 {
                    return true;
                }
            }
        }
    }
    false
}

fn odd_quick(page: &[u8], letter: usize, side: Side, d: bool) -> bool
{
    if letter == Letter::D {
        return d;
    }
    if letter == Letter::S {
        return false;
    }
    let condition = field::get8(page, Page::CONDITIONS + letter - 65);
    if quote::is_quoted(condition) {
        return quote::admits(side, condition);
    }
    true
}
'''
s=s.replace('if is_other(page, side, marked(d), leader) {','if key_other(page, side, d, leader) {')
s=s.replace('''    let first = odd_first(page, letter, side, marked(d));
    if first.price == 0 {
        return odd_above(page, side, d, bar);
    }
    letter as u32''','''    if odd_quick(page, letter, side, d) {
        return letter as u32;
    }
    odd_above(page, side, d, bar)''')
a=s.index('fn odd_at(page'); b=s.index('// The best odd lots beyond the national bests, both sides.')
s=s[:a]+'''fn odd_at(page: &[u8], side: Side, letter: usize) -> Candidate
{
    if letter == 0 {
        return Candidate::NONE;
    }
    Candidate {
        name: letter as u32,
        price: unkey(side, field::low32(page, page::first_key_at(side, letter))),
        size: field::low32(page, page::first_size_at(side, letter)),
        time: 0,
        condition: 0x20,
    }
}

'''+s[b:]
open(p,'w').write(s)
