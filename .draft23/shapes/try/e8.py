import re
d='SCRATCH/e8/crates/'
p=d+'walk/src/lib.rt'; s=open(p).read()
i=s.index('fn bid_national('); 
nat='''
fn bid_national(page: &[u8], finra: Candidate, guess: u32, set: u32) -> Lead
{
    let d = keys::key(Side::Bid, finra.price);
    if has_d(set) {
        return lead_all(page, Side::Bid, Letter::Z, finra);
    }
    let lead = leading(page, Side::Bid, with_d(set, guess < d), d, finra.size, finra.time);
    if lead.place == 0 {
        return lead_all(page, Side::Bid, Letter::Z, finra);
    }
    if lead.key == 0xffffffff {
        return lead_all(page, Side::Bid, Letter::Z, finra);
    }
    let best = Candidate { name: lead.place, price: lead.key as u64, size: lead.size, time: lead.time, condition: condition_of(page, lead.place, finra.condition) };
    if lead.decided == 0 {
        if others(page, Side::Bid, stands(finra), lead.place) {
            return Lead { best, decided: 1 };
        }
    }
    Lead { best, decided: lead.decided }
}
'''
off=nat.replace('bid_national','offer_national').replace('Side::Bid','Side::Offer').replace('0xffffffff','1').replace('price: lead.key as u64','price: std::num::wrapping_sub_u32(0, lead.key) as u64')
tail='''
fn below(key: u32) -> u32
{
    if key == 0 {
        return 0;
    }
    key - 1
}

fn odd_set(page: &[u8], side: Side, guess: u32, set: u32, best: u64) -> u32
{
    if keys::bar(side, best) < guess {
        return keysets::above(page, page::first_keys(side), keys::bar(side, best));
    }
    set
}

pub fn walk_page(page: &[u8], last: usize) -> BestEntries
{
    let bid_guess = field::get64(page, Page::ENTRIES + 4);
    let offer_guess = field::get64(page, Page::ENTRIES + 20);
    let bb = below(keys::key(Side::Bid, bid_guess));
    let bo = below(keys::key(Side::Offer, offer_guess));
    let bar_b = keys::bar(Side::Bid, bid_guess);
    let bar_o = keys::bar(Side::Offer, offer_guess);
    let qb = keysets::above(page, page::quote_keys(Side::Bid), bb);
    let qo = keysets::above(page, page::quote_keys(Side::Offer), bo);
    let ob = keysets::above(page, page::first_keys(Side::Bid), bar_b);
    let oo = keysets::above(page, page::first_keys(Side::Offer), bar_o);
    let finra = walk_finra(page, last);
    let bid = bid_national(page, finra.bid, bb, qb);
    let offer = offer_national(page, finra.offer, bo, qo);
    let odd = Sides { bid: odd_of(page, Side::Bid, last, finra.bid, bid.best, odd_set(page, Side::Bid, bar_b, ob, bid.best.price)),
      offer: odd_of(page, Side::Offer, last, finra.offer, offer.best, odd_set(page, Side::Offer, bar_o, oo, offer.best.price)) };
    BestEntries {
        national: Leads { bid, offer },
        finra,
        odd,
    }
}

/// The six entries that such a page publishes: none while its symbol is halted (T-10), wherever it is stopped, else those of the walk.
pub fn entries_behind(page: &[u8], last: usize) -> BestEntries
{
    if page::is_halted(page) {
        return BestEntries::NONE;
    }
    walk_page(page, last)
}
'''
s=s[:i]+nat+off+tail
open(p,'w').write(s)
