p='SCRATCH/e11/crates/walk/src/lib.rt'; s=open(p).read()
a=s.index('fn bid_national('); b=s.index('fn below(')
s=s[:a]+'''
fn entry_of(side: Side) -> usize
{
    match side {
        Side::Bid => 0,
        Side::Offer => 16,
    }
}

fn full(side: Side) -> u32
{
    match side {
        Side::Bid => 0xffffffff,
        Side::Offer => 1,
    }
}

fn unkey(side: Side, key: u32) -> u64
{
    match side {
        Side::Bid => key as u64,
        Side::Offer => std::num::wrapping_sub_u32(0, key) as u64,
    }
}

struct SideBests {
    national: Lead,
    odd: Candidate,
}

fn side_bests(page: &[u8], side: Side, last: usize, finra: Candidate) -> SideBests
{
    let guess_price = field::get64(page, Page::ENTRIES + entry_of(side) + 4);
    let guess = below(keys::key(side, guess_price));
    let bar = keys::bar(side, guess_price);
    let floor = keysets::higher(bar, below(keys::key(side, field::get64(page, Page::ENTRIES + 64 + entry_of(side) + 4))));
    let set = keysets::above(page, page::quote_keys(side), guess);
    let odds = keysets::above(page, page::first_keys(side), floor);
    let national = national(page, side, finra, guess, set);
    let odd = odd_by(page, side, stands(finra), national.best.price, bar, floor, odds);
    SideBests { national, odd: odd_as(odd) }
}

fn national(page: &[u8], side: Side, finra: Candidate, guess: u32, set: u32) -> Lead
{
    let d = keys::key(side, finra.price);
    if has_d(set) {
        return lead_all(page, side, Letter::Z, copied(finra));
    }
    let lead = leading(page, side, with_d(set, guess < d), d, finra.size, finra.time);
    if lead.place == 0 {
        return lead_all(page, side, Letter::Z, copied(finra));
    }
    if lead.key == full(side) {
        return lead_all(page, side, Letter::Z, copied(finra));
    }
    let best = Candidate { name: lead.place, price: unkey(side, lead.key), size: lead.size, time: lead.time, condition: condition_of(page, lead.place, finra.condition) };
    if lead.decided == 0 {
        if others(page, side, stands(finra), lead.place) {
            return Lead { best, decided: 1 };
        }
    }
    Lead { best, decided: lead.decided }
}

fn copied(c: Candidate) -> Candidate
{
    Candidate {
        name: c.name,
        price: c.price,
        size: c.size,
        time: c.time,
        condition: c.condition,
    }
}

'''+s[b:]
a=s.index('    let bid_guess = field::get64'); b=s.index('    BestEntries {\n        national: Leads { bid, offer }')
s=s[:a]+'''    let finra = walk_finra(page, last);
    let bids = side_bests(page, Side::Bid, last, finra.bid);
    let offers = side_bests(page, Side::Offer, last, finra.offer);
    let bid = bids.national;
    let offer = offers.national;
    let odd = Sides { bid: bids.odd, offer: offers.odd };
'''+s[b:]
i=s.index('fn national(page: &[u8], side: Side, last: usize, finra: Candidate, top: u32')
i=s.rindex('// The leader of the letters A to',0,i); j=s.index('// The best odd lot among the letters of a set.')
s=s[:i]+s[j:]
open(p,'w').write(s)
