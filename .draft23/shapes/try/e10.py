p='SCRATCH/e10/crates/walk/src/lib.rt'; s=open(p).read()
a=s.index('// The leader of the letters A to `last`: `top` is'); b=s.index('// The best odd lot among the letters of a set.')
s=s[:a]+'''
fn below(key: u32) -> u32
{
    if key == 0 {
        return 0;
    }
    key - 1
}

fn national(page: &[u8], side: Side, last: usize, finra: Candidate) -> Lead
{
    if last < Letter::Z {
        return lead_all(page, side, last, finra);
    }
    let guess = below(keys::key(side, field::get64(page, Page::ENTRIES + entry_of(side) + 4)));
    let set = keysets::above(page, page::quote_keys(side), guess);
    if has_d(set) {
        return lead_all(page, side, last, finra);
    }
    let d = keys::key(side, finra.price);
    let lead = lead_among(page, side, with_d(set, guess < d), finra);
    if lead.best.price == 0 {
        return lead_all(page, side, last, finra);
    }
    ahead_of_all(page, side, finra, lead)
}

fn entry_of(side: Side) -> usize
{
    match side {
        Side::Bid => 0,
        Side::Offer => 16,
    }
}

'''+s[b:]
a=s.index('// The best odd lot of the letters A to `last` that is beyond'); b=s.index('/// The six best entries of a page whose letters behind')
s=s[:a]+'''
fn odd(page: &[u8], side: Side, last: usize, finra: Candidate, best: Candidate) -> Candidate
{
    if last < Letter::Z {
        return ranking::beyond(side, best, odd_all(page, side, last, finra));
    }
    let bar = keys::bar(side, best.price);
    let floor = keysets::higher(bar, below(keys::key(side, field::get64(page, Page::ENTRIES + 64 + entry_of(side) + 4))));
    let set = keysets::above(page, page::first_keys(side), floor);
    let first = odd_among(page, side, set, finra);
    if first.price == 0 {
        if floor != bar {
            return ranking::beyond(side, best, odd_all(page, side, last, finra));
        }
    }
    ranking::beyond(side, best, first)
}

struct SideBests {
    national: Lead,
    odd: Candidate,
}

fn side_bests(page: &[u8], side: Side, last: usize, finra: Candidate) -> SideBests
{
    let national = national(page, side, last, finra);
    let odd = odd(page, side, last, finra, national.best);
    SideBests { national, odd }
}

'''+s[b:]
a=s.index('    let top_bid = top_key('); b=s.index('    BestEntries {\n        national: Leads { bid, offer }')
s=s[:a]+'''    let bids = side_bests(page, Side::Bid, last, finra.bid);
    let offers = side_bests(page, Side::Offer, last, finra.offer);
    let bid = bids.national;
    let offer = offers.national;
    let odd = Sides { bid: bids.odd, offer: offers.odd };
'''+s[b:]
open(p,'w').write(s)
