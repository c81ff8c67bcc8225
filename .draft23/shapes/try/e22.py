p='SCRATCH/e22/crates/walk/src/lib.rt'; s=open(p).read()
e17=open('SCRATCH/e17/crates/walk/src/lib.rt').read()
a=s.index('struct Mark {'); b=s.index('fn lead_bids(')
x=e17.index('struct Mark {'); y=e17.index('fn leading(')
s=s[:a]+e17[x:y]+s[b:]
s=s.replace('set: u32, top: u32, finra: Candidate) -> Mark','set: u32, finra: Candidate) -> Mark').replace('i, top, finra)','i, finra)').replace('let mut best = Mark { size: 0, time','let mut best = Mark { key: 0, size: 0, time')
a=s.index('fn is_lost('); b=s.index('fn copied(')
s=s[:a]+'''
fn is_lost(side: Side, set: u32, key: u32) -> bool
{
    if key == full(side) {
        return true;
    }
    has_d(set)
}

// A number that some key is above, if any key is above 0: most often the one below the national best that stands.
fn reach(page: &[u8], side: Side, d: u32) -> u32
{
    let guess = below(keys::key(side, field::get64(page, Page::ENTRIES + entry_of(side) + 4)));
    if guess < d {
        return guess;
    }
    if keysets::above(page, page::quote_keys(side), guess) != 0 {
        return guess;
    }
    below(keysets::higher(keysets::top(page, page::quote_keys(side)), d))
}

fn decided_by(page: &[u8], side: Side, d: bool, lead: u32, decided: u32) -> u32
{
    if decided != 0 {
        return decided;
    }
    if others(page, side, d, lead) {
        return 1;
    }
    0
}

fn leader(page: &[u8], side: Side, finra: Candidate, lead: Mark) -> Candidate
{
    if lead.key == 0 {
        return Candidate::NONE;
    }
    Candidate { name: lead.place, price: unkey(side, lead.key), size: lead.size, time: lead.time, condition: condition_of(page, lead.place, finra.condition) }
}

'''+s[b:]
a=s.index('    let top_bid = top_key('); b=s.index('/// The six entries that such a page publishes')
s=s[:a]+'''    let d_bid = keys::key(Side::Bid, finra.bid.price);
    let d_offer = keys::key(Side::Offer, finra.offer.price);
    let bar_bid = reach(page, Side::Bid, d_bid);
    let bar_offer = reach(page, Side::Offer, d_offer);
    let bids = keysets::above(page, page::quote_keys(Side::Bid), bar_bid);
    let offers = keysets::above(page, page::quote_keys(Side::Offer), bar_offer);
    let bid = lead_bids(page, with_d(bids, bar_bid < d_bid), finra.bid);
    let offer = lead_offers(page, with_d(offers, bar_offer < d_offer), finra.offer);
    if is_lost(Side::Bid, bids, bid.key) {
        return walk_plain(page, last, both(finra));
    }
    if is_lost(Side::Offer, offers, offer.key) {
        return walk_plain(page, last, both(finra));
    }
    let fb = odd_floor(page, Side::Bid, bid.key);
    let fo = odd_floor(page, Side::Offer, offer.key);
    let ob = keysets::above(page, page::first_keys(Side::Bid), fb);
    let oo = keysets::above(page, page::first_keys(Side::Offer), fo);
    let by_bid = decided_by(page, Side::Bid, stands(finra.bid), bid.place, bid.decided);
    let by_offer = decided_by(page, Side::Offer, stands(finra.offer), offer.place, offer.decided);
    let odd_bid = odd_by(page, Side::Bid, stands(finra.bid), bid.key, fb, ob);
    let odd_offer = odd_by(page, Side::Offer, stands(finra.offer), offer.key, fo, oo);
    let odd = Sides { bid: odd_at(page, Side::Bid, odd_bid), offer: odd_at(page, Side::Offer, odd_offer) };
    let lead_bid = Lead { best: leader(page, Side::Bid, finra.bid, bid), decided: by_bid };
    let lead_offer = Lead { best: leader(page, Side::Offer, finra.offer, offer), decided: by_offer };
    BestEntries {
        national: Leads { bid: lead_bid, offer: lead_offer },
        finra,
        odd,
    }
}

'''+s[b:]
open(p,'w').write(s)
