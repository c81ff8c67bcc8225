p='SCRATCH/e19/crates/walk/src/lib.rt'; s=open(p).read()
s0=open('SCRATCH/s0/crates/walk/src/lib.rt').read()
# makers of s0
a=s.index('struct Spot {'); b=s.index('// The FINRA best of a walk')
x=s0.index('// One maker cell more, both sides.'); y=s0.index('// The FINRA best of a walk')
s=s[:a]+s0[x:y]+s[b:]
a=s.index('struct Marks {'); b=s.index('// What a letter has on a side')
s=s[:a]+s[b:]
a=s.index('fn with_letter('); b=s.index('fn is_lost(')
loop='''
fn lead_bids(page: &[u8], set: u32, top: u32, finra: Candidate) -> Mark
{
    let mut left = set;
    let mut best = Mark { size: 0, time: 0, place: 0, decided: 0 };
    while left != 0 {
        let i = keysets::lowest(left);
        left = keysets::without(left, i);
        best = lead_mark(best, read_mark(page, Side::Bid, i, top, finra));
    }
    best
}
'''
s=s[:a]+loop+loop.replace('lead_bids','lead_offers').replace('Side::Bid','Side::Offer')+s[b:]
a=s.index('fn led(page'); b=s.index('fn copied(')
s=s[:a]+'''
fn leader(page: &[u8], side: Side, finra: Candidate, top: u32, lead: Mark) -> Candidate
{
    if top == 0 {
        return Candidate::NONE;
    }
    Candidate { name: lead.place, price: unkey(side, top), size: lead.size, time: lead.time, condition: condition_of(page, lead.place, finra.condition) }
}

'''+s[b:]
a=s.index('fn plain_finra('); b=s.index('fn walk_plain(')
s=s[:a]+s[b:]
s=s.replace('let finra = plain_finra(page, last);','let finra = walk_finra(page, last);')
a=s.index('    let finra = walk_makers(page);\n    let top_bid'); b=s.index('/// The six entries that such a page publishes')
s=s[:a]+'''    let finra = walk_makers(page);
    let top_bid = top_key(page, Side::Bid, finra.bid);
    let top_offer = top_key(page, Side::Offer, finra.offer);
    let bids = keysets::same(page, page::quote_keys(Side::Bid), top_bid);
    let offers = keysets::same(page, page::quote_keys(Side::Offer), top_offer);
    let bid = lead_bids(page, with_d(bids, keys::key(Side::Bid, finra.bid.price) == top_bid), top_bid, finra.bid);
    let offer = lead_offers(page, with_d(offers, keys::key(Side::Offer, finra.offer.price) == top_offer), top_offer, finra.offer);
    if is_lost(Side::Bid, top_bid, bids, bid) {
        return walk_plain(page, last);
    }
    if is_lost(Side::Offer, top_offer, offers, offer) {
        return walk_plain(page, last);
    }
    let fb = odd_floor(page, Side::Bid, top_bid);
    let fo = odd_floor(page, Side::Offer, top_offer);
    let ob = keysets::above(page, page::first_keys(Side::Bid), fb);
    let oo = keysets::above(page, page::first_keys(Side::Offer), fo);
    let by_bid = decided_by(page, Side::Bid, stands(finra.bid), bid.place, bid.decided);
    let by_offer = decided_by(page, Side::Offer, stands(finra.offer), offer.place, offer.decided);
    let odd_bid = odd_by(page, Side::Bid, stands(finra.bid), top_bid, fb, ob);
    let odd_offer = odd_by(page, Side::Offer, stands(finra.offer), top_offer, fo, oo);
    let odd = Sides { bid: odd_at(page, Side::Bid, odd_bid), offer: odd_at(page, Side::Offer, odd_offer) };
    let lead_bid = Lead { best: leader(page, Side::Bid, finra.bid, top_bid, bid), decided: by_bid };
    let lead_offer = Lead { best: leader(page, Side::Offer, finra.offer, top_offer, offer), decided: by_offer };
    BestEntries {
        national: Leads { bid: lead_bid, offer: lead_offer },
        finra,
        odd,
    }
}

'''+s[b:]
open(p,'w').write(s)
