import re,sys
src,dst=sys.argv[1:3]
p=f'SCRATCH/{dst}/crates/walk/src/lib.rt'; s=open(p).read()
a=s.index('// The leader as a candidate.'); b=s.index('// A candidate, field by field')
s=s[:a]+'''// The leader as a candidate.
fn led(page: &[u8], side: Side, finra: Candidate, who: u32) -> Lead
{
    if who == 0 {
        return Lead::NONE;
    }
    Lead {
        best: standing(page, (who / 8) as usize, side, finra),
        decided: who % 8,
    }
}

fn of_all(page: &[u8], side: Side, last: usize, finra: Candidate) -> u32
{
    let lead = lead_all(page, side, last, finra);
    let best = lead.best;
    best.name * 8 + lead.decided
}

fn who(page: &[u8], side: Side, d: bool, leader: Shown) -> u32
{
    if leader.size == 0 {
        return 0;
    }
    leader.letter * 8 + decided(page, side, d, leader.letter, leader.decided)
}

'''+s[b:]
a=s.index('// The same for a leader.'); b=s.index('// Both sides\' leaders of the letters A to `last`. Of a whole page')
s=s[:a]+s[b:]
a=s.index('    let bid = leading(page, Side::Bid, bid_set, finra.bid);'); b=s.index('// The best odd lot among the letters of a set.')
s=s[:a]+'''    let bid = leading(page, Side::Bid, bid_set, finra.bid);
    let offer = leading(page, Side::Offer, offer_set, finra.offer);
    let d_bid = stands(finra.bid);
    let d_offer = stands(finra.offer);
    let mut bid_who = 0;
    if is_hidden(Side::Bid, top_bid, bids, bid) {
        bid_who = of_all(page, Side::Bid, last, copied(finra.bid));
    } else {
        bid_who = who(page, Side::Bid, d_bid, bid);
    }
    let mut offer_who = 0;
    if is_hidden(Side::Offer, top_offer, offers, offer) {
        offer_who = of_all(page, Side::Offer, last, copied(finra.offer));
    } else {
        offer_who = who(page, Side::Offer, d_offer, offer);
    }
    Leads {
        bid: led(page, Side::Bid, finra.bid, bid_who),
        offer: led(page, Side::Offer, finra.offer, offer_who),
    }
}

'''+s[b:]
s=s.replace('''    if last < Letter::Z {
        return leaders_of_all(page, last, finra);
    }
''','')
open(p,'w').write(s)
