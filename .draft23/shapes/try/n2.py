import re
p='SCRATCH/n2/crates/walk/src/lib.rt'; s=open(p).read()
a=s.index('\nfn both('); b=s.index('\nfn below(')
s=s[:a]+'''
fn led(l: Lead) -> Lead
{
    Lead { best: copied(l.best), decided: l.decided }
}

fn all_leads(page: &[u8], last: usize, finra: Sides) -> Leads
{
    Leads { bid: led(lead_all(page, Side::Bid, last, copied(finra.bid))), offer: led(lead_all(page, Side::Offer, last, copied(finra.offer))) }
}

fn nationals(page: &[u8], last: usize, finra: Sides) -> Leads
{
    if last < Letter::Z {
        return all_leads(page, last, finra);
    }
    let top_bid = top_key(page, Side::Bid, finra.bid);
    let top_offer = top_key(page, Side::Offer, finra.offer);
    let bids = keysets::same(page, page::quote_keys(Side::Bid), top_bid);
    let offers = keysets::same(page, page::quote_keys(Side::Offer), top_offer);
    let bid_who = leading(page, Side::Bid, with_d(bids, keys::key(Side::Bid, finra.bid.price) == top_bid), top_bid, finra.bid);
    let offer_who = leading(page, Side::Offer, with_d(offers, keys::key(Side::Offer, finra.offer.price) == top_offer), top_offer, finra.offer);
    if is_plain(Side::Bid, top_bid, bids, bid_who) {
        return all_leads(page, last, finra);
    }
    if is_plain(Side::Offer, top_offer, offers, offer_who) {
        return all_leads(page, last, finra);
    }
    let bid_by = decided_by(page, Side::Bid, stands(finra.bid), bid_who.letter, bid_who.decided);
    let offer_by = decided_by(page, Side::Offer, stands(finra.offer), offer_who.letter, offer_who.decided);
    Leads { bid: national(page, Side::Bid, finra.bid, top_bid, bid_who, bid_by), offer: national(page, Side::Offer, finra.offer, top_offer, offer_who, offer_by) }
}
'''+s[b:]
a=s.index('    let finra = walk_finra(page, last);\n    if last < Letter::Z'); b=s.index('/// The six entries that such a page publishes')
s=s[:a]+'''    let finra = walk_finra(page, last);
    let national = nationals(page, last, finra);
    let odd = walk_odd(page, last, finra, national.bid.best, national.offer.best);
    BestEntries {
        national,
        finra,
        odd,
    }
}

'''+s[b:]
open(p,'w').write(s)
