import re,sys
p=f'SCRATCH/{sys.argv[1]}/crates/walk/src/lib.rt'; s=open(p).read()
m=re.search(r'fn who\(.*?\n}\n',s,re.S)
s=s[:m.start()]+'''fn coded(leader: Shown, by: u32) -> u32
{
    if leader.size == 0 {
        return 0;
    }
    leader.letter * 8 + by
}
'''+s[m.end():]
a=s.index('    let mut bid_who = 0;'); b=s.index('    Leads {\n        bid: led(page, Side::Bid, finra.bid, bid_who)')
s=s[:a]+'''    let bid_by = decided(page, Side::Bid, d_bid, bid.letter, bid.decided);
    let offer_by = decided(page, Side::Offer, d_offer, offer.letter, offer.decided);
    let mut bid_who = coded(bid, bid_by);
    let mut offer_who = coded(offer, offer_by);
    if is_hidden(Side::Bid, top_bid, bids, bid) {
        bid_who = of_all(page, Side::Bid, last, copied(finra.bid));
    }
    if is_hidden(Side::Offer, top_offer, offers, offer) {
        offer_who = of_all(page, Side::Offer, last, copied(finra.offer));
    }
'''+s[b:]
open(p,'w').write(s)
