p='SCRATCH/e28/crates/walk/src/lib.rt'; s=open(p).read()
s=s.replace('return walk_plain(page, last, both(finra));','return entries(walk_plain(page, last, both(finra)));')
s=s.replace('\nfn walk_plain(','''
fn led(l: Lead) -> Lead
{
    Lead { best: copied(l.best), decided: l.decided }
}

fn entries(e: BestEntries) -> BestEntries
{
    BestEntries { national: Leads { bid: led(e.national.bid), offer: led(e.national.offer) }, finra: both(e.finra), odd: both(e.odd) }
}

fn walk_plain(''')
open(p,'w').write(s)
p='SCRATCH/e29/crates/walk/src/lib.rt'; s=open(p).read()
e28=open('SCRATCH/e28/crates/walk/src/lib.rt').read()
import re
def fn(n,src=e28):
    return re.search(r'\nfn '+n+r'\(.*?\n}\n',src,re.S).group(0)
s=s.replace('\nfn national(',fn('copied')+fn('led')+'\nfn national(')
s=s.replace('let bid = national(page, Side::Bid, last, finra.bid, top_bid, bids, bid_who, bid_by);','let bid = led(national(page, Side::Bid, last, copied(finra.bid), top_bid, bids, bid_who, bid_by));').replace('let offer = national(page, Side::Offer, last, finra.offer, top_offer, offers, offer_who, offer_by);','let offer = led(national(page, Side::Offer, last, copied(finra.offer), top_offer, offers, offer_who, offer_by));')
s=s.replace('return lead_all(page, side, last, finra);','return led(lead_all(page, side, last, copied(finra)));')
open(p,'w').write(s)
