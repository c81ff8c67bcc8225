import re
p='SCRATCH/e24/crates/walk/src/lib.rt'; s=open(p).read()
e21=open('SCRATCH/e21/crates/walk/src/lib.rt').read()
def fn(n,src=e21):
    return re.search(r'\nfn '+n+r'\(.*?\n}\n',src,re.S).group(0)
i=s.index('// The best odd lots beyond the national bests, both sides.'); j=s.index('/// The six best entries of a page whose letters behind')
s=s[:i]+fn('below')+fn('entry_of')+fn('odd_one')+fn('odd_by')+fn('odd_slow')+fn('odd_at')+fn('odd_floor')+'''
fn walk_odd(page: &[u8], last: usize, finra: Sides, bid: Candidate, offer: Candidate) -> Sides
{
    let bar_bid = keys::bar(Side::Bid, bid.price);
    let bar_offer = keys::bar(Side::Offer, offer.price);
    let fb = odd_floor(page, Side::Bid, bar_bid);
    let fo = odd_floor(page, Side::Offer, bar_offer);
    let ob = keysets::above(page, page::first_keys(Side::Bid), fb);
    let oo = keysets::above(page, page::first_keys(Side::Offer), fo);
    let odd_bid = odd_by(page, Side::Bid, stands(finra.bid), bar_bid, fb, ob);
    let odd_offer = odd_by(page, Side::Offer, stands(finra.offer), bar_offer, fo, oo);
    Sides { bid: odd_at(page, Side::Bid, odd_bid), offer: odd_at(page, Side::Offer, odd_offer) }
}

'''+s[j:]
open(p,'w').write(s)
