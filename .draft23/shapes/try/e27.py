import re
p='SCRATCH/e27/crates/walk/src/lib.rt'; s=open(p).read()
e20=open('SCRATCH/e20/crates/walk/src/lib.rt').read()
def fn(n,src):
    return re.search(r'\nfn '+n+r'\(.*?\n}\n',src,re.S).group(0)
a=s.index('fn national(page'); b=s.index('\nfn below(')
s=s[:a]+'''fn national(page: &[u8], side: Side, finra: Candidate, who: u32, decided: u32) -> Lead
{
    if who == 0 {
        return Lead::NONE;
    }
    let best = read_at(page, (who / 8) as usize, side, finra);
    Lead { best, decided }
}
'''+fn('copied',e20)+fn('both',e20)+fn('walk_plain',e20)+s[b:]
s=s.replace('''    if top == full(side) {
        return true;
    }
    if has_d(same)''','''    if top == 0 {
        return false;
    }
    if top == full(side) {
        return true;
    }
    if has_d(same)''')
a=s.index('    let bid_by = decided_by('); b=s.index('    let odd = walk_odd(page, last')
s=s[:a]+'''    if is_plain(Side::Bid, top_bid, bids, bid_who) {
        return walk_plain(page, last, both(finra));
    }
    if is_plain(Side::Offer, top_offer, offers, offer_who) {
        return walk_plain(page, last, both(finra));
    }
    let bid_by = decided_by(page, Side::Bid, stands(finra.bid), bid_who);
    let offer_by = decided_by(page, Side::Offer, stands(finra.offer), offer_who);
    let bid = national(page, Side::Bid, finra.bid, bid_who, bid_by);
    let offer = national(page, Side::Offer, finra.offer, offer_who, offer_by);
'''+s[b:]
s=s.replace('''    let finra = walk_finra(page, last);
    let top_bid''','''    let finra = walk_finra(page, last);
    if last < Letter::Z {
        return walk_plain(page, last, both(finra));
    }
    let top_bid''')
open(p,'w').write(s)
