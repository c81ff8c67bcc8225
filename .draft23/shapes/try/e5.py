d='SCRATCH/e5/crates/'
p=d+'keysets/src/lib.rt'; s=open(p).read()
s+='''
pub fn leaders(page: &[u8], at: usize, d: u32) -> u64
{
    let mut top: u32 = d;
    for i in 0..Keys::COUNT {
        top = higher(top, field::low32(page, at + Keys::KEY_LEN * i));
    }
    let mut m: u32 = 0;
    for i in 0..Keys::COUNT {
        m = m + weight_if(field::low32(page, at + Keys::KEY_LEN * i) == top, i as u32);
    }
    (top as u64) * 0x100000000 + m as u64
}
'''
open(p,'w').write(s)
p=d+'walk/src/lib.rt'; s=open(p).read()
a=s.index('    let top_bid = top_key('); b=s.index('    let bid = bid_national(')
s=s[:a]+'''    let lead_bid = keysets::leaders(page, page::quote_keys(Side::Bid), keys::key(Side::Bid, finra.bid.price));
    let lead_offer = keysets::leaders(page, page::quote_keys(Side::Offer), keys::key(Side::Offer, finra.offer.price));
    let top_bid = (lead_bid / 0x100000000) as u32;
    let bids = (lead_bid % 0x100000000) as u32;
    let top_offer = (lead_offer / 0x100000000) as u32;
    let offers = (lead_offer % 0x100000000) as u32;
'''+s[b:]
open(p,'w').write(s)
