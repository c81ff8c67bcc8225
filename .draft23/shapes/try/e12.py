p='SCRATCH/e12/crates/walk/src/lib.rt'; s=open(p).read()
t=open('SCRATCH/e11/crates/walk/src/lib.rt').read()
i=s.index('fn national(page: &[u8], side: Side, last: usize, finra: Candidate, top: u32')
i=s.rindex('// The leader of the letters A to',0,i); j=s.index('// The best odd lot among the letters of a set.')
s=s[:i]+s[j:]
a=s.index('fn bid_national('); b=s.index('fn below(')
x=t.index('fn entry_of('); y=t.index('struct SideBests'); z=t.index('fn national(page'); w=t.index('fn below(')
s=s[:a]+t[x:y]+t[z:w]+s[b:]
s=s.replace('bid_national(page, finra.bid, bb, qb)','national(page, Side::Bid, finra.bid, bb, qb)').replace('offer_national(page, finra.offer, bo, qo)','national(page, Side::Offer, finra.offer, bo, qo)')
open(p,'w').write(s)
