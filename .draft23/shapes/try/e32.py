import re
p='SCRATCH/e32/crates/walk/src/lib.rt'; s=open(p).read()
def cut(n):
    global s
    m=re.search(r'\nfn '+n+r'\(.*?\n}\n',s,re.S); s=s[:m.start()]+s[m.end():]
for n in ['odd_by','odd_slow','odd_one','oddest','odd_of']:
    try: cut(n)
    except AttributeError: print('no',n)
i=s.index('\nfn odd_at(')
s=s[:i]+'''
fn odd_above(page: &[u8], side: Side, finra: Candidate, bar: u32) -> u32
{
    let best = odd_among(page, side, keysets::above(page, page::first_keys(side), bar), finra);
    best.name
}

fn odd_by(page: &[u8], side: Side, finra: Candidate, bar: u32, floor: u32, set: u32) -> u32
{
    if set == 0 {
        if bar < floor {
            return odd_above(page, side, copied(finra), bar);
        }
        return 0;
    }
    let i = keysets::lowest(set);
    if keysets::without(set, i) != 0 {
        return odd_above(page, side, copied(finra), bar);
    }
    let first = odd_first(page, Letter::A + i as usize, side, finra);
    if first.price == 0 {
        return odd_above(page, side, copied(finra), bar);
    }
    i + 65
}

fn copied(c: Candidate) -> Candidate
{
    Candidate {
        name: c.name,
        price: c.price,
        size: c.size,
        time: c.time,
        condition: c.condition,
    }
}
'''+s[i:]
s=s.replace('odd_by(page, Side::Bid, stands(finra.bid), bar_bid, fb, ob)','odd_by(page, Side::Bid, finra.bid, bar_bid, fb, ob) as usize').replace('odd_by(page, Side::Offer, stands(finra.offer), bar_offer, fo, oo)','odd_by(page, Side::Offer, finra.offer, bar_offer, fo, oo) as usize')
open(p,'w').write(s)
# e31: s0 nationals + M + O(e32)
s0=open('SCRATCH/s0/crates/walk/src/lib.rt').read()
import os,shutil
shutil.copytree('SCRATCH/s0','SCRATCH/e31')
t=s0
a=t.index('// One maker cell more, both sides.'); b=t.index('// The FINRA best of a walk')
t=t[:a]+open('SCRATCH/shape/makers.rt').read()+t[b:]
a=t.index('// The best odd lot of the letters A to `last` that is beyond'); b=t.index('/// The six best entries of a page whose letters behind')
x=s.index('\nfn below('); y=s.index('/// The six best entries of a page whose letters behind')
t=t[:a]+s[x:y]+t[b:]
t=t.replace('use ranking::Sides;','use ranking::Sides;\nuse quote::Level;\nuse page::Slot;')
open('SCRATCH/e31/crates/walk/src/lib.rt','w').write(t)
