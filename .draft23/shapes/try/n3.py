import re
p='SCRATCH/n3/crates/walk/src/lib.rt'; s=open(p).read()
a=s.index('\nfn mark('); b=s.index('\nfn loses(')
s=s[:a]+'''
fn mark(page: &[u8], side: Side, i: u32, finra: Candidate) -> Mark
{
    let c = standing(page, Letter::A + i as usize, side, finra);
    Mark { letter: c.name, size: c.size, time: c.time, decided: 0 }
}
'''+s[b:]
s=s.replace('fn leading(page: &[u8], side: Side, set: u32, top: u32, finra: Candidate) -> Mark','fn leading(page: &[u8], side: Side, set: u32, finra: Candidate) -> Mark').replace('mark(page, side, i, top, finra)','mark(page, side, i, finra)')
s=re.sub(r'leading\(page, Side::(\w+), with_d\((\w+), (keys::key\(Side::\w+, finra.(\w+).price\)) == (\w+)\), \w+, finra.\w+\)',r'leading(page, Side::\1, members(\2, \3, \5), finra.\4)',s)
s=s.replace('\nfn all_leads(','''
fn members(same: u32, d: u32, top: u32) -> u32
{
    if top == 0 {
        return 0;
    }
    with_d(same, d == top)
}

fn all_leads(''')
a=s.index('fn national(page'); b=s.index('\nfn copied(')
s=s[:a]+'''fn national(page: &[u8], side: Side, finra: Candidate, who: Mark, decided: u32) -> Lead
{
    if who.size == 0 {
        return Lead::NONE;
    }
    Lead { best: standing(page, who.letter as usize, side, finra), decided }
}
'''+s[b:]
s=s.replace('finra.bid, top_bid, bid_who, bid_by','finra.bid, bid_who, bid_by').replace('finra.offer, top_offer, offer_who, offer_by','finra.offer, offer_who, offer_by')
s=s.replace('''fn decided_by(page: &[u8], side: Side, d: bool, leader: u32, decided: u32) -> u32
{
    if decided != 0 {
        return decided;
    }
    if others(page, side, d, leader) {''','''fn decided_by(page: &[u8], side: Side, finra: Candidate, leader: u32, decided: u32) -> u32
{
    if decided != 0 {
        return decided;
    }
    if is_other(page, side, finra, leader) {''').replace('stands(finra.bid), bid_who.letter','finra.bid, bid_who.letter').replace('stands(finra.offer), offer_who.letter','finra.offer, offer_who.letter')
open(p,'w').write(s)
