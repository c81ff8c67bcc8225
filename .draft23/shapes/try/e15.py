p='SCRATCH/e15/crates/walk/src/lib.rt'; s=open(p).read()
a=s.index('fn led(page'); b=s.index('fn copied(')
s=s[:a]+'''
fn decided_by(page: &[u8], side: Side, d: bool, lead: u32, decided: u32) -> u32
{
    if decided != 0 {
        return decided;
    }
    if others(page, side, d, lead) {
        return 1;
    }
    0
}

fn led(page: &[u8], side: Side, finra: Candidate, top: u32, lead: Mark) -> Lead
{
    if top == 0 {
        return Lead::NONE;
    }
    let decided = decided_by(page, side, stands(finra), lead.place, lead.decided);
    let best = Candidate { name: lead.place, price: unkey(side, top), size: lead.size, time: lead.time, condition: condition_of(page, lead.place, finra.condition) };
    Lead { best, decided }
}

'''+s[b:]
a=s.index('fn odd_by('); b=s.index('fn odd_as(')
s=s[:a]+'''fn odd_by(page: &[u8], side: Side, d: bool, bar: u32, floor: u32, set: u32) -> usize
{
    if set == 0 {
        if bar < floor {
            return odd_slow(page, side, d, bar);
        }
        return 0;
    }
    let i = keysets::lowest(set);
    if keysets::without(set, i) != 0 {
        return odd_slow(page, side, d, bar);
    }
    let level = odd_one(page, side, i, d);
    if level.size == 0 {
        return odd_slow(page, side, d, bar);
    }
    i as usize + 65
}

fn odd_slow(page: &[u8], side: Side, d: bool, want: u32) -> usize
{
    oddest(page, side, keysets::above(page, page::first_keys(side), want), d)
}

fn odd_at(page: &[u8], side: Side, letter: usize) -> Candidate
{
    if letter == 0 {
        return Candidate::NONE;
    }
    let level = Level::get(page, page::slot_at(letter) + Slot::LEVELS + page::in_levels(side));
    Candidate { name: letter as u32, price: level.price, size: level.size, time: level.time, condition: 32 }
}

'''+s[b:]
s=s.replace('odd_by(page, Side::Bid, stands(finra.bid), bid.best.price, top_bid, fb, ob)','odd_by(page, Side::Bid, stands(finra.bid), top_bid, fb, ob)').replace('odd_by(page, Side::Offer, stands(finra.offer), offer.best.price, top_offer, fo, oo)','odd_by(page, Side::Offer, stands(finra.offer), top_offer, fo, oo)')
s=s.replace('let odd = Sides { bid: odd_as(odd_bid), offer: odd_as(odd_offer) };','let odd = Sides { bid: odd_at(page, Side::Bid, odd_bid), offer: odd_at(page, Side::Offer, odd_offer) };')
a=s.index('fn odd_as('); b=s.index('fn walk_plain(')
s=s[:a]+s[b:]
s=s.replace('''fn walk_plain(page: &[u8], last: usize) -> BestEntries
{
    let finra = walk_finra(page, last);''','''fn plain_finra(page: &[u8], last: usize) -> Sides
{
    if last < Letter::D {
        return Sides::NONE;
    }
    all_makers(page)
}

fn walk_plain(page: &[u8], last: usize) -> BestEntries
{
    let finra = plain_finra(page, last);''').replace('''    let finra = walk_finra(page, last);
    let top_bid''','''    let finra = walk_makers(page);
    let top_bid''')
open(p,'w').write(s)
