import re
p='SCRATCH/n1/crates/walk/src/lib.rt'; s=open(p).read()
a=s.index('// The leader among letters of one price.'); b=s.index('// Whether a letter other than the leader counts.\nfn others')
s=s[:a]+'''
struct Mark {
    letter: u32,
    size: u32,
    time: u64,
    decided: u32,
}

fn no_mark() -> Mark
{
    Mark { letter: 0, size: 0, time: 0, decided: 0 }
}

fn mark(page: &[u8], side: Side, i: u32, top: u32, finra: Candidate) -> Mark
{
    if i == 3 {
        return Mark { letter: 68, size: finra.size, time: finra.time, decided: 0 };
    }
    let at = page::slot_at(Letter::A + i as usize);
    let level = Level::get(page, at + page::in_quote(side));
    if keys::quote_key(side, field::get8(page, at), level) == top {
        return Mark { letter: i + 65, size: level.size, time: level.time, decided: 0 };
    }
    no_mark()
}

fn loses(best: Mark, by: u32) -> Mark
{
    Mark { letter: best.letter, size: best.size, time: best.time, decided: keysets::higher(best.decided, by) }
}

fn wins(x: Mark, by: u32) -> Mark
{
    Mark { letter: x.letter, size: x.size, time: x.time, decided: by }
}

fn beside(best: Mark, x: Mark) -> Mark
{
    if x.size == 0 {
        return best;
    }
    if best.size == 0 {
        return x;
    }
    if x.size != best.size {
        if best.size < x.size {
            return wins(x, 2);
        }
        return loses(best, 2);
    }
    if x.time < best.time {
        return wins(x, 3);
    }
    if best.time < x.time {
        return loses(best, 3);
    }
    loses(best, 4)
}

fn leading(page: &[u8], side: Side, set: u32, top: u32, finra: Candidate) -> Mark
{
    let mut left = set;
    let mut best = no_mark();
    while left != 0 {
        let i = keysets::lowest(left);
        left = keysets::without(left, i);
        best = beside(best, mark(page, side, i, top, finra));
    }
    best
}

'''+s[b:]
s=s.replace('''fn is_plain(side: Side, top: u32, same: u32, who: u32) -> bool''','''fn is_plain(side: Side, top: u32, same: u32, who: Mark) -> bool''').replace('''    who == 0
}''','''    who.size == 0
}''')
a=s.index('fn decided_by('); b=s.index('\nfn copied(')
s=s[:a]+'''fn decided_by(page: &[u8], side: Side, d: bool, leader: u32, decided: u32) -> u32
{
    if decided != 0 {
        return decided;
    }
    if others(page, side, d, leader) {
        return 1;
    }
    0
}

fn unkey(side: Side, key: u32) -> u64
{
    match side {
        Side::Bid => key as u64,
        Side::Offer => std::num::wrapping_sub_u32(0, key) as u64,
    }
}

fn condition_of(page: &[u8], letter: u32, d: u32) -> u32
{
    if letter == 68 {
        return d;
    }
    field::get8(page, page::slot_at(letter as usize)) as u32
}

fn national(page: &[u8], side: Side, finra: Candidate, top: u32, who: Mark, decided: u32) -> Lead
{
    if top == 0 {
        return Lead::NONE;
    }
    let best = Candidate { name: who.letter, price: unkey(side, top), size: who.size, time: who.time, condition: condition_of(page, who.letter, finra.condition) };
    Lead { best, decided }
}
'''+s[b:]
s=re.sub(r'leading\(page, Side::(\w+), with_d\((\w+), (keys::key\(Side::\w+, finra.(\w+).price\)) == (\w+)\), \w+, finra.\w+.size, finra.\w+.time\)',r'leading(page, Side::\1, with_d(\2, \3 == \5), \5, finra.\4)',s)
s=s.replace('decided_by(page, Side::Bid, stands(finra.bid), bid_who)','decided_by(page, Side::Bid, stands(finra.bid), bid_who.letter, bid_who.decided)').replace('decided_by(page, Side::Offer, stands(finra.offer), offer_who)','decided_by(page, Side::Offer, stands(finra.offer), offer_who.letter, offer_who.decided)')
s=s.replace('national(page, Side::Bid, finra.bid, bid_who, bid_by)','national(page, Side::Bid, finra.bid, top_bid, bid_who, bid_by)').replace('national(page, Side::Offer, finra.offer, offer_who, offer_by)','national(page, Side::Offer, finra.offer, top_offer, offer_who, offer_by)')
open(p,'w').write(s)
