p='SCRATCH/e16/crates/walk/src/lib.rt'; s=open(p).read()
e14=open('SCRATCH/e14/crates/walk/src/lib.rt').read()
a=s.index('struct Lead2 {'); b=s.index('// Whether a letter other than the leader counts.\nfn others')
x=e14.index('struct Mark {'); y=e14.index('struct Marks {'); z=e14.index('// What a letter has on a side'); w=e14.index('fn with_letter(')
s=s[:a]+e14[x:y]+e14[z:w]+'''
fn leading(page: &[u8], side: Side, set: u32, top: u32, finra: Candidate) -> Mark
{
    let mut left = set;
    let mut best = Mark { size: 0, time: 0, place: 0, decided: 0 };
    while left != 0 {
        let i = keysets::lowest(left);
        left = keysets::without(left, i);
        best = lead_mark(best, read_mark(page, side, i, top, finra));
    }
    best
}

'''+s[b:]
a=s.index('struct SideBests'); b=s.index('fn copied(')
s=s[:a]+'''struct SideBests {
    national: Lead,
    odd: Candidate,
}

fn side_plain(page: &[u8], side: Side, last: usize, finra: Candidate) -> SideBests
{
    let national = lead_all(page, side, last, finra);
    let odd = ranking::beyond(side, national.best, odd_all(page, side, last, finra));
    SideBests { national, odd }
}

fn is_lost(side: Side, top: u32, set: u32, lead: Mark) -> bool
{
    if top == 0 {
        return false;
    }
    if top == full(side) {
        return true;
    }
    if has_d(set) {
        return true;
    }
    lead.size == 0
}

fn leader(page: &[u8], side: Side, finra: Candidate, top: u32, lead: Mark) -> Candidate
{
    if top == 0 {
        return Candidate::NONE;
    }
    Candidate { name: lead.place, price: unkey(side, top), size: lead.size, time: lead.time, condition: condition_of(page, lead.place, finra.condition) }
}

fn decided_by(page: &[u8], side: Side, d: bool, top: u32, lead: Mark) -> u32
{
    if top == 0 {
        return 0;
    }
    if lead.decided != 0 {
        return lead.decided;
    }
    if others(page, side, d, lead.place) {
        return 1;
    }
    0
}

fn side_bests(page: &[u8], side: Side, last: usize, finra: Candidate) -> SideBests
{
    if last < Letter::Z {
        return side_plain(page, side, last, copied(finra));
    }
    let d = keys::key(side, finra.price);
    let top = keysets::higher(keysets::top(page, page::quote_keys(side)), d);
    let set = keysets::above(page, page::quote_keys(side), below(top));
    let lead = leading(page, side, with_d(set, d == top), top, finra);
    if is_lost(side, top, set, lead) {
        return side_plain(page, side, last, copied(finra));
    }
    let first = keysets::top(page, page::first_keys(side));
    let floor = keysets::higher(top, below(first));
    let odds = keysets::above(page, page::first_keys(side), floor);
    let decided = decided_by(page, side, stands(finra), top, lead);
    let odd = odd_by(page, side, stands(finra), top, floor, odds);
    SideBests { national: Lead { best: leader(page, side, finra, top, lead), decided }, odd: odd_at(page, side, odd) }
}

'''+s[b:]
e15=open('SCRATCH/e15/crates/walk/src/lib.rt').read()
a=s.index('struct Odd {'); b=s.index('pub fn walk_page(')
x=e15.index('fn odd_by('); y=e15.index('fn plain_finra(')
s=s[:a]+e15[x:y]+s[b:]
open(p,'w').write(s)
