p='SCRATCH/e17/crates/walk/src/lib.rt'; s=open(p).read()
e13=open('SCRATCH/e13/crates/walk/src/lib.rt').read()
a=s.index('struct Mark {'); b=s.index('fn leading(')
x=e13.index('struct Mark {'); y=e13.index('struct Marks {'); z=e13.index('// What a letter has on a side'); w=e13.index('fn with_letter(')
s=s[:a]+e13[x:y]+e13[z:w].replace('d: Mark)','finra: Candidate)').replace('        return d;','        return Mark { key: keys::key(side, finra.price), size: finra.size, time: finra.time, place: 68, decided: 0 };')+s[b:]
a=s.index('fn leading('); b=s.index('// Whether a letter other than the leader counts.\nfn others')
s=s[:a]+'''fn leading(page: &[u8], side: Side, set: u32, finra: Candidate) -> Mark
{
    let mut left = set;
    let mut best = Mark { key: 0, size: 0, time: 0, place: 0, decided: 0 };
    while left != 0 {
        let i = keysets::lowest(left);
        left = keysets::without(left, i);
        best = lead_mark(best, read_mark(page, side, i, finra));
    }
    best
}

'''+s[b:]
a=s.index('fn is_lost('); b=s.index('fn copied(')
s=s[:a]+'''
fn is_lost(side: Side, set: u32, key: u32) -> bool
{
    if key == 0 {
        return true;
    }
    if key == full(side) {
        return true;
    }
    has_d(set)
}

fn decided_by(page: &[u8], side: Side, d: bool, lead: u32, decided: u32) -> u32
{
    if decided != 0 {
        return decided;
    }
    if others(page, side, d, lead) {
        return 1;
    }
    0
}

fn side_bests(page: &[u8], side: Side, last: usize, finra: Candidate) -> SideBests
{
    if last < Letter::Z {
        return side_plain(page, side, last, copied(finra));
    }
    let guess_price = field::get64(page, Page::ENTRIES + entry_of(side) + 4);
    let guess = below(keys::key(side, guess_price));
    let bar = keys::bar(side, guess_price);
    let floor = keysets::higher(bar, below(keys::key(side, field::get64(page, Page::ENTRIES + 64 + entry_of(side) + 4))));
    let set = keysets::above(page, page::quote_keys(side), guess);
    let odds = keysets::above(page, page::first_keys(side), floor);
    let lead = leading(page, side, with_d(set, guess < keys::key(side, finra.price)), finra);
    if is_lost(side, set, lead.key) {
        return side_plain(page, side, last, copied(finra));
    }
    let decided = decided_by(page, side, stands(finra), lead.place, lead.decided);
    let odd = odd_by(page, side, stands(finra), lead.key, floor, odds);
    SideBests { national: Lead { best: Candidate { name: lead.place, price: unkey(side, lead.key), size: lead.size, time: lead.time, condition: condition_of(page, lead.place, finra.condition) }, decided }, odd: odd_at(page, side, odd) }
}

'''+s[b:]
a=s.index('fn odd_by('); b=s.index('fn odd_slow(')
s=s[:a]+'''fn odd_by(page: &[u8], side: Side, d: bool, bar: u32, floor: u32, set: u32) -> usize
{
    if set == 0 {
        if bar < floor {
            return odd_slow(page, side, d, bar);
        }
        return 0;
    }
    let i = keysets::lowest(set);
    if keysets::without(set, i) != 0 {
        return odd_slow(page, side, d, bar);
    }
    if bar < field::low32(page, page::first_key_at(side, Letter::A + i as usize)) {
        let level = odd_one(page, side, i, d);
        if level.size == 0 {
            return odd_slow(page, side, d, bar);
        }
        return i as usize + 65;
    }
    0
}

'''+s[b:]
open(p,'w').write(s)
