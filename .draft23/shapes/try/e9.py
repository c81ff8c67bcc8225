d='SCRATCH/e9/crates/'
p=d+'walk/src/lib.rt'; s=open(p).read()
i=s.index('fn odd_set('); j=s.index('pub fn walk_page(')
s=s[:i]+'''
// The first level of a letter, if it ranks.
fn odd_one(page: &[u8], side: Side, i: u32, d: bool) -> Level
{
    let letter = Letter::A + i as usize;
    let at = page::slot_at(letter);
    let next = Level::get(page, at + Slot::LEVELS + page::in_levels(side));
    if may_rank(page, at, side, i, d) {
        if field::low32(page, page::first_key_at(side, letter)) == keys::level_key(side, next) {
            return next;
        }
    }
    Level::NONE
}

struct Odd {
    name: u32,
    size: u32,
    price: u64,
}

fn odd_by(page: &[u8], side: Side, d: bool, best: u64, bar: u32, floor: u32, set: u32) -> Odd
{
    let want = keys::bar(side, best);
    if want < bar {
        return odd_slow(page, side, d, best, want);
    }
    if set == 0 {
        if want < floor {
            return odd_slow(page, side, d, best, want);
        }
        return Odd { name: 0, size: 0, price: 0 };
    }
    let i = keysets::lowest(set);
    if keysets::without(set, i) != 0 {
        return odd_slow(page, side, d, best, want);
    }
    let level = odd_one(page, side, i, d);
    if ranking::rank(side, best) < ranking::rank(side, level.price) {
        return Odd { name: i + 65, size: level.size, price: level.price };
    }
    odd_slow(page, side, d, best, want)
}

fn odd_slow(page: &[u8], side: Side, d: bool, best: u64, want: u32) -> Odd
{
    let set = keysets::above(page, page::first_keys(side), want);
    let letter = oddest(page, side, set, d);
    if letter == 0 {
        return Odd { name: 0, size: 0, price: 0 };
    }
    let level = Level::get(page, page::slot_at(letter) + Slot::LEVELS + page::in_levels(side));
    if ranking::rank(side, best) < ranking::rank(side, level.price) {
        return Odd { name: letter as u32, size: level.size, price: level.price };
    }
    Odd { name: 0, size: 0, price: 0 }
}

fn odd_as(o: Odd) -> Candidate
{
    Candidate { name: o.name, price: o.price, size: o.size, time: 0, condition: 32 }
}

'''+s[j:]
s=s.replace('''    let ob = keysets::above(page, page::first_keys(Side::Bid), bar_b);
    let oo = keysets::above(page, page::first_keys(Side::Offer), bar_o);
''','''    let fb = keysets::higher(bar_b, below(keys::key(Side::Bid, field::get64(page, Page::ENTRIES + 68))));
    let fo = keysets::higher(bar_o, below(keys::key(Side::Offer, field::get64(page, Page::ENTRIES + 84))));
    let ob = keysets::above(page, page::first_keys(Side::Bid), fb);
    let oo = keysets::above(page, page::first_keys(Side::Offer), fo);
''')
i=s.index('    let odd = Sides { bid: odd_of('); j=s.index('    BestEntries {\n        national: Leads { bid, offer }')
s=s[:i]+'''    let odd_bid = odd_by(page, Side::Bid, stands(finra.bid), bid.best.price, bar_b, fb, ob);
    let odd_offer = odd_by(page, Side::Offer, stands(finra.offer), offer.best.price, bar_o, fo, oo);
    let odd = Sides { bid: odd_as(odd_bid), offer: odd_as(odd_offer) };
'''+s[j:]
open(p,'w').write(s)
