p='SCRATCH/e2/crates/walk/src/lib.rt'
s=open(p).read()
i=s.index('fn oddest(');j=s.index('fn bid_national')
s=s[:i]+'''// The best of first levels: its letter.
fn oddest(page: &[u8], side: Side, set: u32, d: bool) -> usize
{
    let mut left = set;
    let mut place: usize = 0;
    let mut price: u64 = 0;
    let mut size: u32 = 0;
    let mut time: u64 = 0;
    while left != 0 {
        let i = keysets::lowest(left);
        left = keysets::without(left, i);
        let letter = Letter::A + i as usize;
        let at = page::slot_at(letter);
        let level = at + Slot::LEVELS + page::in_levels(side);
        let next = Level::get(page, level);
        if may_rank(page, at, side, i, d) {
            if field::low32(page, page::first_key_at(side, letter)) == keys::level_key(side, next) {
                let mut ahead = ranking::rank(side, price) < ranking::rank(side, next.price);
                if next.price == price {
                    if next.size == size {
                        ahead = next.time < time;
                    } else {
                        ahead = size < next.size;
                    }
                }
                if ahead {
                    place = letter;
                    price = next.price;
                    size = next.size;
                    time = next.time;
                }
            }
        }
    }
    place
}

fn may_rank(page: &[u8], at: usize, side: Side, i: u32, d: bool) -> bool
{
    if i == 3 {
        return d;
    }
    if i == 18 {
        return false;
    }
    let condition = field::get8(page, at);
    if quote::is_quoted(condition) {
        return quote::admits(side, condition);
    }
    true
}

fn odd_of(page: &[u8], side: Side, last: usize, finra: Candidate, best: Candidate, above: u32) -> Candidate
{
    if last < Letter::Z {
        return ranking::beyond(side, best, odd_all(page, side, last, finra));
    }
    let letter = oddest(page, side, above, stands(finra));
    if letter == 0 {
        return Candidate::NONE;
    }
    let level = Level::get(page, page::slot_at(letter) + Slot::LEVELS + page::in_levels(side));
    ranking::beyond(side, best, Candidate {
            name: letter as u32,
            price: level.price,
            size: level.size,
            time: level.time,
            condition: 0x20,
        })
}

'''+s[j:]
s=s.replace('bid: odd(page','bid: odd_of(page').replace('offer: odd(page','offer: odd_of(page').replace('use quote::Level;','use quote::Level;\nuse page::Slot;')
open(p,'w').write(s)
