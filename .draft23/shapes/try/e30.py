import re
p='SCRATCH/e30/crates/walk/src/lib.rt'; s=open(p).read()
s=s.replace('use ranking::Sides;','use ranking::Sides;\nuse quote::Level;')
# ---- makers
a=s.index('// One maker cell more, both sides.'); b=s.index('// The FINRA best of a walk')
s=s[:a]+'''// The best maker so far on a side: its rank and size, and its cell. Size 0 is none.
struct BestCell {
    rank: u64,
    size: u32,
    cell: u32,
}

impl BestCell {
    const NONE: BestCell = BestCell {
        rank: 0,
        size: 0,
        cell: 0,
    };
}

// Whether cell k goes before another of the same price and size: by earlier time, lower name.
fn is_before(page: &[u8], side: Side, k: usize, other: usize) -> bool
{
    let at = page::cell_at(k);
    let to = page::cell_at(other);
    let time = field::low64(page, at + Cell::QUOTE + page::in_quote(side) + 12);
    let before = field::low64(page, to + Cell::QUOTE + page::in_quote(side) + 12);
    if time == before {
        return field::get32(page, at) < field::get32(page, to);
    }
    time < before
}

// One cell more that counts by its condition. Most are behind by price, and nothing else of them is read.
fn with_cell(page: &[u8], side: Side, k: usize, best: BestCell) -> BestCell
{
    let level = page::cell_at(k) + Cell::QUOTE + page::in_quote(side);
    let price = field::low64(page, level);
    let rank = ranking::rank(side, price);
    if rank < best.rank {
        return best;
    }
    let size = field::low32(page, level + 8);
    if size == 0 {
        return best;
    }
    if rank == best.rank {
        if price == 0 {
            return best;
        }
        if size < best.size {
            return best;
        }
        if size == best.size {
            if !is_before(page, side, k, best.cell as usize) {
                return best;
            }
        }
    }
    BestCell {
        rank,
        size,
        cell: k as u32,
    }
}

// The candidate in a best cell.
fn in_cell(page: &[u8], side: Side, best: BestCell) -> Candidate
{
    if best.size == 0 {
        return Candidate::NONE;
    }
    let at = page::cell_at(best.cell as usize);
    Candidate {
        name: field::get32(page, at),
        price: ranking::rank(side, best.rank),
        size: best.size,
        time: field::low64(page, at + Cell::QUOTE + page::in_quote(side) + 12),
        condition: 0x52,
    }
}

// The best of the makers, both sides. Of the conditions of makers only R counts.
fn walk_makers(page: &[u8]) -> Sides
{
    let mut bid = BestCell::NONE;
    let mut offer = BestCell::NONE;
    for k in 0..Page::MAKERS {
        if field::get8(page, page::cell_at(k) + Cell::QUOTE) == b'R' {
            bid = with_cell(page, Side::Bid, k, bid);
            offer = with_cell(page, Side::Offer, k, offer);
        }
    }
    Sides {
        bid: in_cell(page, Side::Bid, bid),
        offer: in_cell(page, Side::Offer, offer),
    }
}

'''+s[b:]
# ---- nationals
a=s.index('// The leader among the letters of a set.'); b=s.index('// Whether a letter counts and is not the leader.')
s=s[:a]+'''// The leader among the letters of a set, of which those count that have the key `top` by their quote, D by its FINRA best: its letter times 8, and what
// put it ahead; 0 if none counts. All of them have one price.
fn leading(page: &[u8], side: Side, set: u32, top: u32, d_size: u32, d_time: u64) -> u32
{
    let mut left = set;
    let mut leader: u32 = 0;
    let mut size: u32 = 0;
    let mut time: u64 = 0;
    let mut decided: u32 = 0;
    while left != 0 {
        let i = keysets::lowest(left);
        left = keysets::without(left, i);
        let mut next_size = d_size;
        let mut next_time = d_time;
        if i != 3 {
            let at = page::slot_at(Letter::A + i as usize);
            let level = at + page::in_quote(side);
            next_size = field::low32(page, level + 8);
            next_time = field::low64(page, level + 12);
            let own = keys::quote_key(side, field::get8(page, at), Level { price: field::low64(page, level), size: next_size, time: next_time });
            if own != top {
                next_size = 0;
            }
        }
        if next_size != 0 {
            if size == 0 {
                leader = i + 65;
                size = next_size;
                time = next_time;
            } else {
                if size < next_size {
                    leader = i + 65;
                    size = next_size;
                    time = next_time;
                    decided = 2;
                } else {
                    if next_size < size {
                        decided = keysets::higher(decided, 2);
                    } else {
                        if next_time < time {
                            leader = i + 65;
                            time = next_time;
                            decided = 3;
                        } else {
                            if time < next_time {
                                decided = keysets::higher(decided, 3);
                            } else {
                                decided = 4;
                            }
                        }
                    }
                }
            }
        }
    }
    leader * 8 + decided
}

'''+s[b:]
a=s.index('// A leader that has no second among those of its price'); b=s.index('// The best odd lot among the letters of a set.')
s=s[:a]+'''// What put the leader ahead: price, if it has no second among those of its price and another letter counts.
fn decided_by(page: &[u8], side: Side, finra: Candidate, who: u32) -> u32
{
    let decided = who % 8;
    if decided != 0 {
        return decided;
    }
    if is_other(page, side, finra, who / 8) {
        return 1;
    }
    0
}

// Whether every letter has to be looked at: D's own slot has the highest key, the key tells no price, or nobody counts who has it.
fn is_plain(side: Side, top: u32, same: u32, who: u32) -> bool
{
    if top == 0 {
        return false;
    }
    if top == full(side) {
        return true;
    }
    if has_d(same) {
        return true;
    }
    who == 0
}

fn full(side: Side) -> u32
{
    match side {
        Side::Bid => 0xffffffff,
        Side::Offer => 1,
    }
}

fn national(page: &[u8], side: Side, finra: Candidate, top: u32, who: u32, decided: u32) -> Lead
{
    if top == 0 {
        return Lead::NONE;
    }
    let best = standing_of(page, (who / 8) as usize, side, finra);
    Lead { best, decided }
}

fn standing_of(page: &[u8], letter: usize, side: Side, finra: Candidate) -> Candidate
{
    if letter == Letter::D {
        return as_d(finra);
    }
    let at = page::slot_at(letter);
    let level = Level::get(page, at + page::in_quote(side));
    Candidate { name: letter as u32, price: level.price, size: level.size, time: level.time, condition: field::get8(page, at) as u32 }
}

fn copied(c: Candidate) -> Candidate
{
    Candidate {
        name: c.name,
        price: c.price,
        size: c.size,
        time: c.time,
        condition: c.condition,
    }
}

fn both(s: Sides) -> Sides
{
    Sides {
        bid: copied(s.bid),
        offer: copied(s.offer),
    }
}

fn led(l: Lead) -> Lead
{
    Lead {
        best: copied(l.best),
        decided: l.decided,
    }
}

fn entries(e: BestEntries) -> BestEntries
{
    BestEntries {
        national: Leads {
            bid: led(e.national.bid),
            offer: led(e.national.offer),
        },
        finra: both(e.finra),
        odd: both(e.odd),
    }
}

fn walk_plain(page: &[u8], last: usize, finra: Sides) -> BestEntries
{
    let bid = lead_all(page, Side::Bid, last, finra.bid);
    let offer = lead_all(page, Side::Offer, last, finra.offer);
    let odd = Sides { bid: ranking::beyond(Side::Bid, bid.best, odd_all(page, Side::Bid, last, finra.bid)),
      offer: ranking::beyond(Side::Offer, offer.best, odd_all(page, Side::Offer, last, finra.offer)) };
    BestEntries {
        national: Leads { bid, offer },
        finra,
        odd,
    }
}

'''+s[b:]
# ---- odd
a=s.index('// The best odd lot of the letters A to `last` that is beyond'); b=s.index('/// The six best entries of a page whose letters behind')
s=s[:a]+'''
fn below(key: u32) -> u32
{
    if key == 0 {
        return 0;
    }
    key - 1
}

fn odd_entry(side: Side) -> usize
{
    match side {
        Side::Bid => Page::ENTRIES + 4 * Page::ENTRY_LEN,
        Side::Offer => Page::ENTRIES + 5 * Page::ENTRY_LEN,
    }
}

// A key to look above: that of the odd lot that stands, less 1, if it is above the bar. It is a guess; any number would do.
fn guess(page: &[u8], side: Side, bar: u32) -> u32
{
    keysets::higher(bar, below(keys::key(side, field::get64(page, odd_entry(side) + 4))))
}

fn odd_above(page: &[u8], side: Side, finra: Candidate, best: Candidate, bar: u32) -> Candidate
{
    let above = keysets::above(page, page::first_keys(side), bar);
    ranking::beyond(side, best, odd_among(page, side, above, finra))
}

fn odd(page: &[u8], side: Side, finra: Candidate, best: Candidate, bar: u32, floor: u32, set: u32) -> Candidate
{
    if set == 0 {
        if floor == bar {
            return Candidate::NONE;
        }
        return odd_above(page, side, copied(finra), copied(best), bar);
    }
    let i = keysets::lowest(set);
    if keysets::without(set, i) != 0 {
        return odd_above(page, side, copied(finra), copied(best), bar);
    }
    let first = odd_first(page, Letter::A + i as usize, side, finra);
    if first.price == 0 {
        return odd_above(page, side, copied(finra), copied(best), bar);
    }
    ranking::beyond(side, best, first)
}

fn walk_odd(page: &[u8], finra: Sides, bid: Candidate, offer: Candidate) -> Sides
{
    let bid_bar = keys::bar(Side::Bid, bid.price);
    let offer_bar = keys::bar(Side::Offer, offer.price);
    let bid_floor = guess(page, Side::Bid, bid_bar);
    let offer_floor = guess(page, Side::Offer, offer_bar);
    let bids = keysets::above(page, page::first_keys(Side::Bid), bid_floor);
    let offers = keysets::above(page, page::first_keys(Side::Offer), offer_floor);
    Sides {
        bid: copied(odd(page, Side::Bid, copied(finra.bid), copied(bid), bid_bar, bid_floor, bids)),
        offer: copied(odd(page, Side::Offer, copied(finra.offer), copied(offer), offer_bar, offer_floor, offers)),
    }
}

'''+s[b:]
a=s.index('    let finra = walk_finra(page, last);\n    let top_bid'); b=s.index('/// The six entries that such a page publishes')
s=s[:a]+'''    let finra = walk_finra(page, last);
    if last < Letter::Z {
        return entries(walk_plain(page, last, both(finra)));
    }
    let top_bid = top_key(page, Side::Bid, finra.bid);
    let top_offer = top_key(page, Side::Offer, finra.offer);
    let bids = keysets::same(page, page::quote_keys(Side::Bid), top_bid);
    let offers = keysets::same(page, page::quote_keys(Side::Offer), top_offer);
    let bid_who = leading(page, Side::Bid, with_d(bids, keys::key(Side::Bid, finra.bid.price) == top_bid), top_bid, finra.bid.size, finra.bid.time);
    let offer_who = leading(page, Side::Offer, with_d(offers, keys::key(Side::Offer, finra.offer.price) == top_offer), top_offer, finra.offer.size, finra.offer.time);
    if is_plain(Side::Bid, top_bid, bids, bid_who) {
        return entries(walk_plain(page, last, both(finra)));
    }
    if is_plain(Side::Offer, top_offer, offers, offer_who) {
        return entries(walk_plain(page, last, both(finra)));
    }
    let bid_by = decided_by(page, Side::Bid, copied(finra.bid), bid_who);
    let offer_by = decided_by(page, Side::Offer, copied(finra.offer), offer_who);
    let bid = national(page, Side::Bid, finra.bid, top_bid, bid_who, bid_by);
    let offer = national(page, Side::Offer, finra.offer, top_offer, offer_who, offer_by);
    let odd = walk_odd(page, finra, bid.best, offer.best);
    BestEntries {
        national: Leads { bid, offer },
        finra,
        odd,
    }
}

'''+s[b:]
open(p,'w').write(s)
