p='SCRATCH/e14/crates/walk/src/lib.rt'; s=open(p).read()
a=s.index('struct Mark {'); b=s.index('// Whether a letter other than the leader counts.\nfn others')
s=s[:a]+'''
struct Mark {
    size: u32,
    time: u64,
    place: u32,
    decided: u32,
}

struct Marks {
    bid: Mark,
    offer: Mark,
}

// What a letter has on a side: size, time; size 0 if its key is not top.
fn read_mark(page: &[u8], side: Side, i: u32, top: u32, finra: Candidate) -> Mark
{
    if i == 3 {
        return Mark { size: finra.size, time: finra.time, place: 68, decided: 0 };
    }
    let letter = Letter::A + i as usize;
    let at = page::slot_at(letter);
    let level = Level::get(page, at + page::in_quote(side));
    let key = keys::quote_key(side, field::get8(page, at), level);
    if key == top {
        return Mark { size: level.size, time: level.time, place: i + 65, decided: 0 };
    }
    Mark { size: 0, time: 0, place: 0, decided: 0 }
}

fn lead_mark(best: Mark, x: Mark) -> Mark
{
    if x.size == 0 {
        return best;
    }
    if best.size == 0 {
        return x;
    }
    let mut ahead = best.size < x.size;
    let mut by: u32 = 2;
    if x.size == best.size {
        ahead = x.time < best.time;
        by = 3;
        if x.time == best.time {
            by = 4;
        }
    }
    if ahead {
        return Mark { size: x.size, time: x.time, place: x.place, decided: by };
    }
    Mark { size: best.size, time: best.time, place: best.place, decided: keysets::higher(best.decided, by) }
}

fn with_letter(page: &[u8], side: Side, set: u32, i: u32, top: u32, finra: Candidate, best: Mark) -> Mark
{
    if (set >> i) % 2 == 0 {
        return best;
    }
    lead_mark(best, read_mark(page, side, i, top, finra))
}

fn lead_both(page: &[u8], bids: u32, offers: u32, top_bid: u32, top_offer: u32, finra: Sides) -> Marks
{
    let mut left = bids | offers;
    let mut bid = Mark { size: 0, time: 0, place: 0, decided: 0 };
    let mut offer = Mark { size: 0, time: 0, place: 0, decided: 0 };
    while left != 0 {
        let i = keysets::lowest(left);
        left = keysets::without(left, i);
        bid = with_letter(page, Side::Bid, bids, i, top_bid, finra.bid, bid);
        offer = with_letter(page, Side::Offer, offers, i, top_offer, finra.offer, offer);
    }
    Marks { bid, offer }
}

fn is_lost(side: Side, top: u32, same: u32, lead: Mark) -> bool
{
    if top == 0 {
        return false;
    }
    if top == full(side) {
        return true;
    }
    if has_d(same) {
        return true;
    }
    lead.size == 0
}

'''+s[b:]
a=s.index('fn led(page'); b=s.index('fn copied(')
s=s[:a]+'''
fn led(page: &[u8], side: Side, finra: Candidate, top: u32, lead: Mark) -> Lead
{
    if top == 0 {
        return Lead::NONE;
    }
    let best = Candidate { name: lead.place, price: unkey(side, top), size: lead.size, time: lead.time, condition: condition_of(page, lead.place, finra.condition) };
    if lead.decided == 0 {
        if others(page, side, stands(finra), lead.place) {
            return Lead { best, decided: 1 };
        }
    }
    Lead { best, decided: lead.decided }
}

'''+s[b:]
a=s.index('pub fn walk_page('); b=s.index('/// The six entries that such a page publishes')
s=s[:a]+'''
fn walk_plain(page: &[u8], last: usize) -> BestEntries
{
    let finra = walk_finra(page, last);
    let bid = lead_all(page, Side::Bid, last, finra.bid);
    let offer = lead_all(page, Side::Offer, last, finra.offer);
    let odd = Sides { bid: ranking::beyond(Side::Bid, bid.best, odd_all(page, Side::Bid, last, finra.bid)),
      offer: ranking::beyond(Side::Offer, offer.best, odd_all(page, Side::Offer, last, finra.offer)) };
    BestEntries {
        national: Leads { bid, offer },
        finra,
        odd,
    }
}

fn odd_floor(page: &[u8], side: Side, bar: u32) -> u32
{
    keysets::higher(bar, below(keys::key(side, field::get64(page, Page::ENTRIES + 64 + entry_of(side) + 4))))
}

pub fn walk_page(page: &[u8], last: usize) -> BestEntries
{
    if last < Letter::Z {
        return walk_plain(page, last);
    }
    let finra = walk_finra(page, last);
    let top_bid = top_key(page, Side::Bid, finra.bid);
    let top_offer = top_key(page, Side::Offer, finra.offer);
    let bids = keysets::same(page, page::quote_keys(Side::Bid), top_bid);
    let offers = keysets::same(page, page::quote_keys(Side::Offer), top_offer);
    let leads = lead_both(page, with_d(bids, keys::key(Side::Bid, finra.bid.price) == top_bid), with_d(offers, keys::key(Side::Offer, finra.offer.price) == top_offer), top_bid, top_offer, finra);
    if is_lost(Side::Bid, top_bid, bids, leads.bid) {
        return walk_plain(page, last);
    }
    if is_lost(Side::Offer, top_offer, offers, leads.offer) {
        return walk_plain(page, last);
    }
    let fb = odd_floor(page, Side::Bid, top_bid);
    let fo = odd_floor(page, Side::Offer, top_offer);
    let ob = keysets::above(page, page::first_keys(Side::Bid), fb);
    let oo = keysets::above(page, page::first_keys(Side::Offer), fo);
    let bid = led(page, Side::Bid, finra.bid, top_bid, leads.bid);
    let offer = led(page, Side::Offer, finra.offer, top_offer, leads.offer);
    let odd_bid = odd_by(page, Side::Bid, stands(finra.bid), bid.best.price, top_bid, fb, ob);
    let odd_offer = odd_by(page, Side::Offer, stands(finra.offer), offer.best.price, top_offer, fo, oo);
    let odd = Sides { bid: odd_as(odd_bid), offer: odd_as(odd_offer) };
    BestEntries {
        national: Leads { bid, offer },
        finra,
        odd,
    }
}

'''+s[b:]
a=s.index('fn odd_by('); b=s.index('fn odd_slow(')
s=s[:a]+'''fn odd_by(page: &[u8], side: Side, d: bool, best: u64, bar: u32, floor: u32, set: u32) -> Odd
{
    if set == 0 {
        if bar < floor {
            return odd_slow(page, side, d, best, bar);
        }
        return Odd { name: 0, size: 0, price: 0 };
    }
    let i = keysets::lowest(set);
    if keysets::without(set, i) != 0 {
        return odd_slow(page, side, d, best, bar);
    }
    let level = odd_one(page, side, i, d);
    if level.size == 0 {
        return odd_slow(page, side, d, best, bar);
    }
    Odd { name: i + 65, size: level.size, price: level.price }
}

'''+s[b:]
open(p,'w').write(s)
