p='SCRATCH/e13/crates/walk/src/lib.rt'; s=open(p).read()
a=s.index('struct Lead2 {'); b=s.index('// Whether a letter other than the leader counts.\nfn others')
s=s[:a]+'''
struct Mark {
    key: u32,
    size: u32,
    time: u64,
    place: u32,
    decided: u32,
}

struct Marks {
    bid: Mark,
    offer: Mark,
}

// What a letter has on a side: key, size, time; key 0 if it does not count.
fn read_mark(page: &[u8], side: Side, i: u32, d: Mark) -> Mark
{
    if i == 3 {
        return d;
    }
    let letter = Letter::A + i as usize;
    let at = page::slot_at(letter);
    let level = Level::get(page, at + page::in_quote(side));
    let key = keys::quote_key(side, field::get8(page, at), level);
    if field::low32(page, page::quote_key_at(side, letter)) == key {
        return Mark { key, size: level.size, time: level.time, place: i + 65, decided: 0 };
    }
    Mark { key: 0, size: 0, time: 0, place: 0, decided: 0 }
}

fn lead_mark(best: Mark, x: Mark) -> Mark
{
    if x.key == 0 {
        return best;
    }
    let mut ahead = best.key < x.key;
    let mut by: u32 = 1;
    if x.key == best.key {
        ahead = best.size < x.size;
        by = 2;
        if x.size == best.size {
            ahead = x.time < best.time;
            by = 3;
            if x.time == best.time {
                by = 4;
            }
        }
    }
    if ahead {
        if best.key == 0 {
            return x;
        }
        return Mark { key: x.key, size: x.size, time: x.time, place: x.place, decided: by };
    }
    Mark { key: best.key, size: best.size, time: best.time, place: best.place, decided: keysets::higher(best.decided, by) }
}

fn with_letter(page: &[u8], side: Side, set: u32, i: u32, d: Mark, best: Mark) -> Mark
{
    if (set >> i) % 2 == 0 {
        return best;
    }
    lead_mark(best, read_mark(page, side, i, d))
}

fn lead_both(page: &[u8], bids: u32, offers: u32, d: Marks) -> Marks
{
    let mut left = bids | offers;
    let mut bid = Mark { key: 0, size: 0, time: 0, place: 0, decided: 0 };
    let mut offer = Mark { key: 0, size: 0, time: 0, place: 0, decided: 0 };
    while left != 0 {
        let i = keysets::lowest(left);
        left = keysets::without(left, i);
        bid = with_letter(page, Side::Bid, bids, i, d.bid, bid);
        offer = with_letter(page, Side::Offer, offers, i, d.offer, offer);
    }
    Marks { bid, offer }
}

fn d_mark(side: Side, finra: Candidate) -> Mark
{
    Mark { key: keys::key(side, finra.price), size: finra.size, time: finra.time, place: 68, decided: 0 }
}

'''+s[b:]
a=s.index('fn national(page'); b=s.index('fn copied(')
s=s[:a]+'''
fn led(page: &[u8], side: Side, finra: Candidate, set: u32, lead: Mark) -> Lead
{
    if has_d(set) {
        return lead_all(page, side, Letter::Z, copied(finra));
    }
    if lead.key == 0 {
        return lead_all(page, side, Letter::Z, copied(finra));
    }
    if lead.key == full(side) {
        return lead_all(page, side, Letter::Z, copied(finra));
    }
    let best = Candidate { name: lead.place, price: unkey(side, lead.key), size: lead.size, time: lead.time, condition: condition_of(page, lead.place, finra.condition) };
    if lead.decided == 0 {
        if others(page, side, stands(finra), lead.place) {
            return Lead { best, decided: 1 };
        }
    }
    Lead { best, decided: lead.decided }
}

'''+s[b:]
s=s.replace('''    let bid = national(page, Side::Bid, finra.bid, bb, qb);
    let offer = national(page, Side::Offer, finra.offer, bo, qo);
''','''    let d_bid = d_mark(Side::Bid, finra.bid);
    let d_offer = d_mark(Side::Offer, finra.offer);
    let d = Marks { bid: d_bid, offer: d_offer };
    let leads = lead_both(page, with_d(qb, bb < d_bid.key), with_d(qo, bo < d_offer.key), d);
    let bid = led(page, Side::Bid, finra.bid, qb, leads.bid);
    let offer = led(page, Side::Offer, finra.offer, qo, leads.offer);
''')
open(p,'w').write(s)
