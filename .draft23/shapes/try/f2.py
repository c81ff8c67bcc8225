import re
d='SCRATCH/f2/crates/'
p=d+'page/src/lib.rt'; s=open(p).read()
s=s.replace('    pub const LEN: usize = Page::CONDITIONS + 26;','''    pub const MAKER_KEYS: usize = Page::CONDITIONS + 26;

    pub const MAKER_SIZES: usize = Page::MAKER_KEYS + 2 * Page::KEY_ROW;

    pub const LEN: usize = Page::MAKER_SIZES + 128;''')
s+='''
pub fn maker_keys(side: Side) -> usize
{
    match side {
        Side::Bid => Page::MAKER_KEYS,
        Side::Offer => Page::MAKER_KEYS + Page::KEY_ROW,
    }
}

pub fn maker_sizes(side: Side) -> usize
{
    match side {
        Side::Bid => Page::MAKER_SIZES,
        Side::Offer => Page::MAKER_SIZES + 64,
    }
}
'''
open(p,'w').write(s)
p=d+'makers/src/lib.rt'; s=open(p).read()
s=s.replace('''        clear(page, at, at + Cell::LEN);
        return;''','''        clear(page, at, at + Cell::LEN);
        put_keys(page, k, quote);
        return;''').replace('''    quote.put(page, at + Cell::QUOTE);
}''','''    quote.put(page, at + Cell::QUOTE);
    put_keys(page, k, quote);
}

fn put_keys(page: &mut [u8], k: usize, quote: Quote)
{
    let bid = keys::quote_key(Side::Bid, quote.condition, quote.bid);
    let offer = keys::quote_key(Side::Offer, quote.condition, quote.offer);
    field::put_low32(page, page::maker_keys(Side::Bid) + 4 * k, bid);
    field::put_low32(page, page::maker_keys(Side::Offer) + 4 * k, offer);
    field::put_low32(page, page::maker_sizes(Side::Bid) + 4 * k, quote.bid.size);
    field::put_low32(page, page::maker_sizes(Side::Offer) + 4 * k, quote.offer.size);
}''').replace('''        field::put8(page, page::cell_at(k) + Cell::QUOTE, condition);''','''        field::put8(page, page::cell_at(k) + Cell::QUOTE, condition);
        let quote = Quote::get(page, page::cell_at(k) + Cell::QUOTE);
        put_keys(page, k, quote);''').replace('use quote::Quote;','use quote::Quote;\nuse ranking::Side;')
open(p,'w').write(s)
p=d+'walk/src/lib.rt'; s=open(p).read()
a=s.index('// The best of the makers, both sides.'); b=s.index('// The FINRA best of a walk')
s=s[:a]+'''
fn maker_before(page: &[u8], side: Side, k: usize, other: usize) -> bool
{
    let at = page::cell_at(k);
    let to = page::cell_at(other);
    let time = field::low64(page, at + Cell::QUOTE + page::in_quote(side) + 12);
    let before = field::low64(page, to + Cell::QUOTE + page::in_quote(side) + 12);
    if time == before {
        return field::get32(page, at) < field::get32(page, to);
    }
    time < before
}

fn top_maker(page: &[u8], side: Side, set: u32) -> u32
{
    let mut left = set;
    let mut cell: u32 = 0;
    let mut size: u32 = 0;
    while left != 0 {
        let i = keysets::lowest(left);
        left = keysets::without(left, i);
        let next = field::low32(page, page::maker_sizes(side) + 4 * i as usize);
        let mut ahead = size < next;
        if size == next {
            ahead = maker_before(page, side, i as usize, cell as usize);
        }
        if ahead {
            cell = i;
            size = next;
        }
    }
    cell
}

fn maker_at(page: &[u8], side: Side, top: u32, cell: u32) -> Candidate
{
    if top == 0 {
        return Candidate::NONE;
    }
    let at = page::cell_at(cell as usize);
    Candidate {
        name: field::get32(page, at),
        price: unkey(side, top),
        size: field::low32(page, page::maker_sizes(side) + 4 * cell as usize),
        time: field::low64(page, at + Cell::QUOTE + page::in_quote(side) + 12),
        condition: b'R' as u32,
    }
}

fn none_if(top: u32, set: u32) -> u32
{
    if top == 0 {
        return 0;
    }
    set
}

fn walk_makers(page: &[u8]) -> Sides
{
    let tb = keysets::top(page, page::maker_keys(Side::Bid));
    let to = keysets::top(page, page::maker_keys(Side::Offer));
    let sb = none_if(tb, keysets::same(page, page::maker_keys(Side::Bid), tb));
    let so = none_if(to, keysets::same(page, page::maker_keys(Side::Offer), to));
    let bid = top_maker(page, Side::Bid, sb);
    let offer = top_maker(page, Side::Offer, so);
    Sides {
        bid: maker_at(page, Side::Bid, tb, bid),
        offer: maker_at(page, Side::Offer, to, offer),
    }
}

'''+s[b:]
open(p,'w').write(s)
