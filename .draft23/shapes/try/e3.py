import re
d='SCRATCH/e3/crates/'
p=d+'page/src/lib.rt'; s=open(p).read()
s=s.replace('pub const LEN: usize = Page::KEYS + 4 * Page::KEY_ROW;','pub const MAKER_KEYS: usize = Page::KEYS + 4 * Page::KEY_ROW;\n\n    pub const LEN: usize = Page::MAKER_KEYS + 128;')
s+='''
pub fn maker_keys(side: Side) -> usize
{
    match side {
        Side::Bid => Page::MAKER_KEYS,
        Side::Offer => Page::MAKER_KEYS + 64,
    }
}
'''
open(p,'w').write(s)
p=d+'keysets/src/lib.rt'; s=open(p).read()
def cut(name):
    m=re.search(r'pub fn '+name+r'\(.*?\n}\n',s,re.S); return m.group(0)
for n in ('top','same'):
    t=cut(n).replace('pub fn '+n,'pub fn '+n+'16').replace('Keys::COUNT','16')
    t=re.sub(r'    (requires|ensures) \{.*\n','',t)
    s+='\n'+t
open(p,'w').write(s)
p=d+'makers/src/lib.rt'; s=open(p).read()
s=s.replace('''        clear(page, at, at + Cell::LEN);
        return;''','''        clear(page, at, at + Cell::LEN);
        put_keys(page, k, quote);
        return;''').replace('''    quote.put(page, at + Cell::QUOTE);
}''','''    quote.put(page, at + Cell::QUOTE);
    put_keys(page, k, quote);
}

fn put_keys(page: &mut [u8], k: usize, quote: Quote)
{
    let bid = keys::quote_key(Side::Bid, quote.condition, quote.bid);
    let offer = keys::quote_key(Side::Offer, quote.condition, quote.offer);
    field::put_low32(page, page::maker_keys(Side::Bid) + 4 * k, bid);
    field::put_low32(page, page::maker_keys(Side::Offer) + 4 * k, offer);
}''').replace('''        field::put8(page, page::cell_at(k) + Cell::QUOTE, condition);''','''        field::put8(page, page::cell_at(k) + Cell::QUOTE, condition);
        let quote = Quote::get(page, page::cell_at(k) + Cell::QUOTE);
        put_keys(page, k, quote);''').replace('use quote::Quote;','use quote::Quote;\nuse ranking::Side;')
open(p,'w').write(s)
p=d+'walk/src/lib.rt'; s=open(p).read()
i=s.index('// The best of the makers, both sides.'); j=s.index('// The FINRA best of a walk')
s=s[:i]+'''
fn maker(page: &[u8], side: Side, k: usize) -> Candidate
{
    let at = page::cell_at(k);
    let level = Level::get(page, at + Cell::QUOTE + page::in_quote(side));
    let condition = field::get8(page, at + Cell::QUOTE);
    Candidate { name: field::get32(page, at), price: level.price, size: level.size, time: level.time, condition: condition as u32 }
}

fn best_maker(page: &[u8], side: Side, set: u32, top: u32) -> usize
{
    let mut left = set;
    let mut place: usize = 16;
    let mut size: u32 = 0;
    let mut time: u64 = 0;
    let mut name: u32 = 0;
    while left != 0 {
        let i = keysets::lowest(left);
        left = keysets::without(left, i);
        let c = maker(page, side, i as usize);
        if keys::quote_key(side, c.condition as u8, Level { price: c.price, size: c.size, time: c.time }) == top {
            let mut ahead = size < c.size;
            if size == c.size {
                if time == c.time {
                    ahead = c.name < name;
                } else {
                    ahead = c.time < time;
                }
            }
            if ahead {
                place = i as usize;
                size = c.size;
                time = c.time;
                name = c.name;
            }
        }
    }
    place
}

fn side_makers(page: &[u8], side: Side) -> Candidate
{
    let top = keysets::top16(page, page::maker_keys(side));
    if top == 0 {
        return Candidate::NONE;
    }
    let same = keysets::same16(page, page::maker_keys(side), top);
    let k = best_maker(page, side, same, top);
    if k == 16 {
        return Candidate::NONE;
    }
    maker(page, side, k)
}

fn walk_makers(page: &[u8]) -> Sides
{
    let bid = side_makers(page, Side::Bid);
    let offer = side_makers(page, Side::Offer);
    Sides { bid, offer }
}

'''+s[j:]
open(p,'w').write(s)
