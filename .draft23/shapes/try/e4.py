d='SCRATCH/e4/crates/'
p=d+'walk/src/lib.rt'; s=open(p).read()
i=s.index('// One maker cell more, both sides.'); j=s.index('// The FINRA best of a walk')
s=s[:i]+'''
struct Spot {
    rank: u64,
    size: u32,
    place: u32,
}

fn is_earlier(page: &[u8], side: Side, k: usize, old: usize) -> bool
{
    let at = page::cell_at(k);
    let to = page::cell_at(old);
    let time = field::low64(page, at + Cell::QUOTE + page::in_quote(side) + 12);
    let before = field::low64(page, to + Cell::QUOTE + page::in_quote(side) + 12);
    if time == before {
        return field::get32(page, at) < field::get32(page, to);
    }
    time < before
}

fn with_spot(page: &[u8], side: Side, k: usize, best: Spot) -> Spot
{
    let level = page::cell_at(k) + Cell::QUOTE + page::in_quote(side);
    let price = field::low64(page, level);
    let rank = ranking::rank(side, price);
    if rank < best.rank {
        return best;
    }
    let size = field::low32(page, level + 8);
    if size == 0 {
        return best;
    }
    if rank == best.rank {
        if price == 0 {
            return best;
        }
        if size < best.size {
            return best;
        }
        if size == best.size {
            if !is_earlier(page, side, k, best.place as usize) {
                return best;
            }
        }
    }
    Spot { rank, size, place: k as u32 }
}

fn maker_of(page: &[u8], side: Side, spot: Spot) -> Candidate
{
    if spot.rank == 0 {
        return Candidate::NONE;
    }
    let at = page::cell_at(spot.place as usize);
    Candidate { name: field::get32(page, at), price: ranking::rank(side, spot.rank), size: spot.size, time: field::low64(page, at + Cell::QUOTE + page::in_quote(side) + 12), condition: 0x52 }
}

fn walk_makers(page: &[u8]) -> Sides
{
    let mut bid = Spot { rank: 0, size: 0, place: 0 };
    let mut offer = Spot { rank: 0, size: 0, place: 0 };
    for k in 0..Page::MAKERS {
        if field::get8(page, page::cell_at(k) + Cell::QUOTE) == b'R' {
            bid = with_spot(page, Side::Bid, k, bid);
            offer = with_spot(page, Side::Offer, k, offer);
        }
    }
    Sides { bid: maker_of(page, Side::Bid, bid), offer: maker_of(page, Side::Offer, offer) }
}

'''+s[j:]
open(p,'w').write(s)
