import re
p='SCRATCH/v/crates/walk/src/lib.rt'; s=open(p).read()
a=s.index('// The best odd lots beyond the national bests, both sides.'); b=s.index('/// The six best entries of a page whose letters behind')
s=s[:a]+'''// The higher of a guess and a bar.
fn raised(floor: u32, bar: u32) -> u32
    ensures { λ r. ⌜ (r ≡ raisedTo floor bar) × (bar ≤ r) ⌝ }
{
    if floor < bar {
        return bar;
    }
    floor
}

// The letters above both, where `set` are those above the guess. It is below the bar only where the highest key was hidden.
fn above_both(page: &[u8], side: Side, bar: u32, floor: u32, set: u32) -> u32
    requires { ⌜ length (now page) ≡ pageLength ⌝ }
    requires { ⌜ set ≡ setOf (λ i. ltb floor (keyAt (now page) (firstKeysAt side) i)) keyCount ⌝ }
    ensures { λ r. ⌜ r ≡ setOf (λ i. ltb (raisedTo floor bar) (keyAt (now (page .entry)) (firstKeysAt side) i)) keyCount ⌝ }
{
    if floor < bar {
        return keysets::above(page, page::first_keys(side), bar);
    }
    set
}

// The best odd lots beyond the national bests, both sides: `bids` and `offers` are the letters with a key above a guess, which may be any number.
fn walk_odd(
    page: &[u8],
    last: usize,
    finra: Sides,
    bid: Candidate,
    offer: Candidate,
    floor_bid: u32,
    floor_offer: u32,
    bids: u32,
    offers: u32,
) -> Sides
    requires { ⌜ length (now page) ≡ pageLength ⌝ }
    requires { ⌜ (ascii.A ≤ last) × (last ≤ ascii.Z) ⌝ }
    requires { ⌜ bids ≡ setOf (λ i. ltb floor_bid (keyAt (now page) (firstKeysAt Bid) i)) keyCount ⌝ }
    requires { ⌜ offers ≡ setOf (λ i. ltb floor_offer (keyAt (now page) (firstKeysAt Offer) i)) keyCount ⌝ }
    ensures { λ r. ⌜ (r .bid ≡ beyondOf Bid bid (bestFrom Bid (askedOf (firstBy (now (page .entry)) Bid (live (finra .bid)))) ascii.A (last + 1 - ascii.A) noCandidate)) × (r .offer ≡ beyondOf Offer offer (bestFrom Offer (askedOf (firstBy (now (page .entry)) Offer (live (finra .offer)))) ascii.A (last + 1 - ascii.A) noCandidate)) ⌝ }
{
    if last < Letter::Z {
        return Sides {
            bid: odd_stopped(page, Side::Bid, last, finra.bid, bid),
            offer: odd_stopped(page, Side::Offer, last, finra.offer, offer),
        };
    }
    let bar_bid = keys::bar(Side::Bid, bid.price);
    let bar_offer = keys::bar(Side::Offer, offer.price);
    let bid_set = above_both(page, Side::Bid, bar_bid, floor_bid, bids);
    let offer_set = above_both(page, Side::Offer, bar_offer, floor_offer, offers);
    let bid_floor = raised(floor_bid, bar_bid);
    let offer_floor = raised(floor_offer, bar_offer);
    let d_bid = stands(finra.bid);
    let d_offer = stands(finra.offer);
    let odd_bid = odd_by(page, Side::Bid, d_bid, bar_bid, bid_floor, bid_set) as usize;
    let odd_offer = odd_by(page, Side::Offer, d_offer, bar_offer, offer_floor, offer_set) as usize;
    Sides {
        bid: ranking::beyond(Side::Bid, bid, odd_at(page, Side::Bid, odd_bid)),
        offer: ranking::beyond(Side::Offer, offer, odd_at(page, Side::Offer, odd_offer)),
    }
}

'''+s[b:]
s=s.replace('''    let national = leaders(page, last, finra);
    let odd = walk_odd(page, last, finra, national.bid.best, national.offer.best);
''','''    let top_bid = top_key(page, Side::Bid, finra.bid);
    let top_offer = top_key(page, Side::Offer, finra.offer);
    let bids = keysets::same(page, page::quote_keys(Side::Bid), top_bid);
    let offers = keysets::same(page, page::quote_keys(Side::Offer), top_offer);
    let floor_bid = odd_floor(page, Side::Bid, top_bid);
    let floor_offer = odd_floor(page, Side::Offer, top_offer);
    let odd_bids = keysets::above(page, page::first_keys(Side::Bid), floor_bid);
    let odd_offers = keysets::above(page, page::first_keys(Side::Offer), floor_offer);
    let national = leaders(page, last, finra, top_bid, top_offer, bids, offers);
    let odd = walk_odd(
        page,
        last,
        finra,
        national.bid.best,
        national.offer.best,
        floor_bid,
        floor_offer,
        odd_bids,
        odd_offers,
    );
''')
s=s.replace('''// The bar, or one less than the key of the entry if that is higher.
fn odd_floor(page: &[u8], side: Side, bar: u32) -> u32
    requires { ⌜ length (now page) ≡ pageLength ⌝ }
    ensures { λ r. ⌜ bar ≤ r ⌝ }
''','''// The guess: the highest key of the quotes, or one less than the key of the odd-lot entry if that is higher. Any number would do.
fn odd_floor(page: &[u8], side: Side, bar: u32) -> u32
    requires { ⌜ length (now page) ≡ pageLength ⌝ }
''')
s=s.replace('InLetters, ledBy, leadersOf, storedFirst, oddAbove, LetterOrNone, markOf};','ledBy, leadersOf, storedFirst, oddAbove, LetterOrNone, markOf, raisedTo};')
open(p,'w').write(s)
