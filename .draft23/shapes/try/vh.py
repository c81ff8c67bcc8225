import re
p='SCRATCH/v/crates/walk/src/lib.rt'; s=open(p).read()
# led
a=s.index('// The leader as a candidate.'); b=s.index('// A candidate, field by field')
s=s[:a]+'''// The leader as a candidate, by its letter, 0 for none, and what put it ahead.
fn led(page: &[u8], side: Side, finra: Candidate, letter: u32, by: u32) -> Lead
    requires { ⌜ (length (now page) ≡ pageLength) × (LetterOrNone letter) ⌝ }
    ensures { λ r. ⌜ r ≡ ledBy (now (page .entry)) side finra letter by ⌝ }
{
    if letter == 0 {
        return Lead::NONE;
    }
    Lead {
        best: standing(page, letter as usize, side, finra),
        decided: by,
    }
}

'''+s[b:]
a=s.index('// The same for a leader.'); b=s.index('// Both sides\' leaders of the letters A to `last`. Of a whole page')
s=s[:a]+'''// The letter of the leader of all letters A to `last`, 0 for none; that of the letters with the highest key, if that is not hidden.
fn leader(page: &[u8], side: Side, last: usize, finra: Candidate, hidden: bool, letter: u32) -> u32
    requires { ⌜ length (now page) ≡ pageLength ⌝ }
    requires { ⌜ (ascii.A ≤ last) × (last ≤ ascii.Z) ⌝ }
    ensures { λ r. ⌜ r ≡ cond hidden (leadFrom side (standingAt (now (page .entry)) side finra) ascii.A (last + 1 - ascii.A) noLead .best .name) letter ⌝ }
{
    if hidden {
        let lead = lead_all(page, side, last, copied(finra));
        let best = lead.best;
        return best.name;
    }
    letter
}

// What put it ahead.
fn reason(page: &[u8], side: Side, last: usize, finra: Candidate, hidden: bool, by: u32) -> u32
    requires { ⌜ length (now page) ≡ pageLength ⌝ }
    requires { ⌜ (ascii.A ≤ last) × (last ≤ ascii.Z) ⌝ }
    ensures { λ r. ⌜ r ≡ cond hidden (leadFrom side (standingAt (now (page .entry)) side finra) ascii.A (last + 1 - ascii.A) noLead .decided) by ⌝ }
{
    if hidden {
        let lead = lead_all(page, side, last, copied(finra));
        return lead.decided;
    }
    by
}

'''+s[b:]
# leaders
a=s.index('// Both sides\' leaders of the letters A to `last`. Of a whole page'); b=s.index('// The best odd lot among the letters of a set.')
s=s[:a]+'''// Both sides' leaders of the letters A to `last`. Of a whole page only the letters with the highest key are compared: `top_bid` and `top_offer` are keys
// that none is above, `bids` and `offers` the letters that have them.
fn leaders(
    page: &[u8],
    last: usize,
    finra: Sides,
    top_bid: u32,
    top_offer: u32,
    bids: u32,
    offers: u32,
) -> Leads
    requires { ⌜ length (now page) ≡ pageLength ⌝ }
    requires { ⌜ (ascii.A ≤ last) × (last ≤ ascii.Z) ⌝ }
    requires { ⌜ (NoneAbove (keyAt (now page) (quoteKeysAt Bid)) keyCount top_bid) × (keyOf Bid (finra .bid .price) ≤ top_bid) ⌝ }
    requires { ⌜ (NoneAbove (keyAt (now page) (quoteKeysAt Offer)) keyCount top_offer) × (keyOf Offer (finra .offer .price) ≤ top_offer) ⌝ }
    requires { ⌜ bids ≡ setOf (λ i. eqb (keyAt (now page) (quoteKeysAt Bid) i) top_bid) keyCount ⌝ }
    requires { ⌜ offers ≡ setOf (λ i. eqb (keyAt (now page) (quoteKeysAt Offer) i) top_offer) keyCount ⌝ }
    ensures { λ r. ⌜ r ≡ leadersOf (now (page .entry)) last finra ⌝ }
{
    let bid_set = members(bids, keys::key(Side::Bid, finra.bid.price), top_bid);
    let offer_set = members(offers, keys::key(Side::Offer, finra.offer.price), top_offer);
    let bid = leading(page, Side::Bid, bid_set, finra.bid);
    let offer = leading(page, Side::Offer, offer_set, finra.offer);
    let d_bid = stands(finra.bid);
    let d_offer = stands(finra.offer);
    let bid_by = decided(page, Side::Bid, d_bid, bid.letter, bid.decided);
    let offer_by = decided(page, Side::Offer, d_offer, offer.letter, offer.decided);
    let bid_hidden = is_hidden(Side::Bid, last, top_bid, bids, bid.size);
    let offer_hidden = is_hidden(Side::Offer, last, top_offer, offers, offer.size);
    let bid_letter = leader(page, Side::Bid, last, finra.bid, bid_hidden, bid.letter);
    let offer_letter = leader(page, Side::Offer, last, finra.offer, offer_hidden, offer.letter);
    let bid_reason = reason(page, Side::Bid, last, finra.bid, bid_hidden, bid_by);
    let offer_reason = reason(page, Side::Offer, last, finra.offer, offer_hidden, offer_by);
    Leads {
        bid: led(page, Side::Bid, finra.bid, bid_letter, bid_reason),
        offer: led(page, Side::Offer, finra.offer, offer_letter, offer_reason),
    }
}

'''+s[b:]
# is_hidden
a=s.index('// Whether all letters have to be looked at'); b=s.index('// The leader as a candidate, by its letter')
s=s[:a]+'''// Whether all letters have to be looked at: the walk stops before Z, the highest key tells no price, D's own slot has it, or nobody counts who has it.
fn is_hidden(side: Side, last: usize, top: u32, same: u32, size: u32) -> bool
    ensures { λ r. ⌜ r ≡ isHidden side last top same size ⌝ }
{
    if last < Letter::Z {
        return true;
    }
    if top == 0 {
        return false;
    }
    if top == full(side) {
        return true;
    }
    if has_d(same) {
        return true;
    }
    size == 0
}

'''+s[b:]
# walk_odd
s=s.replace('''fn walk_odd(page: &[u8], last: usize, finra: Sides, bid: Candidate, offer: Candidate) -> Sides
    requires { ⌜ length (now page) ≡ pageLength ⌝ }
    requires { ⌜ (ascii.A ≤ last) × (last ≤ ascii.Z) ⌝ }''','''fn walk_odd(
    page: &[u8],
    last: usize,
    finra: Sides,
    bid: Candidate,
    offer: Candidate,
    guess: Guesses,
) -> Sides
    requires { ⌜ length (now page) ≡ pageLength ⌝ }
    requires { ⌜ (ascii.A ≤ last) × (last ≤ ascii.Z) ⌝ }
    requires { ⌜ guess .bids ≡ setOf (λ i. ltb (guess .bid) (keyAt (now page) (firstKeysAt Bid) i)) keyCount ⌝ }
    requires { ⌜ guess .offers ≡ setOf (λ i. ltb (guess .offer) (keyAt (now page) (firstKeysAt Offer) i)) keyCount ⌝ }''')
open(p,'w').write(s)
