//! The bytes of a message that are one of a few.

use crate::table::table;

table! {
    /// The condition of a round lot quote. It decides which sides count for the best prices.
    Condition:
    b'A' SlowOffer "Slow on the offer side; both sides count.";
    b'B' SlowBid "Slow on the bid side; both sides count.";
    b'C' Closing "The closing quote; neither side counts.";
    b'E' GapBid "Slow by a gap on the bid side; only the offer counts.";
    b'F' GapOffer "Slow by a gap on the offer side; only the bid counts.";
    b'H' SlowBoth "Slow on both sides; both count.";
    b'N' NonFirm "Not firm; neither side counts.";
    b'O' Opening "The opening quote; both sides count.";
    b'R' Regular "Regular; both sides count.";
    b'U' GapBoth "Slow by a gap on both sides; neither counts.";
    b'W' SlowList "Slow by a list on both sides; both count.";
}

table! {
    /// The condition of a maker's quote.
    MakerCondition:
    b'L' Closed "The maker has closed; neither side counts.";
    b'R' Open "The maker is open; both sides count.";
}

table! {
    /// A symbol's trading status.
    TradingStatus:
    b'H' Halted "Halted: all six entries are none, and quotes go on being stored.";
    b'T' Trading "Trading: the entries come back from what then stands.";
}

table! {
    /// Which of its letter's odd lots a message removes before its own are put in.
    Clear:
    b' ' Nothing "No odd lots are removed.";
    b'B' Bids "All odd bids are removed.";
    b'S' Offers "All odd offers are removed.";
    b'X' Both "All odd bids and odd offers are removed.";
}
