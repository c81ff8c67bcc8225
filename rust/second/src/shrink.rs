//! Making a list of calls that fails short.

use crate::build;
use crate::call::{Call, List};

/// Drops calls, and then messages of blocks, as long as the list still fails.
pub fn shrink(list: &List, fails: impl Fn(&List) -> bool) -> List {
    let mut list = list.clone();
    let mut step = list.calls.len().div_ceil(2);
    while step > 0 {
        let mut end = list.calls.len();
        let mut dropped = false;
        while end > 0 {
            let start = end.saturating_sub(step);
            let mut shorter = list.clone();
            shorter.calls.drain(start..end);
            if fails(&shorter) {
                list = shorter;
                dropped = true;
            }
            end = start;
        }
        if !dropped || step > 1 {
            step /= 2;
        }
    }
    for at in 0..list.calls.len() {
        while let Some(shorter) = drop_message(&list, at, &fails) {
            list = shorter;
        }
    }
    list
}

/// The list with one message less in the block of call `at`, if it then still fails.
fn drop_message(list: &List, at: usize, fails: &impl Fn(&List) -> bool) -> Option<List> {
    let Call::TakeBlock { block, .. } = &list.calls[at] else {
        return None;
    };
    let (sequence, messages) = build::split(block)?;
    if messages.len() < 2 {
        return None;
    }
    (0..messages.len()).find_map(|dropped| {
        let mut fewer = messages.clone();
        fewer.remove(dropped);
        let mut shorter = list.clone();
        if let Call::TakeBlock { block, .. } = &mut shorter.calls[at] {
            *block = build::block(sequence, &fewer);
        }
        fails(&shorter).then_some(shorter)
    })
}
