// Measures the proved walk beside the same walk in C over the same bytes: 64 pages picked at random, 16 letters quoting, a third of them
// with odd lots, 4 makers, all with their own keys; nanoseconds for each walk, lowest and median of interleaved rounds. First both are compared on such pages
// and on pages of any bytes, most sides of half of them with their own keys, also stopped behind each letter (T-04), where the C walk gets a page without the later letters.
use std::time::Instant;

extern "C" {
    fn rt_walk(page: *const u8, len: usize) -> u64;
    fn rt_walk_to(page: *const u8, len: usize, last: usize) -> u64;
    fn rt_renew(page: *mut u8, len: usize) -> u8;
    fn c_walk(page: *const u8) -> u64;
    fn c_renew(page: *mut u8) -> u8;
}

const STATUS: usize = 6306;
const KEYS: usize = 6307;
const LEN: usize = 6723;

struct Random(u64);

impl Random {
    fn next(&mut self) -> u64 {
        self.0 ^= self.0 << 13;
        self.0 ^= self.0 >> 7;
        self.0 ^= self.0 << 17;
        self.0.wrapping_mul(0x2545F4914F6CDD1D) >> 11
    }
    fn below(&mut self, n: u64) -> u64 {
        self.next() % n
    }
}

fn level(page: &mut [u8], at: usize, price: u64, size: u64, time: u64) {
    page[at..at + 8].copy_from_slice(&price.to_le_bytes());
    page[at + 8..at + 12].copy_from_slice(&(size as u32).to_le_bytes());
    page[at + 12..at + 20].copy_from_slice(&time.to_le_bytes());
}

fn quote(r: &mut Random, page: &mut [u8], at: usize, condition: u8) {
    page[at] = condition;
    let (bid, offer) = (10_000_000 - 10_000 * r.below(8), 10_010_000 + 10_000 * r.below(8));
    let time = r.below(1 << 40);
    level(page, at + 1, bid, 1 + r.below(20), time);
    level(page, at + 21, offer, 1 + r.below(20), time);
}

// of so many of a hundred sides the key becomes its own: of a bid the price, at most 2^32 - 1, of an offer 2^32 less that, 0 if the side does not count
fn give_keys(r: &mut Random, page: &mut [u8], percent: u64) {
    for l in 0..26 {
        let slot = 360 + l * 201;
        let c = page[slot];
        let (both, bid, offer) = (b"ABHORW".contains(&c), c == b'F', c == b'E');
        for (row, (at, counts)) in [(1, both || bid), (21, both || offer), (41, true), (121, true)].into_iter().enumerate() {
            let level = &page[slot + at..slot + at + 12];
            let price = u64::from_le_bytes(level[..8].try_into().unwrap()).min(u32::MAX as u64) as u32;
            let key = if row % 2 == 0 { price } else { price.wrapping_neg() };
            let key = if counts && level[8..] != [0; 4] { key } else { 0 };
            if r.below(100) < percent {
                let to = KEYS + 104 * row + 4 * l;
                page[to..to + 4].copy_from_slice(&key.to_le_bytes());
            }
        }
    }
}

fn made(r: &mut Random) -> Vec<u8> {
    let mut page = vec![0u8; LEN];
    let mut letters: Vec<usize> = (0..26).filter(|l| *l != 3 && *l != 18).collect();
    for i in 0..16 {
        let j = i + r.below((letters.len() - i) as u64) as usize;
        letters.swap(i, j);
    }
    for (i, l) in letters[..16].iter().enumerate() {
        let at = 360 + l * 201;
        let condition = if r.below(8) == 0 { b"ABHOWEFCNU"[r.below(10) as usize] } else { b'R' };
        quote(r, &mut page, at, condition);
        if i % 3 == 0 {
            for k in 0..4 {
                level(&mut page, at + 41 + 20 * k, 10_020_000 - 10_000 * (r.below(3) + 3 * k as u64), 1 + r.below(99), r.below(1 << 40));
                level(&mut page, at + 121 + 20 * k, 9_990_000 + 10_000 * (r.below(3) + 3 * k as u64), 1 + r.below(99), r.below(1 << 40));
            }
        }
    }
    for k in 0..4 {
        let at = 5586 + k * 45;
        for b in 0..4 {
            page[at + b] = b'A' + r.below(26) as u8;
        }
        quote(r, &mut page, at + 4, b'R');
    }
    give_keys(r, &mut page, 100);
    page
}

// pages of any bytes, with prices of one byte, the lowest or the highest, so that ties and zeros are met
fn any(r: &mut Random) -> Vec<u8> {
    let most = [2, 3, 256, 100][r.below(4) as usize];
    let mut page: Vec<u8> = (0..LEN).map(|_| r.below(most) as u8).collect();
    if r.below(4) == 0 {
        page[STATUS] = b'H'; // halted
    }
    let first = 1 - r.below(2) as usize;
    for at in (0..26).map(|l| 360 + l * 201).chain((0..16).map(|k| 5590 + k * 45)) {
        page[at] = b"ABHOWEFCNURRRRRLL\0"[r.below(18) as usize];
        for side in 0..2 {
            for b in first..first + 7 {
                page[at + 1 + 20 * side + b] = 0;
                if at < 5586 {
                    page[at + 41 + 80 * side + b] = 0;
                }
            }
        }
    }
    let percent = [100, 90, 50, 0][r.below(4) as usize];
    give_keys(r, &mut page, percent);
    page
}

/// The page on which the letters behind `last` hold nothing, D with its makers among them.
fn cut(page: &[u8], last: u8) -> Vec<u8> {
    let mut page = page.to_vec();
    page[360 + usize::from(last + 1 - b'A') * 201..5586].fill(0);
    if last < b'D' {
        page[5586..STATUS].fill(0);
    }
    page
}

fn compare(r: &mut Random) {
    for turn in 0..20_000 {
        let page = if turn % 4 == 0 { made(r) } else { any(r) };
        let (mut a, mut b) = (page.clone(), page.clone());
        unsafe {
            assert_eq!(rt_walk(page.as_ptr(), LEN), c_walk(page.as_ptr()), "walk, page {turn}");
            assert_eq!(rt_renew(a.as_mut_ptr(), LEN), c_renew(b.as_mut_ptr()), "flags, page {turn}");
            assert_eq!(a, b, "bytes, page {turn}");
            assert_eq!(rt_renew(a.as_mut_ptr(), LEN), 0, "again, page {turn}");
            for last in b'A'..=b'Z' {
                let stopped = rt_walk_to(page.as_ptr(), LEN, usize::from(last));
                assert_eq!(stopped, c_walk(cut(&page, last).as_ptr()), "stopped behind {last}, page {turn}");
            }
        }
    }
}

fn rounds(name: &str, turns: &[usize], mut rt: impl FnMut(usize) -> u64, mut c: impl FnMut(usize) -> u64) {
    let (mut a, mut b, mut sink) = (vec![], vec![], 0u64);
    for round in 0..2001 {
        let mut time = |f: &mut dyn FnMut(&[usize]) -> u64, to: &mut Vec<f64>| {
            let began = Instant::now();
            sink = sink.wrapping_add(f(turns));
            if round > 0 {
                to.push(began.elapsed().as_nanos() as f64 / turns.len() as f64);
            }
        };
        time(&mut |t| t.iter().fold(0, |s, k| s.wrapping_add(rt(*k))), &mut a);
        time(&mut |t| t.iter().fold(0, |s, k| s.wrapping_add(c(*k))), &mut b);
    }
    let mut ratios: Vec<f64> = a.iter().zip(&b).map(|(x, y)| x / y).collect();
    a.sort_by(f64::total_cmp);
    b.sort_by(f64::total_cmp);
    ratios.sort_by(f64::total_cmp);
    let m = a.len() / 2;
    println!(
        "{name}: Rattle {:.0} ns lowest, {:.0} median; C {:.0} lowest, {:.0} median; ratio {:.3} of the lowest, {:.3} round by round ({})",
        a[0], a[m], b[0], b[m], a[0] / b[0], ratios[m], sink % 2
    );
}

fn main() {
    let mut r = Random(0x9E3779B97F4A7C15);
    compare(&mut r);
    println!("20000 pages agree, stopped behind each letter too");
    let mut pages: Vec<Vec<u8>> = (0..64).map(|_| made(&mut r)).collect();
    let turns: Vec<usize> = (0..4096).map(|_| r.below(64) as usize).collect();
    let at: Vec<*mut u8> = pages.iter_mut().map(|p| p.as_mut_ptr()).collect();
    rounds("walk", &turns, |k| unsafe { rt_walk(at[k], LEN) }, |k| unsafe { c_walk(at[k]) });
    rounds("renew", &turns, |k| unsafe { rt_renew(at[k], LEN) as u64 }, |k| unsafe { c_renew(at[k]) as u64 });
}
