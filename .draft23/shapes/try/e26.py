p='SCRATCH/e26/crates/walk/src/lib.rt'; s=open(p).read()
s=s.replace('''    if is_plain(side, last, top, same, who) {
        return lead_all(page, side, last, finra);
    }
    let best = read_at''','''    if last < Letter::Z {
        return lead_all(page, side, last, finra);
    }
    if is_plain(side, top, same, who) {
        return lead_all(page, side, last, finra);
    }
    let best = read_at''').replace('''fn is_plain(side: Side, last: usize, top: u32, same: u32, who: u32) -> bool
{
    if last < Letter::Z {
        return true;
    }
''','''fn is_plain(side: Side, top: u32, same: u32, who: u32) -> bool
{
''')
open(p,'w').write(s)
