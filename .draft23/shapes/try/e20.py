p='SCRATCH/e20/crates/walk/src/lib.rt'; s=open(p).read()
s=s.replace('''fn walk_plain(page: &[u8], last: usize) -> BestEntries
{
    let finra = walk_finra(page, last);
''','''fn walk_plain(page: &[u8], last: usize, finra: Sides) -> BestEntries
{
''')
s=s.replace('''    if last < Letter::Z {
        return walk_plain(page, last);
    }
    let finra = walk_makers(page);
''','''    let finra = walk_finra(page, last);
    if last < Letter::Z {
        return walk_plain(page, last, both(finra));
    }
''').replace('return walk_plain(page, last);','return walk_plain(page, last, both(finra));')
s=s.replace('fn walk_plain(','''fn both(s: Sides) -> Sides
{
    Sides { bid: copied(s.bid), offer: copied(s.offer) }
}

fn walk_plain(''')
open(p,'w').write(s)
