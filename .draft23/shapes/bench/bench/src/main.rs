#![allow(dead_code)]
mod books;
#[path = "CHECKOUT/rust/bench/src/market.rs"] mod market;
#[path = "CHECKOUT/rust/bench/src/replay.rs"] mod replay;
#[path = "CHECKOUT/rust/bench/src/stream.rs"] mod stream;
use stream::{Kind, Size, Stream};
use books::Timed;
fn sum(rounds:&[Vec<u64>], place:usize)->u64 { (0..rounds[0].len()).map(|i|{ let mut t:Vec<u64>=rounds.iter().map(|r|r[i]).collect(); t.sort_unstable(); t[place] }).sum() }
fn main(){
  let a:Vec<String>=std::env::args().skip(1).collect();
  if a.first().map(String::as_str)==Some("alone") { let name=&a[1]; let n:usize=a[2].parse().unwrap(); let r:usize=a[3].parse().unwrap(); let size=if a.len()>4 {Size::Fixed(1)} else {Size::Full}; let s=Stream::new(n,Kind::Mixed,size,20000); for (nm,mut b) in books::all(n as u32) { if nm==name { b.set_up(&s); let mut o=Vec::new(); for _ in 0..r { b.slices(&s,&mut o); } } } return; }
  let rounds:usize=a.first().map_or(21,|x|x.parse().unwrap());
  let only:Vec<&str>=a.iter().skip(1).map(|x|x.as_str()).filter(|x|!x.starts_with('-')).collect();
  let lat=a.iter().any(|x|x=="-lat"); let one=!a.iter().any(|x|x=="-64");
  let mut cols:Vec<(String,Vec<(String,f64,f64)>)>=Vec::new();
  let mut sets=vec![(64,Size::Full,"full 64")]; if one { sets.push((1,Size::Full,"full 1")); sets.push((64,Size::Fixed(1),"single 64")); }
  for (n,size,name) in sets { let s=Stream::new(n,Kind::Mixed,size,20000);
    let mut bs:Vec<(&str,Box<dyn Timed>)>=books::all(n as u32).into_iter().filter(|b|only.is_empty()||b.0=="Incremental"||b.0=="Engine"||only.contains(&b.0)).collect();
    for b in &mut bs { b.1.set_up(&s); }
    let want=bs[0].1.answers(&s);
    for b in &mut bs { let got=b.1.answers(&s); let bad=got.iter().zip(&want).filter(|(x,y)|x!=y).count(); if bad>0 { println!("{name}: {} differs in {bad} of {}",b.0,want.len()); } }
    let mut seen=vec![Vec::new();bs.len()]; let k=bs.len();
    for t in 0..k*rounds { let i=(t+t/k)%k; let mut o=Vec::new(); bs[i].1.slices(&s,&mut o); seen[i].push(o); }
    let m=s.messages() as f64;
    cols.push((name.into(),bs.iter().zip(&seen).map(|(b,r)|(b.0.to_string(),sum(r,0) as f64/m,sum(r,rounds/2) as f64/m)).collect()));
    if lat && name=="single 64" { println!("p50 p99 p99.9, single 64"); let clock=replay::clock_cost(); let mut v:Vec<[Vec<u64>;3]>=vec![Default::default();k];
      for t in 0..k*rounds { let i=(t+t/k)%k; let mut o=Vec::new(); bs[i].1.calls(&s,&mut o); o.sort_unstable(); for (j,p) in [500,990,999].iter().enumerate(){ v[i][j].push(o[o.len()*p/1000].saturating_sub(clock)); } }
      for (b,v) in bs.iter().zip(&mut v) { let q:Vec<String>=v.iter_mut().map(|x|{x.sort_unstable(); format!("{} ({})",x[x.len()/2],x[0])}).collect(); println!("{:14} {}",b.0,q.join("  ")); } }
  }
  for (name,_) in &cols { print!("{name:>34}"); } println!();
  for i in 0..cols[0].1.len() { print!("{:14}",cols[0].1[i].0); for (_,c) in &cols { let inc=c[1].1; let incm=c[1].2; print!("  {:6.1} ({:6.1})  {:.2} ({:.2})   ",c[i].1,c[i].2,c[i].1/inc,c[i].2/incm); } println!(); }
  println!("ns a message: fastest slices (middle), then the ratio to Incremental");
}
