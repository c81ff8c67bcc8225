import sys
names=sys.argv[1:]
o=["use second::*;\nuse second::Converted;\n"]
for n in names:
    o.append(f'''extern "C" {{ fn {n}qb_book_len(n:u32)->u64; fn {n}qb_make(b:*mut u8,l:usize,n:u32)->u8; fn {n}qb_add_symbol(b:*mut u8,l:usize,s:*const u8,sl:usize,lot:u32,p:u8)->u8; fn {n}qb_open_line(b:*mut u8,l:usize,line:u32,letter:u8)->u8; fn {n}qb_start_day(b:*mut u8,l:usize)->u8; fn {n}qb_end_day(b:*mut u8,l:usize)->u8; fn {n}qb_take_block(b:*mut u8,l:usize,line:u32,bl:*const u8,bn:usize,a:*mut u8,an:usize,r:*mut u64)->u8; fn {n}qb_read(b:*const u8,l:usize,s:*const u8,sl:usize,p:*mut u8,pl:usize)->u8; }}
pub struct B{n} {{ m: Vec<u8> }}
impl B{n} {{ pub fn fresh(n:u32)->Self {{ let len=unsafe{{{n}qb_book_len(n)}} as usize; let mut b=Self{{m:vec![0;len]}}; assert_eq!(b.make(n),0); b }} }}
impl QuoteBook for B{n} {{
 fn make(&mut self,n:u32)->u8 {{ unsafe{{{n}qb_make(self.m.as_mut_ptr(),self.m.len(),n)}} }}
 fn add_symbol(&mut self,s:&[u8],lot:u32,p:u8)->u8 {{ unsafe{{{n}qb_add_symbol(self.m.as_mut_ptr(),self.m.len(),s.as_ptr(),s.len(),lot,p)}} }}
 fn open_line(&mut self,line:u32,letter:u8)->u8 {{ unsafe{{{n}qb_open_line(self.m.as_mut_ptr(),self.m.len(),line,letter)}} }}
 fn start_day(&mut self)->u8 {{ unsafe{{{n}qb_start_day(self.m.as_mut_ptr(),self.m.len())}} }}
 fn end_day(&mut self)->u8 {{ unsafe{{{n}qb_end_day(self.m.as_mut_ptr(),self.m.len())}} }}
 #[inline]
 fn take_block(&mut self,line:u32,block:&[u8],a:&mut [u8])->Report {{ let mut r=[0u64;7]; unsafe{{{n}qb_take_block(self.m.as_mut_ptr(),self.m.len(),line,block.as_ptr(),block.len(),a.as_mut_ptr(),a.len(),r.as_mut_ptr())}};
  Report{{number:r[0] as u8,gap:r[1] as u32,expected:r[2] as u32,count:r[3],accepted:r[4] as u32,partly:r[5] as u32,rejected:r[6] as u32}} }}
 fn read(&self,s:&[u8],p:&mut [u8])->u8 {{ unsafe{{{n}qb_read(self.m.as_ptr(),self.m.len(),s.as_ptr(),s.len(),p.as_mut_ptr(),p.len())}} }}
 fn is_protected(&self,_:&[u8],_:u8,_:u64)->Protected {{ Protected::refused(1) }}
 fn set_allowance(&mut self,_:u32,_:&[u8])->u8 {{ 1 }} fn tick(&mut self)->u8 {{ 1 }}
 fn convert_len(&self,_:&[u8])->Converted {{ unimplemented!() }} fn convert(&self,_:&[u8],_:&mut [u8])->Converted {{ unimplemented!() }}
 fn snapshot_len(&self,_:&[u8])->SnapshotSize {{ unimplemented!() }} fn snapshot(&self,_:&[u8],_:&mut [u8])->SnapshotSize {{ unimplemented!() }}
 fn try_order(&self,_:&[u8],_:u8,_:u32,_:&mut [u8])->Tried {{ unimplemented!() }}
}}
''')
o.append('pub fn all(n: u32) -> Vec<(&\'static str, Box<dyn Timed>)> { vec![("Engine", Box::new(second::Engine::fresh(n).unwrap())), ("Incremental", Box::new(second::Incremental::fresh(n).unwrap())), '+', '.join(f'("{n}", Box::new(B{n}::fresh(n)))' for n in names)+'] }\n')
o.append('''
use crate::stream::Stream; use crate::replay::*;
pub trait Timed { fn set_up(&mut self, s:&Stream); fn slices(&mut self, s:&Stream, o:&mut Vec<u64>)->Outcome; fn calls(&mut self, s:&Stream, o:&mut Vec<u64>)->Outcome; fn answers(&mut self, s:&Stream)->Vec<Vec<u8>>; }
impl<T: QuoteBook> Timed for T {
 fn set_up(&mut self, s:&Stream){ s.set_up(self) }
 fn slices(&mut self, s:&Stream, o:&mut Vec<u64>)->Outcome { timed(self,s,o) }
 fn calls(&mut self, s:&Stream, o:&mut Vec<u64>)->Outcome { timed_calls(self,s,o) }
 fn answers(&mut self, s:&Stream)->Vec<Vec<u8>> { warm(self,s); let mut v=Vec::new(); for (line,block) in s.measured() { let mut a=vec![0xA5;200]; let r=self.take_block(line,block,&mut a); a.extend(r.fields().iter().flat_map(|x|x.to_le_bytes())); v.push(a); } let mut last=Vec::new(); for (sym,_) in &s.symbols { let mut p=vec![0;96]; self.read(sym,&mut p); last.extend(p); } v.push(last); v }
}
''')
open('src/books.rs','w').write(''.join(o))
