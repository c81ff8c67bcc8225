#!/usr/bin/env python3
# mk.py DIR PREFIX: compile DIR's crates (unproved) to SCRATCH/obj/PREFIX.o with C symbols PREFIX_fn
import re,sys,os,subprocess,glob,shutil
d=os.path.abspath(sys.argv[1]); pre=sys.argv[2]
src=open(d+'/crates/quotebook/src/lib.rt').read()
fns=[]
for m in re.finditer(r'pub extern "C" fn (\w+)\(([^)]*)\)\s*->\s*(\w+)',src,re.S):
    ps=[p.strip() for p in m.group(2).split(',') if p.strip()]
    # rejoin "[u64; 7]" ok since ';'
    fns.append((m.group(1),[p.split(':',1)[1].strip() for p in ps],m.group(3)))
# drive
o=['fn main() {','    let mut memory = [0; 9000];','    let mut buf = [0; 400];','    let block = [0; 40];','    let lens: [u32; 2] = [0; 2];']
for i,(f,ps,r) in enumerate(fns):
    args=[]
    for j,p in enumerate(ps):
        if p=='&mut [u8]' :
            args.append('&mut memory' if j==0 else '&mut buf')
        elif p=='&[u8]': args.append('&memory' if j==0 else '&block')
        elif p=='&[u32]': args.append('&lens')
        elif p.startswith('&mut [u64'):
            n=re.search(r'; (\d+)',p).group(1)
            o.append(f'    let mut r{i}: [u64; {n}] = [0; {n}];'); args.append(f'&mut r{i}')
        else: args.append('1')
    o.append(f'    let v{i} = quotebook::{f}({", ".join(args)});')
o.append('}')
os.makedirs(d+'/crates/drive/src',exist_ok=True)
open(d+'/crates/drive/src/main.rt','w').write('\n'.join(o)+'\n')
libs=[l for l in open(d+'/crates.txt') if l.startswith('quotebook:')][0].split(':')[1].split()
work='SCRATCH/work-'+pre; shutil.rmtree(work,ignore_errors=True); os.makedirs(work+'/tc/bin')
clang='KIT/on/x86_64/toolchain/bin/clang'
os.symlink('KIT/toolchain/lib',work+'/tc/lib')
open(work+'/tc/bin/clang','w').write(f'''#!/bin/bash
if [ -f module.bc ]; then n=$(ls {work}/*-module.bc 2>/dev/null | wc -l); cp module.bc {work}/$((n+1))-module.bc; fi
echo "$PWD: $*" >> {work}/log
exec {clang} "$@"
'''); os.chmod(work+'/tc/bin/clang',0o755)
for t in ('ld.lld','llvm-ar'): os.symlink(clang,work+'/tc/bin/'+t)
cmd=['KIT/on/x86_64/bin/rattle-cases','--toolchain',work+'/tc','crates/drive/src/main.rt','--crate-name','drive','--lib','std=KIT/libs/std/src/lib.rt']
for l in libs+['quotebook']: cmd+=['--lib',f'{l}=crates/{l}/src/lib.rt']
r=subprocess.run(cmd,cwd=d,capture_output=True,text=True); open("SCRATCH/last.log","w").write(r.stdout+r.stderr)
mods=sorted(glob.glob(work+'/*-module.bc'))
if not mods:
    print(r.stdout[-3000:],r.stderr[-3000:]); sys.exit(1)
bc=work+'/2-module.bc' if os.path.exists(work+'/2-module.bc') else mods[-1]
ll=work+'/m.ll'
subprocess.run([clang,'-S','-emit-llvm','-x','ir',bc,'-Xclang','-disable-llvm-passes','-O3','-o',ll],check=True)
s=open(ll).read()
s=re.sub(r'define i32 @main\(\).*?\n}\n','',s,flags=re.S)
s=re.sub(r'define internal void @"drive::main"\(\).*?\n}\n','',s,flags=re.S)
ty={'u8':'i8','u32':'i32','u64':'i64','usize':'i64'}
def w(fn,args,ret):
    ps=[];p0=[];call=[]
    for k,a in enumerate(args):
        if a in('&mut [u8]','&[u8]','&[u32]'):
            ps+=[f'ptr %p{k}',f'i64 %n{k}']; p0+=[f'  %s{k} = alloca [16 x i8], align 8',f'  store ptr %p{k}, ptr %s{k}, align 8',f'  %t{k} = getelementptr i8, ptr %s{k}, i64 8',f'  store i64 %n{k}, ptr %t{k}, align 8']; call.append(f'ptr %s{k}')
        elif a.startswith('&mut ['): ps.append(f'ptr %x{k}'); call.append(f'ptr %x{k}')
        else: ps.append(f'{ty[a]} %x{k}'); call.append(f'{ty[a]} %x{k}')
    return f'define {ty[ret]} @{pre}{fn}({", ".join(ps)}) #0 {{\nstart:\n'+'\n'.join(p0)+f'\n  %r = call {ty[ret]} @"quotebook::{fn}"({", ".join(call)})\n  ret {ty[ret]} %r\n}}\n'
for f,ps,r_ in fns: s+=w(f,ps,r_)
open(work+'/w.ll','w').write(s)
os.makedirs('SCRATCH/obj',exist_ok=True)
subprocess.run([clang,'--target=x86_64-unknown-linux-gnu','-march=x86-64','-ffunction-sections','-fdata-sections','-mllvm','-trap-unreachable','-mllvm','-no-trap-after-noreturn','-c','-x','ir',work+'/w.ll','-o',f'SCRATCH/obj/{pre}.o','-fPIC','-O3','-Xclang','-fmerge-functions','-mllvm','-mergefunc-use-aliases'],check=True)
print('ok',pre)
