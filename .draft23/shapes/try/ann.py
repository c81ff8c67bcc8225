import re,sys,subprocess,collections
cg,binp,fn=sys.argv[1:4]
n=float(sys.argv[4]) if len(sys.argv)>4 else 25500.
cost=collections.Counter()
last=0;skip=False
for l in open(cg):
    l=l.strip()
    if l.startswith('calls='): skip=True; continue
    m=re.match(r'^(0x[0-9a-f]+|\+\d+|\*|\+0x[0-9a-f]+|-\d+|-0x[0-9a-f]+) (\S+) (\d+)$',l)
    if not m: continue
    a=m.group(1)
    if a=='*': ad=last
    elif a[0]=='+': ad=last+int(a[1:],0)
    elif a[0]=='-': ad=last-int(a[1:],0)
    else: ad=int(a,16)
    last=ad
    if skip: skip=False; continue
    cost[ad]+=int(m.group(3))
out=subprocess.run(['objdump','-d','--no-show-raw-insn','-M','intel',f'--disassemble={fn}',binp],capture_output=True,text=True).stdout
base=min(cost)
# detect PIE offset: valgrind loads PIE at 0x108000 or 0x400000
lines=[l for l in out.splitlines() if re.match(r'^\s+[0-9a-f]+:',l)]
addrs=[int(l.split(':')[0],16) for l in lines]
best=None
for off in (0,0x108000,0x400000,0x109000,0x10a000):
    t=sum(cost.get(a+off,0) for a in addrs)
    if best is None or t>best[0]: best=(t,off)
off=best[1]
for l,a in zip(lines,addrs):
    c=cost.get(a+off,0)/n
    print(f'{c:7.2f} {l.strip()}')
print('total',best[0]/n, 'static', len(lines), hex(off))
