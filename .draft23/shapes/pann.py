import re,sys,subprocess,collections
perf,binp=sys.argv[1:3]; thr=float(sys.argv[3]); total=float(sys.argv[4]); fns=sys.argv[5:]
out=subprocess.run(['perf','script','-i',perf,'-F','ip,sym'],capture_output=True,text=True).stdout
c=collections.Counter();tot=0
B=0x555555554000
for l in out.splitlines():
    f=l.split(None,1)
    if not f: continue
    tot+=1
    c[int(f[0],16)-B]+=1
d=subprocess.run(['objdump','-d','--no-show-raw-insn','-M','intel',binp],capture_output=True,text=True).stdout
cur=None;buf={}
order=[]
for l in d.splitlines():
    m=re.match(r'^([0-9a-f]+) <(.*)>:',l)
    if m: cur=(m.group(2),m.group(1)); buf[cur]=[]; order.append(cur); continue
    if re.match(r'^\s+[0-9a-f]+:',l) and cur: buf[cur].append(l)
for k in order:
    if not any(k[0].startswith(f) for f in fns): continue
    s=sum(c.get(int(l.split(':')[0],16),0) for l in buf[k])
    if s<tot*0.003: continue
    print('==',k,s/tot*total)
    acc=0
    for l in buf[k]:
        n=c.get(int(l.split(':')[0],16),0)/tot*total; acc+=n
        if n>=thr: print(f'{n:6.2f} {acc:6.1f} {l.strip()}')
