#!/usr/bin/env python3
"""Break lines above LIMIT at a place between tokens; continuation is indented by 2 more than the line."""
import sys,re
LIMIT=198
def depth_positions(s):
    # positions of spaces with the bracket depth there
    d=0; out=[]
    for i,ch in enumerate(s):
        if ch in '([{⟨': d+=1
        elif ch in ')]}⟩': d-=1
        elif ch==' ': out.append((i,d))
    return out
def brk(line):
    if len(line)<=LIMIT+2: return [line]
    ind=len(line)-len(line.lstrip())
    body=line
    pos=[(i,d) for i,d in depth_positions(body) if i>ind+20 and i<=LIMIT]
    # prefer the lowest depth; at that depth prefer after '$', before '→', '∙', '∵', 'in', else the last space
    cand=[]
    for i,d in pos:
        before=body[:i].split(' ')[-1]; after=body[i+1:].split(' ')[0]
        if before in ('λ','let','use','=') : continue
        w=0
        if before in('$','∵','×','∙') : w=3
        elif after in ('→','∙','×','∵'): w=3
        elif before=='in': w=3
        elif before.endswith(','): w=2
        elif after.startswith('(') : w=1
        # score: prefer shallow, prefer weight, prefer far right
        if i<LIMIT*0.45: continue
        cand.append((-d*2+w, i))
    if not cand: return [line]
    _,i=max(cand)
    first=body[:i]
    rest=' '*(ind+2 if not first.startswith('use ') and not first.startswith('pub use') else ind+4)+body[i+1:]
    r=brk(rest)
    # continuation of a continuation keeps its indentation
    return [first]+r
for f in sys.argv[1:]:
    src=open(f).read().split('\n')
    out=[]
    for l in src:
        m=re.match(r'^((?:pub )?use \S+?\.)\{(.*)\}$',l)
        if len(l)>200 and m:
            names=m.group(2).split(', '); cur=[]
            for n in names:
                if len(m.group(1)+'{'+', '.join(cur+[n])+'}')>180:
                    out.append(m.group(1)+'{'+', '.join(cur)+'}'); cur=[]
                cur.append(n)
            out.append(m.group(1)+'{'+', '.join(cur)+'}')
        elif len(l)>200 and not l.lstrip().startswith('--'):
            r=brk(l)
            out+=r
        else: out.append(l)
    if out!=src:
        open(f,'w').write('\n'.join(out))
        print(f,len(out)-len(src))
