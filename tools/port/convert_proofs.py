#!/usr/bin/env python3
"""Turns proofs that answer goals one by one in a Proof.antt (tie.spec) into Invariants.antt and Answers.antt.

usage: tools/port/convert_proofs.py NAMES CRATE..     at the top, once, after respell.py (docs/PORT.md); NAMES is what `rt names NAMES` wrote

Answers that Rattle finds by itself (`search rules`, `omega arith`) are left out. What several clauses or joined arms need is mended by hand.
"""
import json, os, re, sys
ROOT = "."
NAMES = os.path.join(sys.argv[1], "crates") if len(sys.argv) > 1 else ""
norm=lambda s: s.replace('-','_')
IDC=r"[^\s(){}\[\],;.:«»λ→=|@\"↦]+"

def blocks(text):
    out=[];cur=[]
    for line in text.split('\n'):
        if line and not line[0].isspace():
            # new top-level line
            if cur and not is_continuation(cur,line):
                out.append(cur);cur=[]
        cur.append(line)
    if cur: out.append(cur)
    return out

def first_code(cur):
    for l in cur:
        if l.strip() and not l.startswith('--'): return l
    return ''
def name_of(line):
    m=re.match(r"(?:abbrev |unfoldable )?(?:pub )?(?:abbrev |unfoldable )?("+IDC+")",line)
    return m.group(1) if m else None
def is_continuation(cur,line):
    fc=first_code(cur)
    if not fc: return True   # comments only
    if line.startswith('--'): return False
    if line.startswith('use '): return False
    if fc.startswith('use '): return False
    if line.startswith('unfolding'): return True
    n=name_of(fc); m=name_of(line)
    return n==m and not re.match(r"(?:abbrev |unfoldable )?(?:pub )?"+IDC+r"\s*:",line)

stats={}
def convert(crate, path, info, modpath):
    text=open(path).read()
    places={}       # norm old step -> new step
    for p in info['places']:
        old,new=p[2]
        if old: places.setdefault(norm(old),new)
    arms=[]         # (oldstep, oldpath tuple, newstep, newfield)
    for a in info['arms']:
        if a:
            new,_,fields=a
            for f in fields:
                nf,olds,op=f
                if nf.endswith('-own'): continue
                arms.append((norm(olds),tuple(op),new,nf))
    places_ty={norm(p[0]):n for p,n in zip(info['places'],info['places_by_name'])}
    needs={}
    for old,new in info['needs']:
        needs[norm(old)]=new
        # other keys
    loops={}
    for i,(nm,vars_) in enumerate(info['loops']):
        loops[norm(nm[0])]=(nm[1],vars_,info['changed'][i] if i<len(info['changed']) else [True]*len(vars_))
    problems=[]
    def need_key(s):
        s=norm(s)
        cands=[s]
        for pre in ('overflow_','nonzero_'):
            if s.startswith(pre): cands.append(s[len(pre):])
        if s.startswith('slice_bounds_'): cands.append('part_'+s[len('slice_bounds_'):])
        s2=s.replace('holds','init').replace('again','preserved').replace('less','smaller')
        cands.append(s2)
        for c in cands:
            if c in needs: return needs[c]
        # squeeze
        sq=lambda x: x.replace('_','')
        for c in cands:
            for k in needs:
                if sq(k)==sq(c): return needs[k]
        return None
    def path_sub(body):
        # c.before.before.X.Y
        def one(m):
            p=m.group(0).split('.')
            rest=[x for x in p[1:]]
            i=0
            while i<len(rest) and rest[i]=='before': i+=1
            rest=rest[i:]
            if not rest: return 'c'
            step=norm(rest[0])
            if step not in places and step.endswith('_lem'): step=step[:-4]
            # arms first
            for olds,op,new,nf in sorted(arms,key=lambda a:-len(a[1])):
                if olds==step and tuple(rest[1:1+len(op)])==op and op:
                    return '.'.join(['c',new,nf]+rest[1+len(op):])
            if step in ('args','ranges','requires','fits'):
                st={'fits':'ranges'}.get(step,step)
                if len(rest)>1:
                    v=rest[1]
                    rest[1]=argname(v)
                return '.'.join(['c',st]+rest[1:])
            if step in places:
                r=rest[1:]
                if r and r[0] in ('type-inv','ok'): r=['type_inv']+r[1:]
                return '.'.join(['c',places[step]]+[argname(x) if k==0 else x for k,x in enumerate(r)])
            problems.append('step '+'.'.join(rest))
            return '.'.join(['c']+rest)
        body=body.replace('is_Within','is_within')
        als={'c'}
        while True:
            m=re.search(r"let ("+IDC+r") = (%s)((?:\.before)*) in\s+"%'|'.join(map(re.escape,als)),body)
            if not m: break
            if m.group(1)=='c': break
            body=body[:m.start()]+body[m.end():]
            als.add(m.group(1))
        for a in als-{'c'}:
            body=re.sub(r"(?<![\w.'\-])"+re.escape(a)+r"(?=\.)",'c',body)
        return re.sub(r"(?<![\w.'\-])c(?:\.[A-Za-z0-9_\-'ℕℤ₀«»]+)+",one,body)
    srcnames=set()
    for l in info['loops']: srcnames|=set(l[1])
    for v in info['params'].values(): srcnames|=set(v)
    srcn={norm(s):s for s in srcnames}
    def argname(v):
        n=norm(v)
        return srcn.get(n, n if '-' in v and v not in ('type-inv',) else v)
    def fieldfix(t):
        return re.sub(r"(?<=[A-Za-z0-9'\)])\.([a-z0-9]+(?:-[a-z0-9]+)+)",lambda m:'.'+srcn.get(norm(m.group(1)),m.group(1)) if norm(m.group(1)) in srcn else m.group(0),t)
    uses=[];inv=[];ans=[];helpers=[]
    dropped=0
    for b in blocks(text):
        fc=first_code(b)
        if not fc: continue
        if fc.startswith('use '):
            u='\n'.join(b).strip('\n')
            if '.Statement.' in u or u.strip().endswith(' as tie'): continue
            uses.append(u); continue
        body='\n'.join(b).rstrip('\n')
        sig=re.search(r"^((?:abbrev )?(?:pub )?)("+IDC+r") : tie\.(\S+)(.*)$",body,re.M)
        n=name_of(fc)
        if 'tie.close' in body or re.match(r"pub \S+[-_]spec :",fc): continue
        if sig and sig.group(3).startswith(('invariant-','decreases-')):
            kind,loop=sig.group(3).split('-',1)
            if norm(loop) not in loops:
                # maybe recursion measure
                problems.append('loop '+loop); continue
            new,vars_,changed=loops[norm(loop)]
            m=re.search(r"^"+re.escape(sig.group(2))+r"((?:\s+\S+)*?)\s*=\s*(.*)\Z",body[sig.end():].lstrip('\n'),re.M|re.S)
            if not m: problems.append('inv form'); continue
            args=m.group(1).split()
            exp=m.group(2)
            terms=['l.initial.'+v if ch else 'l.'+v for v,ch in zip(vars_,changed)]+['l.'+v for v,ch in zip(vars_,changed) if ch]
            if len(args)!=len(terms):
                problems.append(f'inv args {len(args)} for {len(terms)}: {args} {vars_} {changed}')
            sub=dict(zip(args,terms))
            def rep(mm):
                w=mm.group(0)
                pre=exp[mm.start()-1] if mm.start() else ''
                if pre=='.': return w
                return sub.get(w,w)
            newexp=re.sub(IDC,rep,exp)
            # a field on a substituted term: fine
            sep='\n    ' if len(newexp)>120 and '\n' not in newexp else ' '
            nm=f"{kind}-{new}"
            inv.append(f"abbrev pub {nm} : goal.{nm}\n{nm} l ={sep}{newexp.strip()}")
            continue
        if sig and sig.group(3).startswith('Need-'):
            key=need_key(sig.group(3)[5:])
            rest=body[sig.end():].lstrip('\n')
            unf=''
            while rest.startswith('unfolding'):
                line,rest=rest.split('\n',1)
                unf+=line+'\n'
            comments='\n'.join(l for l in body.split('\n') if l.startswith('--'))
            m=re.match(re.escape(sig.group(2))+r"((?:\s+[^\s=]+)*)\s*=\s*(.*)\Z",rest,re.S)
            if not m:
                problems.append('answer form '+sig.group(2)); helpers.append('-- '+body.replace('\n','\n-- ')); continue
            exp=m.group(2).strip()
            if exp in ('search rules','omega arith','search (rules)'):
                dropped+=1; continue
            if key is None:
                problems.append('need '+sig.group(3))
                key='UNKNOWN-'+sig.group(3)[5:]
            args=[a for a in m.group(1).split() if a!='κs']
            e2=fieldfix(path_sub(exp))
            ans.append((comments+'\n' if comments else '')+f"pub {key} : goal.{key}\n{unf}{key} {' '.join(args)} = {e2}")
            continue
        # helper
        hb=path_sub(body)
        hb=fieldfix(hb)
        hb=re.sub(r"tie\.([A-Za-z][^\s)]*)((?: invariant[^\s)]*| decreases[^\s)]*)*)",lambda m:'goal.'+places_ty.get(norm(m.group(1)),m.group(1)),hb)
        helpers.append(hb)
    d=os.path.dirname(path)
    fmod=modpath
    outs=[]
    us='\n'.join(uses)
    if inv:
        open(os.path.join(d,'Invariants.antt'),'w').write(us+f"\nuse {fmod}.Given as goal\n\n"+'\n\n'.join(inv)+'\n')
    if ans:
        open(os.path.join(d,'Answers.antt'),'w').write(us+f"\nuse {fmod}.Goals as goal\n\n"+'\n\n'.join(helpers+ans)+'\n')
    os.remove(path)
    return dropped,len(ans),problems

def main():
    for crate in sys.argv[2:]:
        js=json.load(open(f'{NAMES}/{crate}/names.json'))
        byf={}
        for k,v in js.items():
            m=re.match(r"Rattle-"+crate+r"-proofs\.(.*)\.Lts$",k)
            if m: byf[m.group(1).replace('.','/')]=v
        base=f'{ROOT}/crates/{crate}/proofs'
        for d,_,fs in sorted(os.walk(base)):
            if 'Proof.antt' in fs:
                rel=os.path.relpath(d,base)
                p=os.path.join(d,'Proof.antt')
                if rel not in byf:
                    print(crate,rel,'NO NAMES (left)'); continue
                if 'tie.spec' not in open(p).read():
                    print(crate,rel,'no tie.spec (left)'); continue
                dr,an,pr=convert(crate,p,byf[rel],f"Rattle.{crate}.proofs."+rel.replace('/','.'))
                if pr: print(crate,rel,pr)
main()
