#!/usr/bin/env python3
"""Passed, Served and Parsed become Result<Option<..>, ..>: the second step of `run`."""
import os, re, sys, glob
os.chdir(sys.argv[1]+'/crates')
T={ # name: (crate, some, nsome, none, err, rust type, text of the abbrev file)
 'Passed':('queue','Started',1,'Idle','Refused','Result<Option<Waiting>, Refusal>','''-- What a time unit did: it started a record, or none; or why it was refused.
use Rattle.std.specs.Prelude.{Result, Option}
use Rattle.unit.specs.declared.Refusal.{Refusal}
use Rattle.queue.specs.declared.Waiting.{Waiting}

abbrev pub Passed : Type 0
Passed = Result (Option Waiting) Refusal
'''),
 'Served':('callers','Started',2,'Idle','Refused','Result<Option<(u8, Waiting)>, Refusal>','''-- What a time unit did: it started a record of a caller, or none; or why it was refused.
use Rattle.std.specs.Prelude.{ℕ, ◌×◌, Result, Option}
use Rattle.unit.specs.declared.Refusal.{Refusal}
use Rattle.queue.specs.declared.Waiting.{Waiting}

abbrev pub Served : Type 0
Served = Result (Option (ℕ × Waiting)) Refusal
'''),
 'Parsed':('command','Command',1,'Nothing','Bad','Result<Option<Request>, Trouble>','''-- What a line says: a request, or nothing; or what is wrong with it.
use Rattle.std.specs.Prelude.{Result, Option}
use Rattle.command.specs.declared.Request.{Request}
use Rattle.command.specs.declared.Trouble.{Trouble}

abbrev pub Parsed : Type 0
Parsed = Result (Option Request) Trouble
'''),
}
USE = re.compile(r'^(\s*(?:ghost |pub )?use )([\w.+\-]+)\.\{([^}]*)\}(;?)$')
ALIAS = re.compile(r'^\s*(?:ghost |pub )?use Rattle\.([a-z_]+)\.specs\.declared\.(\w+)\.TheVariants as (\w+);?$')
def atom(s,i):
    """the end of an atom at s[i], or None"""
    if i>=len(s): return None
    if s[i]=='(':
        d=0
        for j in range(i,len(s)):
            if s[j]=='(': d+=1
            if s[j]==')':
                d-=1
                if d==0:
                    k=j+1
                    m=re.match(r"(\.[\w\-']+)+",s[k:])
                    return k+(m.end() if m else 0)
        return None
    m=re.match(r"[\w'₀-₉]+(?:[.\-][\w'₀-₉\-]+)*",s[i:])
    if m and m.group(0) not in('in',): return i+m.end()
    return None
def rep(l, name, n, rust=False):
    out='';pos=0
    for m in re.finditer(r"(?<![\w.\-'])%s(?![\w\-'])"%re.escape(name), l):
        if m.start()<pos: continue
        i=m.end(); args=[]
        for _ in range(n):
            if i<len(l) and l[i]==' ':
                e=atom(l,i+1)
                if e is None: break
                args.append(l[i+1:e]); i=e
            else: break
        out+=l[pos:m.start()]
        if len(args)==n:
            a=args[0] if n==1 else '(%s)'%', '.join(args)
            out+='Ok (Some %s)'%a; pos=i
        else:
            out+='(λ w. Ok (Some w))' if n==1 else '(λ i w. Ok (Some (i, w)))'; pos=m.end()
            if args: print('args?',l)
    return out+l[pos:]
def word(l,name,new): return re.sub(r"(?<![\w.\-'])%s(?![\w\-'])"%re.escape(name), new, l)
def antt(path,text,rt):
    quals={};ren={};touched=False;out=[]
    for l in text.split('\n'):
        a=ALIAS.match(l)
        if a and a.group(2) in T and T[a.group(2)][0]==a.group(1):
            quals[a.group(3)]=a.group(2);touched=True; continue
        m=USE.match(l)
        if m:
            mm=re.match(r'Rattle\.([a-z_]+)\.specs\.declared\.(\w+?)(\.TheVariants)?$',m.group(2))
            if mm and mm.group(2) in T and T[mm.group(2)][0]==mm.group(1):
                n=mm.group(2);touched=True
                if mm.group(3):
                    for x in m.group(3).split(','):
                        p,_,q=x.strip().partition(' as '); ren[(q or p).strip()]=(n,p.strip())
                else:
                    quals[n]=n
                    if not rt: out.append('use Rattle.%s.specs.%s.{%s}'%(mm.group(1),n,n))
                continue
        out.append(l)
    if rt: quals.update({n:n for n in T}); touched=touched or any(n+'.' in text for n in T)
    if not touched and '/proofs/' not in path: return text
    def conv(l):
        for q,n in quals.items():
            c,some,k,none,err,_,_=T[n]
            l=rep(l,q+'.'+some,k); l=word(l,q+'.'+none,'(Ok None)'); l=word(l,q+'.'+err,'Err')
        for x,(n,v) in ren.items():
            c,some,k,none,err,_,_=T[n]
            if v==some: l=rep(l,x,k)
            elif v==none: l=word(l,x,'(Ok None)')
            else: l=word(l,x,'Err')
        l=re.sub(r'(?<=≡ )\(Ok None\)','Ok None',l)
        l=re.sub(r'\(\(Ok None\)\)','(Ok None)',l)
        return l
    body=[]
    for l in out:
        s=l.lstrip()
        if USE.match(l) or s.startswith(('--','//')): body.append(l)
        elif rt and not re.match(r'\s*(requires|ensures)\b',l) and '×' not in l: body.append(l)
        else: body.append(conv(l))
    t='\n'.join(body)
    if '/proofs/' in path:
        s=ORIG[path.split('/')[0]]
        for n,(c,some,k,none,err,_,_) in T.items():
            if re.search(r'\b%s::'%n,s):
                t=re.sub(r'(?<![A-Za-z])in-%s(?![A-Za-z_])'%some,'in-Ok-Some',t)
                t=re.sub(r'(?<![A-Za-z])in-%s(?![A-Za-z_])'%none,'in-Ok-None',t)
                t=re.sub(r'(?<![A-Za-z])in-%s(?![A-Za-z_])'%err,'in-Err',t)
    if t!=text: t=imports(path,t,rt)
    return t
def imports(path,text,rt):
    ls=text.split('\n')
    if rt: body='\n'.join(l for l in ls if re.match(r'\s*(requires|ensures)\b',l) or '×' in l)
    else: body='\n'.join(l for l in ls if not USE.match(l) and not l.lstrip().startswith('--'))
    have=set()
    for l in ls:
        m=USE.match(l)
        if m and (not rt or l.startswith('ghost')):
            for n in m.group(3).split(','):
                a,_,b=n.strip().partition(' as '); have.add((b or a).strip())
    need=[n for n in('Ok','Err','Some','None') if re.search(r"(?<![\w.\-'])%s(?![\w\-'])"%n,body) and n not in have]
    if need:
        for i,l in enumerate(ls):
            m=USE.match(l)
            if m and m.group(2) in('Rattle.std.specs.Prelude','Rattle.std.proofs.Common') and not l.startswith('pub'):
                ls[i]='%s%s.{%s, %s}%s'%(m.group(1),m.group(2),m.group(3),', '.join(need),m.group(4)); break
        else:
            at=next((i for i,l in enumerate(ls) if USE.match(l)),0)
            ls.insert(at,('ghost ' if rt else '')+'use Rattle.std.%s.{%s}'%('specs.Prelude' if rt or '/specs/' in path else 'proofs.Common',', '.join(need))+(';' if rt else ''))
    return '\n'.join(ls)
def rust_line(l):
    for n,(c,some,k,none,err,rty,_) in T.items():
        def f(m):
            return m
        # started with args
        i=0
        while True:
            m=re.search(r'\b(?:%s::)?%s::%s\('%(c,n,some),l)
            if not m: break
            d=0
            for j in range(m.end()-1,len(l)):
                if l[j]=='(': d+=1
                if l[j]==')':
                    d-=1
                    if d==0: break
            else: print('open',l); l=l[:m.start()]+'Ok(Some('+l[m.end():]; break
            inner=l[m.end():j]
            l=l[:m.start()]+'Ok(Some(%s))'%(inner if k==1 else '(%s)'%inner)+l[j+1:]
        l=re.sub(r'\b(?:%s::)?%s::%s\b'%(c,n,none),'Ok(None)',l)
        l=re.sub(r'\b(?:%s::)?%s::%s\b'%(c,n,err),'Err',l)
    return l
def rust(path,text):
    crate=path.split('/')[0]
    for n,(c,*r) in T.items():
        if c==crate: text=re.sub(r'(?:^//[^\n]*\n)*^#\[derive\(Clone, Copy\)\]\npub enum %s \{\n(?:[^}]*)\}\n\n?'%n,'',text,flags=re.M)
    out=[]
    for l in text.split('\n'):
        s=l.lstrip()
        if s.startswith('//') or s.startswith('ghost use') : out.append(l); continue
        m=re.match(r'^((?:pub )?use )([a-z_:]+)::(\{[^}]*\}|\w+);$',l)
        if m:
            names=[x.strip() for x in m.group(3).strip('{}').split(',') if x.strip()]
            keep=[x for x in names if not (x in T and (T[x][0]==m.group(2) or (m.group(2)in('crate','super') and T[x][0]==crate)))]
            extra=[]
            if 'Passed' in names or 'Served' in names: pass
            if keep==names: out.append(l)
            elif keep: out.append('%s%s::%s;'%(m.group(1),m.group(2),keep[0] if len(keep)==1 else '{'+', '.join(keep)+'}'))
            continue
        if not re.match(r'\s*(requires|ensures)\b',l) and '×' not in l:
            l=rust_line(l)
            for n,(c,some,k,none,err,rty,_) in T.items():
                l=re.sub(r'(?<![\w:])(?:%s::)?%s\b(?!::)(?=\s*[,{)>;]|$)'%(c,n),rty,l)
        out.append(l)
    text='\n'.join(out)
    body='\n'.join(l for l in text.split('\n') if not l.startswith('use') and not l.lstrip().startswith('//') and 'ghost use' not in l)
    for mod,name in(('unit','Refusal'),('queue','Waiting'),('command','Request'),('command','Trouble')):
        if crate==mod: continue
        if re.search(r'\b%s\b'%name,body) and not re.search(r'^(pub )?use %s::.*\b%s\b'%(mod,name),text,flags=re.M) and not re.search(r'struct %s|enum %s'%(name,name),text) and re.search('Result<Option<|Refusal',body) and not re.search(r'%s::%s'%(mod,name),body):
            m=re.search(r'^use %s::(\{[^}]*\}|\w+);$'%mod,text,flags=re.M)
            if m:
                names=sorted(set([x.strip() for x in m.group(1).strip('{}').split(',')]+[name]))
                text=text[:m.start()]+'use %s::{'%mod+', '.join(names)+'};'+text[m.end():]
            else:
                m=re.search(r'^use ',text,flags=re.M)
                at=m.start() if m else [k for k in re.finditer(r'^ghost use .*\n',text,flags=re.M)][-1].end()
                text=text[:at]+'use %s::%s;\n'%(mod,name)+text[at:]
    return text
ORIG={d:''.join(open(f).read() for f in glob.glob(d+'/src/**/*.rt',recursive=True)) for d in os.listdir('.') if os.path.isdir(d)}
n=0
for d in sorted(os.listdir('.')):
    for f in glob.glob(d+'/src/**/*.rt',recursive=True):
        t=open(f).read(); t2=antt(f,rust(f,t),True)
        if t2!=t: open(f,'w').write(t2); n+=1
    for f in glob.glob(d+'/specs/**/*.antt',recursive=True)+glob.glob(d+'/proofs/**/*.antt',recursive=True):
        t=open(f).read(); t2=antt(f,t,False)
        if t2!=t: open(f,'w').write(t2); n+=1
    for f in glob.glob(d+'/must-fail/*.edit'):
        t=open(f).read(); o=[];cur=''
        for l in t.split('\n'):
            if l.startswith('file:'): cur=l
            if l.startswith(('old:','new:')) and cur.endswith('.rt'): l=rust_line(l)
            o.append(l)
        if '\n'.join(o)!=t: open(f,'w').write('\n'.join(o)); n+=1
for n_,(c,*r) in T.items():
    p='%s/specs/%s.antt'%(c,n_)
    if not os.path.exists(p):
        open(p,'w').write(r[-1]); t=open(c+'/specs/Lib.antt').read(); open(c+'/specs/Lib.antt','w').write(t.rstrip('\n')+'\npub mod %s\n'%n_)
print(n,'files')
