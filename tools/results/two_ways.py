#!/usr/bin/env python3
"""Own enums of the shape of Option or Result become Option and Result, in src, specs, proofs and must-fail edits: the first step of `run`."""
import os, re, sys, glob
root = sys.argv[1]
os.chdir(os.path.join(root, 'crates'))
# (crate path of declared, name): (kind, ok, other, rust type, antt type)
E = {
 ('unit','Answer'): ('R','Done','Refused','Result<(), Refusal>','Answer'),
 ('collision','Number'): ('R','Value','Refused','Result<u32, Refusal>','(Result ℕ Refusal)'),
 ('unit_file','Written'): ('R','Length','Refused','Result<u32, Refusal>','(Result ℕ Refusal)'),
 ('listing','Listed'): ('R','Length','Refused','Result<u32, Refusal>','(Result ℕ Refusal)'),
 ('drawing','Drawn'): ('R','Length','Refused','Result<u32, Refusal>','(Result ℕ Refusal)'),
 ('chart','Charted'): ('R','Length','Refused','Result<usize, Refusal>','(Result ℕ Refusal)'),
 ('plan_record','Shown'): ('R','Number','Refused','Result<u16, Refusal>','(Result ℕ Refusal)'),
 ('table_totals','Totalled'): ('R','Value','Refused','Result<SizeTotals, Refusal>','(Result SizeTotals Refusal)'),
 ('cycles','GreedyAnswer'): ('R','Cycle','Refused','Result<Counted, Refusal>','(Result Counted Refusal)'),
 ('judge','Verdict'): ('V','Yes','No','Result<bool, Refusal>','(Result Bool Refusal)'),
 ('mean_cycle','Answer'): ('O','Found','No','Option<Cycle>','(Option Cycle)'),
 ('command.scan','Numeral'): ('O','Number','Other','Option<u32>','(Option ℕ)'),
 ('command_table','Named'): ('O','Known','Unknown','Option<Entry>','(Option Entry)'),
}
W = r"A-Za-z0-9_'₀-₉"
def tok(name): return re.compile(r"(?<![%s\-.])%s(?![%s\-])" % (W, re.escape(name), W))
def tokq(name): return re.compile(r"(?<![%s\-.])%s(?![%s\-])" % (W, name, W))
PRE = {'Result','Ok','Err','Option','Some','None','Bool','true','false','ℕ'}
DECL = {'Refusal':'Rattle.unit.specs.declared.Refusal','SizeTotals':'Rattle.table_totals.specs.declared.SizeTotals','Counted':'Rattle.cycles.specs.declared.Counted','Cycle':'Rattle.mean_cycle.specs.declared.Cycle','Entry':'Rattle.command_table.specs.declared.Entry'}

def variants(kind, ok, other):
    if kind=='R': return {ok: '(Ok tt)' if ok=='Done' else 'Ok', 'Refused':'Err'}
    if kind=='V': return {'Yes':'(Ok true)','No':'(Ok false)','Refused':'Err'}
    return {ok:'Some', other:'None'}

def code_lines(text, comment, f):
    out=[]
    for l in text.split('\n'):
        if l.lstrip().startswith(comment): out.append(l)
        else: out.append(f(l))
    return '\n'.join(out)

USE = re.compile(r'^(\s*(?:ghost |pub )?use )([\w.+\-]+)\.\{([^}]*)\}(;?)$')
ALIAS = re.compile(r'^\s*(?:ghost |pub )?use Rattle\.([a-z_]+)\.specs\.declared\.(?:([a-z_]+)\.)?(\w+)\.TheVariants as (\w+);?$')

def antt(path, text, rt=False):
    """antt text, or the ghost use lines and clauses of an .rt file"""
    lines = text.split('\n'); ren={}; types={}; quals={}; touched=False; out=[]
    incrate = path.split('/')[0]
    for l in lines:
        al = ALIAS.match(l)
        if al:
            key=(al.group(1)+('.'+al.group(2) if al.group(2) else ''), al.group(3))
            if key in E:
                touched=True; quals[al.group(4)]=key; out.append(('X',key,True)); continue
        m = USE.match(l)
        if m:
            mod, names = m.group(2), [n.strip() for n in m.group(3).split(',') if n.strip()]
            mm = re.match(r'Rattle\.([a-z_]+)\.specs\.declared\.(?:([a-z_]+)\.)?(\w+?)(\.TheVariants)?$', mod)
            if mm:
                key = (mm.group(1)+('.'+mm.group(2) if mm.group(2) else ''), mm.group(3))
                if key in E:
                    kind, ok, other, rty, aty = E[key]
                    touched=True
                    if mm.group(4):
                        v = variants(kind, ok, other)
                        for n in names:
                            a,_,b = n.partition(' as ')
                            ren[(b or a).strip()] = v[a.strip()]
                    else:
                        for n in names:
                            a,_,b = n.partition(' as ')
                            types[(b or a).strip()] = (key, aty)
                    out.append(('X', key, bool(mm.group(4)))); continue
        out.append(l)
    if not touched and '/proofs/' not in path: return text
    body=[]
    def conv(l):
        for t,key in quals.items():
            kind, ok, other, rty, _ = E[key]
            for v,new in variants(kind, ok, other).items():
                l = tokq(re.escape(t)+r'\.'+v).sub(lambda m: new, l)
        for t,(key,aty) in types.items():
            kind, ok, other, rty, _ = E[key]
            for v,new in variants(kind, ok, other).items():
                l = tokq(re.escape(t)+r'\.'+v).sub(lambda m: new, l)
            if key==('unit','Answer') and not rt: pass
            else: l = tok(t).sub(lambda m: aty, l)
        for n,new in ren.items(): l = tok(n).sub(lambda m: new, l)
        return l
    answer=False
    for l in out:
        if isinstance(l, tuple):
            if l[1]==('unit','Answer') and not l[2] and not rt and not answer:
                body.append('use Rattle.unit.specs.Answers.{Answer}'); answer=True
            continue
        s=l.lstrip()
        if USE.match(l) or s.startswith('--') or s.startswith('//'): body.append(l)
        else: body.append(conv(l))
    text2='\n'.join(body)
    # tidy superfluous parentheses
    text2=re.sub(r'([:→] )\((Result ℕ Refusal|Result SizeTotals Refusal|Result Counted Refusal|Result Bool Refusal|Option Cycle|Option ℕ|Option Entry)\)(?=\s*(?:$|→|\n))', r'\1\2', text2, flags=re.M)
    text2=re.sub(r'\(\((Result ℕ Refusal|Option ℕ)\)\)', r'(\1)', text2)
    text2=re.sub(r'(?<=≡ )\((Ok tt|Ok true|Ok false)\)', r'\1', text2)
    text2=re.sub(r'(?<= = )\((Ok tt|Ok true|Ok false)\)$', r'\1', text2, flags=re.M)
    if '/proofs/' in path:
        text2=goals(path, text2)
    if text2!=text: text2=imports(path, text2, rt, ' '.join(a for _,a in types.values()))
    return text2

SRC={}
def src(crate):
    if crate not in SRC:
        SRC[crate]=''.join(open(f).read() for f in glob.glob(crate+'/src/**/*.rt', recursive=True))
    return SRC[crate]
def goals(path, text):
    crate=path.split('/')[0]; s=ORIG[crate]
    maps={}
    for (c,n),(kind,ok,other,_,_) in E.items():
        q = n+'::'
        if c=='mean_cycle':
            if not (crate=='mean_cycle' or 'mean_cycle::Answer' in s): continue
        elif c=='unit' and crate=='mean_cycle': continue
        if not re.search(r'\b'+n+r'::', s): continue
        if kind=='R': maps[ok]='Ok'; maps['Refused']='Err'
        elif kind=='V': maps['Refused']='Err'
        else: maps[ok]='Some'; maps[other]='None'
    for v,new in maps.items():
        text=re.sub(r'(?<![A-Za-z])in-%s(?![A-Za-z_])'%v, 'in-'+new, text)
    return text

def imports(path, text, rt, used=''):
    body='\n'.join(l for l in text.split('\n') if not USE.match(l) and not l.lstrip().startswith(('--','//')))
    if rt: body=clauses(text)
    have=set()
    for l in text.split('\n'):
        m=USE.match(l)
        if m:
            for n in m.group(3).split(','):
                a,_,b=n.strip().partition(' as '); have.add((b or a).strip())
    need=[n for n in ('Result','Ok','Err','Option','Some','None','Bool','true','false','ℕ') if tok(n).search(body) and n not in have]
    decl=[n for n in DECL if tok(n).search(used) and n not in have and tok(n).search(body)]
    lines=text.split('\n')
    g='ghost ' if rt else ''; semi=';' if rt else ''
    if need:
        for i,l in enumerate(lines):
            m=USE.match(l)
            if m and m.group(2) in ('Rattle.std.specs.Prelude','Rattle.std.proofs.Common') and not l.startswith('pub'):
                lines[i]='%s%s.{%s, %s}%s'%(m.group(1),m.group(2),m.group(3),', '.join(need),m.group(4)); break
        else:
            mod='Rattle.std.specs.Prelude' if rt or '/specs/' in path else 'Rattle.std.proofs.Common'
            at=next((i for i,l in enumerate(lines) if USE.match(l)), None)
            if at is None: at=next((i for i,l in enumerate(lines) if not l.startswith('--') ),0)
            lines.insert(at,'%suse %s.{%s}%s'%(g,mod,', '.join(need),semi))
    if decl:
        at=max([i for i,l in enumerate(lines) if USE.match(l)] or [0])
        for n in decl: lines.insert(at+1,'%suse %s.{%s}%s'%(g,DECL[n],n,semi))
    return '\n'.join(lines)

def clauses(text):
    return '\n'.join(l for l in text.split('\n') if re.match(r'\s*(requires|ensures)\b', l))

def rust_line(l, crate):
    for (c,n),(kind,ok,other,rty,aty) in E.items():
        if c=='mean_cycle' and crate!='mean_cycle' :
            l=l.replace('mean_cycle::Answer::Found(','Some(').replace('mean_cycle::Answer::No','None'); continue
        if c=='unit' and crate=='mean_cycle': continue
        if kind=='R' and ok=='Done':
            l=re.sub(r'\bAnswer::Done\b','Ok(())',l); l=re.sub(r'\bAnswer::Refused\b','Err',l)
        elif kind=='R':
            l=re.sub(r'\b%s::%s\b'%(n,ok),'Ok',l); l=re.sub(r'\b%s::Refused\b'%n,'Err',l)
        elif kind=='V':
            l=re.sub(r'\bVerdict::Yes\b','Ok(true)',l); l=re.sub(r'\bVerdict::No\b','Ok(false)',l); l=re.sub(r'\bVerdict::Refused\b','Err',l)
        else:
            l=re.sub(r'\b%s::%s\b'%(n,ok),'Some',l); l=re.sub(r'\b%s::%s\b'%(n,other),'None',l)
    l=l.replace('unit::Ok(())','Ok(())').replace('unit::Err','Err').replace('mean_cycle::Some','Some').replace('mean_cycle::None','None')
    return l

def rust(path, text):
    crate=path.split('/')[0]
    # drop the enums' own declarations
    for (c,n),(kind,ok,other,rty,aty) in E.items():
        if c.split('.')[0]!=crate: continue
        text=re.sub(r'(?:^//[^\n]*\n)*^#\[derive\(Clone, Copy\)\]\npub enum %s \{\n(?:[^}]*)\}\n\n?'%n,'',text,flags=re.M)
    out=[]
    needs=set()
    for l in text.split('\n'):
        s=l.lstrip()
        if s.startswith('//') : out.append(l); continue
        if re.match(r'(ghost )use ', s): out.append(l); continue
        m=re.match(r'^((?:pub )?use )([a-z_:]+)::(\{[^}]*\}|\w+);$', l)
        if m:
            mod=m.group(2); names=[x.strip() for x in m.group(3).strip('{}').split(',') if x.strip()]
            key=mod.replace('::','.').replace('crate.','')
            keep=[]
            for x in names:
                drop=False
                for (c,n) in E:
                    if n==x and (c==key or c==mod.replace('::','.') or (mod=='crate' and c.split('.')[0]==crate) or (mod.startswith('crate::') and c==crate+'.'+mod.split('::')[1]) or (mod=='scan' and c=='command.scan') or (mod=='super')):
                        drop=True
                if not drop: keep.append(x)
            if keep==names: out.append(l); continue
            if not keep: continue
            out.append('%s%s::%s;'%(m.group(1),mod, keep[0] if len(keep)==1 else '{'+', '.join(keep)+'}')); continue
        if not re.match(r'\s*(requires|ensures)\b', l):
            l=rust_line(l,crate)
            for (c,n),(kind,ok,other,rty,aty) in E.items():
                if c=='mean_cycle' and crate!='mean_cycle':
                    l=l.replace('mean_cycle::Answer','Option<mean_cycle::Cycle>'); continue
                if c=='unit' and crate=='mean_cycle': continue
                if n=='Number': l=re.sub(r'(?<![\w:])Number(?=[\s,)]|$)',rty,l) if 'Number' in l and 'Form' not in l else l
                else: l=re.sub(r'(?<![\w])(?:[a-z_]+::)?%s\b(?!::)(?!\()'%n,rty,l)
        else:
            l=re.sub(r'\bAnswer\.Done\b','Ok tt',l); l=re.sub(r'\bAnswer\.Refused\b','Err',l)
            l=re.sub(r'(?<![\w.])Done(?![\w])','Ok tt',l) if 'Done' in l else l
        out.append(l)
    text='\n'.join(out)
    if crate!='unit' and re.search(r'\bRefusal\b', '\n'.join(l for l in text.split('\n') if not l.startswith('use') and not l.lstrip().startswith('//') and 'ghost use' not in l)) and not re.search(r'^use unit::.*\bRefusal\b', text, flags=re.M):
        m=re.search(r'^use unit::(\{[^}]*\}|\w+);$', text, flags=re.M)
        if m:
            names=[x.strip() for x in m.group(1).strip('{}').split(',')]+['Refusal']
            names=sorted(set(names))
            text=text[:m.start()]+'use unit::{'+', '.join(names)+'};'+text[m.end():]
        else:
            m=re.search(r'^use ', text, flags=re.M)
            if m: text=text[:m.start()]+'use unit::Refusal;\n'+text[m.start():]
            else:
                ms=list(re.finditer(r'^ghost use .*\n', text, flags=re.M))
                at=ms[-1].end() if ms else 0
                text=text[:at]+'\nuse unit::Refusal;\n'+text[at:]
    return text

ORIG={}
for d in os.listdir('.'):
    if os.path.isdir(d): ORIG[d]=''.join(open(f).read() for f in glob.glob(d+'/src/**/*.rt', recursive=True))
n=0
for d in sorted(os.listdir('.')):
    for f in glob.glob(d+'/src/**/*.rt', recursive=True):
        t=open(f).read(); t2=rust(f,t); t2=antt(f,t2,True)
        if t2!=t: open(f,'w').write(t2); n+=1
    for f in glob.glob(d+'/specs/**/*.antt', recursive=True)+glob.glob(d+'/proofs/**/*.antt', recursive=True):
        t=open(f).read(); t2=antt(f,t)
        if t2!=t: open(f,'w').write(t2); n+=1
    for f in glob.glob(d+'/must-fail/*.edit'):
        t=open(f).read(); o=[]
        cur=''
        for l in t.split('\n'):
            if l.startswith('file:'): cur=l
            if l.startswith(('old:','new:')):
                if cur.endswith('.rt'):
                    k=l[:4]; l=rust_line(l, d)
            o.append(l)
        t2='\n'.join(o)
        if t2!=t: open(f,'w').write(t2); n+=1
if not os.path.exists('unit/specs/Answers.antt'):
    open('unit/specs/Answers.antt','w').write('''-- The answer of a call that accepts or refuses and hands out nothing else.
use Rattle.std.specs.Prelude.{Result, ⊤}
use Rattle.unit.specs.declared.Refusal.{Refusal}

abbrev pub Answer : Type 0
Answer = Result ⊤ Refusal
''')
    t=open('unit/specs/Lib.antt').read(); open('unit/specs/Lib.antt','w').write(t.rstrip('\n')+'\npub mod Answers\n')
print(n,'files')
