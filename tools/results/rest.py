#!/usr/bin/env python3
"""What the two steps before leave: patterns of `Ok tt`, brackets, lines of edits that speak of definitions and proofs. The last step of `run`."""
import os, sys
os.chdir(sys.argv[1])
import re,glob
for f in glob.glob('crates/*/specs/**/*.antt',recursive=True)+glob.glob('crates/*/proofs/**/*.antt',recursive=True):
    o=[];t=open(f).read()
    for l in t.split('\n'):
        m=re.match(r'^(\s*[\w\-\'◌₀-₉]+ [^:=]*?\(Ok tt\)[^:=]*?)( = | =$)(.*)$',l)
        if m and not l.lstrip().startswith(('--','use','let')): l=m.group(1).replace('(Ok tt)','(Ok _)')+m.group(2)+m.group(3)
        l=re.sub(r' = \(Ok None\)$',' = Ok None',l); l=l.replace('→ (Ok None) ≡','→ Ok None ≡').replace('= (Ok None);','= Ok None;')
        l=l.replace(': (Result ℕ Refusal))',': Result ℕ Refusal)').replace('{n : (Result ℕ Refusal)}','{n : Result ℕ Refusal}')
        l=re.sub(r'\bap Ok \(Some ([^() ]+)\)',r'ap (λ w. Ok (Some w)) \1',l)
        o.append(l)
    n='\n'.join(o)
    if n!=t: open(f,'w').write(n)
for f in glob.glob('crates/*/must-fail/*.edit'):
    o=[];cur='';t=open(f).read()
    for l in t.split('\n'):
        if l.startswith('file:'): cur=l
        if l.startswith(('old:','new:')) and '.antt' in cur:
            l=re.sub(r'(?<![A-Za-z])in-(Value|Done|Length)(?![A-Za-z_])','in-Ok',l)
            l=re.sub(r'(?<![A-Za-z])in-Refused(?![A-Za-z_])','in-Err',l)
            l=re.sub(r'\bTooManyWait Done\)',r'TooManyWait (Ok tt))',l)
            l=re.sub(r'\bPlaceBeyond Done\)',r'PlaceBeyond (Ok tt))',l)
            l=l.replace('history_then (Refused why)','history_then (Err why)').replace('≡ Refused TooManyStates','≡ Err TooManyStates').replace('taken s Done u','taken s (Ok _) u')
        o.append(l)
    n='\n'.join(o)
    if n!=t: open(f,'w').write(n)
