import sys,glob,os,re
root=sys.argv[1]; bad=0
for f in sorted(glob.glob(root+'/crates/*/must-fail/*.edit')):
    crate=f.split('/crates/')[1].split('/')[0]
    lines=open(f).read().split('\n')
    cur=None; olds=[]
    for l in lines:
        if l.startswith('#') or l=='' : continue
        m=re.match(r'(file|old|new|in): ?(.*)$',l)
        if not m: print('STRANGE',f,repr(l)); bad+=1; continue
        if m[1]=='file': cur=m[2].strip()
        if m[1]=='old':
            t=open(f'{root}/crates/{crate}/{cur}').read()
            n=t.count(m[2])
            if n!=1: print('COUNT',n,f,m[2]); bad+=1
print('bad',bad)
