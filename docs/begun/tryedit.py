import sys,os,subprocess,shutil,tempfile
repo,crate,names=sys.argv[1],sys.argv[2],sys.argv[3:]
for n in names:
    d=os.path.join(tempfile.gettempdir(),'edit')
    shutil.rmtree(d,ignore_errors=True)
    subprocess.run(['cp','-r',repo,d])
    f=None; olds=[]
    lines=open(f'{d}/crates/{crate}/must-fail/{n}.edit').read().split('\n')
    file=None; pend=None; ok=True
    for l in lines:
        if l.startswith('file: '): file=l[6:]
        elif l.startswith('old: '): pend=l[5:]
        elif l.startswith('new: '):
            p=f'{d}/crates/{crate}/{file}'; t=open(p).read()
            if t.count(pend)!=1: print(n,'OLD COUNT',t.count(pend),pend); ok=False
            t=t.replace(pend,l[5:],1); open(p,'w').write(t)
    if not ok: continue
    r=subprocess.run(f'cd {d} && RT_JOBS=1 rt dev {crate} 2>&1 | grep error | head -2',shell=True,capture_output=True)
    print(n,'->',r.stdout.decode(errors="replace")[:420].strip() or 'ACCEPTED?')
