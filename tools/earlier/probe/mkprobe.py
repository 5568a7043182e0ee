#!/usr/bin/env python3
"""mkprobe.py ROOT OUT.a: an archive of ROOT's crates without any proof (the C functions but the provider's), for measuring alone. README.md beside it."""
import sys,os,re,subprocess,shutil,glob
root=os.path.realpath(sys.argv[1]); out=os.path.abspath(sys.argv[2])
work=os.environ['PROBE']; sc=work+'/'+os.path.basename(root); shutil.rmtree(sc,ignore_errors=True); os.makedirs(sc+'/crates')
for c in os.listdir(root+'/crates'):
    if c in('neukolja','provider'): continue
    os.symlink(f'{root}/crates/{c}',f'{sc}/crates/{c}')
shutil.copytree(root+'/crates/neukolja',sc+'/crates/neukolja')
p=sc+'/crates/neukolja/src/lib.rt'; s=open(p).read()
s=re.sub(r'#\[no_mangle\]\npub extern "C" fn neukolja_(provider|argument_to_term|term_to_argument)\(.*?\n\}\n','',s,flags=re.S)
s='\n'.join(l for l in s.split('\n') if not l.startswith('use provider'))
open(p,'w').write(s)
t=open(root+'/crates.txt').read().replace(' provider ',' ')
t='\n'.join(l for l in t.split('\n') if not l.startswith('provider:'))
t+='\nprobe: neukolja io libc\n'
open(sc+'/crates.txt','w').write(t)
os.makedirs(sc+'/crates/probe/src')
open(sc+'/crates/probe/src/main.rt','w').write(open(os.path.dirname(os.path.realpath(__file__))+'/probe_main.rt.txt').read())
for f in glob.glob(work+'/tc/saved*'): os.remove(f)
r=subprocess.run([work+'/rt','try','probe'],cwd=sc,env=os.environ,capture_output=True,text=True)
b=sorted(glob.glob(work+'/tc/saved*module.bc'))
if not b: print(r.stdout[-500:],r.stderr[-500:]); sys.exit(1)
cl=work+'/tc/bin/clang.real'
T=['--target=x86_64-unknown-linux-gnu']
subprocess.check_call([cl,*T,'-x','ir','-S','-emit-llvm','-O0',b[0],'-o',sc+'/m.ll'])
m=open(sc+'/m.ll').read()
m=re.sub(r'define internal void @"neukolja::(?:sheet_steps::)?neukolja_(\w+)"',r'define void @"rt_\1"',m)
m=re.sub(r'@"neukolja::(?:sheet_steps::)?neukolja_(\w+)"',r'@"rt_\1"',m)
open(sc+'/m2.ll','w').write(m)
subprocess.check_call([cl,*T,'-march=x86-64','-ffunction-sections','-fdata-sections','-mllvm','-trap-unreachable','-mllvm','-no-trap-after-noreturn','--no-default-config','-c','-x','ir',sc+'/m2.ll','-o',sc+'/module.o','-fPIC','-O3'])
subprocess.check_call(['objcopy','--redefine-sym','main=probe_main',sc+'/module.o',sc+'/m2.o'])
subprocess.check_call(['gcc','-O2','-fPIC','-c',os.path.dirname(os.path.realpath(__file__))+'/shim.c','-o',sc+'/shim.o'])
os.makedirs(os.path.dirname(out),exist_ok=True)
if os.path.exists(out): os.remove(out)
subprocess.check_call(['ar','rcs',out,sc+'/m2.o',sc+'/shim.o'])
