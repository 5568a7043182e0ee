# resolve.py FILE: prints numbered conflicts; resolve.py FILE o,t,u,... picks ours/theirs/union for each
import re,sys
p=sys.argv[1]; s=open(p,encoding='utf-8').read()
parts=re.split(r'<<<<<<< [^\n]*\n(.*?)=======\n(.*?)>>>>>>> [^\n]*\n',s,flags=re.S)
picks=sys.argv[2].split(',') if len(sys.argv)>2 else None
out=[parts[0]]
for k in range(1,len(parts),3):
    o,t,rest=parts[k],parts[k+1],parts[k+2]
    if picks is None:
        print('-----',(k-1)//3,'OURS'); print(o[:1500]); print('----- THEIRS'); print(t[:1500]); continue
    c=picks[(k-1)//3]
    out.append({'o':o,'t':t,'u':o+t,'n':o.rstrip('\n')+'\n\n'+t}[c]); out.append(rest)
if picks: open(p,'w',encoding='utf-8').write(''.join(out))
