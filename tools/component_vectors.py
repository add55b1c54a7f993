# Prints the part of crates/replay/stdin that begins "# component codes at further lengths", calls and expected answers.
# It shares no code with the library. BCH answers come from looking at every code word. A Reed-Solomon answer is the code
# word that was spoiled: the checks of that word are worked out here, and at most four of its symbols are altered, so it is
# the one code word within the radius.
import random
random.seed(20261118)
def gmul(a,b,m,M):
    r=0
    for i in range(m):
        if b>>i&1: r^=a<<i
    for k in range(m-1,-1,-1):
        if r>>(m+k)&1: r^=M<<k
    return r
m16=lambda a,b:gmul(a,b,4,19)
m256=lambda a,b:gmul(a,b,8,285)
def inv256(a):
    return next(x for x in range(256) if m256(a,x)==1)
hexs=lambda w:''.join('%02x'%x for x in w) if w else '-'
out=['# component codes at further lengths, made by tools/component_vectors.py']
# BCH of every length and radius
def col(i,t):
    c=m16(i,m16(i,i))
    return 1|(i<<1)|((c<<5) if t==2 else 0)
for t in (1,2):
    for n in range(1,17):
        cols=[col(i,t) for i in range(n)]
        def syn(w):
            s=0
            for i in range(n):
                if w[i]: s^=cols[i]
            return s
        words=[]
        for x in range(1<<n):
            w=[x>>i&1 for i in range(n)]
            if syn(w)==0: words.append(w)
        def dec(w):
            near=[c for c in words if sum(a!=b for a,b in zip(c,w))<=t]
            assert len(near)<=1
            return near[0] if near else None
        cases=[]
        c=random.choice(words); cases.append(list(c))
        c=list(random.choice(words)); 
        for i in random.sample(range(n),min(t,n)): c[i]^=1
        cases.append(c)
        c=list(random.choice(words)); c[0]^=1; cases.append(c)
        cases.append([random.randrange(2) for _ in range(n)])
        c=list(random.choice(words))
        for i in random.sample(range(n),min(t+1,n)): c[i]^=1
        cases.append(c)
        for w in cases:
            d=dec(w)
            out.append(f'> decode bch {n} {t} {hexs(w)}')
            out.append('< '+('ok '+hexs(d) if d is not None else 'refused'))
# Reed-Solomon, 256 symbols, 8 checks, up to four errors, seat 0 among them
n,r=256,8
P=[[1]*n]
for j in range(1,r): P.append([m256(P[-1][i],i) for i in range(n)])
w=[0]*8+[random.randrange(256) for _ in range(n-8)]
S=[0]*r
for j in range(r):
    for i in range(n):
        if w[i]: S[j]^=m256(P[j][i],w[i])
# solve sum_{i<8} i^j c_i = S_j
A=[[P[j][i] for i in range(8)]+[S[j]] for j in range(r)]
for c in range(8):
    p=next(k for k in range(c,8) if A[k][c]); A[c],A[p]=A[p],A[c]
    v=inv256(A[c][c]); A[c]=[m256(v,x) for x in A[c]]
    for k in range(8):
        if k!=c and A[k][c]:
            f=A[k][c]; A[k]=[x^m256(f,y) for x,y in zip(A[k],A[c])]
for i in range(8): w[i]=A[i][8]
for j in range(r):
    s=0
    for i in range(n): s^=m256(P[j][i],w[i])
    assert s==0
def rs(word,ans):
    out.append(f'> decode rs 256 256 8 {hexs(word)}'); out.append('< ok '+hexs(ans))
rs(w,w)
for seats in ((0,),(0,255),(1,2,3),(0,17,128,255),(100,101,102,103),(252,253,254,255)):
    v=list(w)
    for s in seats: v[s]^=random.randrange(1,256)
    rs(v,w)
print('\n'.join(out))
