# The word that the program cupboard shows, worked out apart from it: a Reed-Solomon word of 15 symbols over the field of 16
# with 4 checks, and every code word within 2 symbols of it once it is spoiled. It shares no code with the library.
import itertools
def mul(a,b,m=4,M=19):
    r=0
    for i in range(m):
        if b>>i&1: r^=a<<i
    for k in range(m-1,-1,-1):
        if r>>(m+k)&1: r^=M<<k
    return r
def pw(x,j):
    r=1
    for _ in range(j): r=mul(r,x)
    return r
n,r=15,4
def checks(w):
    out=[]
    for j in range(r):
        s=0
        for i in range(n): s^=mul(pw(i,j),w[i])
        out.append(s)
    return out
data=[13,1,4,7,2,11,0,9,5,3,8]   # seats 0..10
# solve seats 11..14 by brute force
sol=None
for c in itertools.product(range(16),repeat=4):
    w=data+list(c)
    if checks(w)==[0]*4: sol=w;break
print(sol)
def near(w):
    # code words within 2 of w
    S=checks(w); found=[]
    if S==[0]*4: found.append(list(w))
    for i in range(n):
        for e in range(1,16):
            v=list(w); v[i]^=e
            if checks(v)==[0]*4: found.append(v)
    for i in range(n):
        for j in range(i+1,n):
            for e in range(1,16):
                for f in range(1,16):
                    v=list(w); v[i]^=e; v[j]^=f
                    if checks(v)==[0]*4: found.append(v)
    return found
w=list(sol); w[0]=6; w[9]=12
print(w,checks(w),near(w)==[sol])
for cand in [(2,5,11),(1,7,13),(0,4,8)]:
    v=list(sol)
    for k,s in enumerate(cand): v[s]^= [9,3,14][k]
    print(cand,v,checks(v),near(v))
