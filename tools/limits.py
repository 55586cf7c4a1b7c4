"""What the program run_limits must write (crates/run_limits/stdout): a plain model of the whole-number frame, which shares nothing with the library. It serves the
pair list too: whole places, edges and radius powers of two, so that no operation of the list rounds."""
import struct
def spread(n,wide=10):
    return [((k%32)*wide+k%7, (k//32%32)*wide+k%5, (k//1024%16)*wide+k%3) for k in range(n)]
M=4242424242
def digest(xs):
    h=7
    for x in xs: h=(h%4294967291*31+x)%4294967291
    return h
ST=[(0,0,0),(0,0,1),(0,1,-1),(0,1,0),(0,1,1),(1,-1,-1),(1,-1,0),(1,-1,1),(1,0,-1),(1,0,0),(1,0,1),(1,1,-1),(1,1,0),(1,1,1)]
def build(edges,radius,p,npairs,nstarts,nitems):
    pairs=[M]*npairs; starts=[M]*nstarts; items=[M]*nitems
    n=len(p)
    if n>16384: return [2,n],pairs,starts,items
    b=[max(1,e//radius) for e in edges]
    if b[0]*b[1]*b[2]>min(32768,nstarts-1): return [7,0],pairs,starts,items
    cells=[[] for _ in range(b[0]*b[1]*b[2])]
    for i,q in enumerate(p):
        c=[q[k]*b[k]//edges[k] for k in range(3)]
        cells[(c[0]*b[1]+c[1])*b[2]+c[2]].append(i)
    s=0; it=[]
    for k,c in enumerate(cells):
        starts[k]=s; s+=len(c); it+=c
    starts[len(cells)]=s
    items[:n]=it
    count=0; checks=0
    def near(i,j):
        t=0
        for k in range(3):
            d=abs(p[i][k]-p[j][k]); d=min(d,edges[k]-d); t+=d*d
        return t<=radius*radius
    for cx in range(b[0]):
        for cy in range(b[1]):
            for cz in range(b[2]):
                home=cells[(cx*b[1]+cy)*b[2]+cz]
                if not home: continue
                for s,(dx,dy,dz) in enumerate(ST):
                    o=cells[((cx+dx)%b[0]*b[1]+(cy+dy)%b[1])*b[2]+(cz+dz)%b[2]]
                    cand=[(home[a],home[c]) for a in range(len(home)) for c in range(a+1,len(home))] if s==0 else [(i,j) for i in home for j in o]
                    for i,j in cand:
                        i,j=min(i,j),max(i,j)
                        checks+=1
                        if near(i,j):
                            if 2*count+1<npairs: pairs[2*count]=i; pairs[2*count+1]=j
                            count+=1
    if count>npairs//2: return [8,count],pairs,starts,items
    return [0,0,count,checks,0],pairs,starts,items
def line(r):
    print(*r[0],digest(r[1]),digest(r[2]),digest(r[3]))
p=spread(16385)
line(build((320,320,320),10,p[:16384],200000,32769,16390))
line(build((320,320,320),10,p[:16384],200000,32768,16390))
line(build((320,320,320),10,p,200000,32769,16390))
line(build((3,3,3641),1,[(1,1,1),(1,1,1)],200000,32769,16390))

# ---- the pair list: the state (pairs, references, checks, fallback, builds) and the references besides
def halves(xs):
    for x in xs:
        b=struct.unpack('>Q',struct.pack('>d',x))[0]
        yield b>>32
        yield b&0xffffffff
def update(state,edges,radius,p,refs,nstarts,npairs=200000,nitems=16390):
    r,pairs,starts,items=build(edges,radius,p,npairs,nstarts,nitems)
    if r[0]==0:
        refs=[float(x) for q in p for x in q]+refs[3*len(p):]
        state=[r[2],len(p),r[3],r[4],(state[4]+1)%2**32]
    print(r[0],r[1],int(r[0]==0),*state,digest(pairs),digest(halves(refs)),digest(starts),digest(items))
    return state,refs
p=spread(16385,8)
new=[0,0,0,0,0]
after,refs=update(new,(256,256,256),8,p[:16384],[0.0]*49155,32769)
print(0,0,0,'')
update(after,(256,256,256),8,p[:16384],refs,32768)
update(after,(256,256,256),8,p,refs,32769)
print(2,16385,'')
update(new,(3,3,3641),1,[(1,1,1),(1,1,1)],[0.0]*6,32771,2,2)

# ---- verlet: masses 1, velocities 0.5, units 1. Each atom has 0.375; the target is four times the temperature, so that velocities are doubled
def bits(x): return struct.unpack('>Q',struct.pack('>d',x))[0]
print(0,0,bits(0.375*16384),0,0,bits(0.25),0,0,digest(halves([1.0]*49152)))
print(*[2,16385]*3,digest(halves([0.5]*49155)))

# ---- the other calls that take atoms, one more than the most: zeros, merge, add_pair_force, pressure_tensor (velocities 0.25), lj_pairs, coulomb_pairs,
# bonds_all, lj_all, coulomb_all, evaluate. Each is refused, and the forces, 0.5, stay
for lent in [0.5]*3+[0.25]+[0.5]*6: print(2,16385,digest(halves([lent]*49155)))

# ---- the whole-number frame past half its edge (02, No. 3): twice the radius is above a periodic edge. The atoms are counted first; nothing lent changes
def past_half(n,edge=320,radius=161):
    assert 2*radius>edge
    print(*([2,n] if n>16384 else [3,0]),digest([M]*4),digest([M]*9),digest([M]*16390))
past_half(16384)
past_half(16385)

# ---- calls that no line of the replay asks for: of_bits, argon, listed, atoms_in
NAN=0x7ff8000000000000
def is_nan(w): return w%2**63>0x7ff0000000000000
print(*[NAN if is_nan(w) else w for w in [2**63,1,bits(1.0),bits(-1.0),2**64-2**52,0x7ff0000000000001,NAN+1,2**64-1]])
print(bits(0.0103),bits(3.4),bits(2.5*3.4),1,'')
def part(number,xs): print(number,0,len(xs),digest(xs))
rows=[0,1,0,2,1,2,7]
for count in [2,3,4]: part(*((6,[]) if count>len(rows)//2 else (0,rows[:2*count])))
for cell,last in [(0,3),(1,3),(2,3),(3,3),(2,1),(2,4)]:
    starts,items=[0,2,2,last],[5,6,7]
    held=cell+1<len(starts) and starts[cell]<=starts[cell+1]<=len(items)
    part(*((0,items[starts[cell]:starts[cell+1]]) if held else (1,[])))
