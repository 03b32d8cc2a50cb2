"""Examples for layout.py, worked by hand from docs/LAYOUT.md: events, and the bytes that they are written as. Run: python3 test_layout.py"""
import inspect
import sys
sys.setrecursionlimit(100000)
from layout import *
LS="\u2028"
fails=0; n=0
def check(got, want):
    global fails,n
    n+=1
    if got!=want:
        line=inspect.currentframe().f_back.f_lineno
        fails+=1; print("test_layout.py, line",line,"\n  got ",repr(got),"\n  want",repr(want))
def frame(nodes, **kw):
    return [StreamStart("any"),DocStart(None,(),True)]+list(nodes)+[DocEnd(True),StreamEnd()]
def run(nodes, st=None, framed=True):
    L=frame(nodes) if framed else list(nodes)
    out,ans,f,em=run_events(st or Settings(),L)
    return out,[a for a in ans if a],f
def S(**k): return Settings(**k)
def txt(nodes, st=None, framed=True):
    o,a,f=run(nodes,st,framed); assert not a and not f,(a,f); return o.decode()
def V(v,style="any",**k): return Scalar(value=v,style=style,**k)
def W(w,**k): return S(width=w,**k)
# ---- scalars, keys, tags, limits, dumps
check(txt([V("")]),"\n")
check(txt([V("a\n\n","literal")]),"|+\n  a\n\n...\n")
check(txt([V("\n","literal")]),"|2+\n\n...\n")
check(txt([V("a\nb\n\n c\n","folded")]),">\n  a\n\n  b\n\n   c\n")
check(txt([V(" aaaaaa b","folded")],W(5)),">2-\n   aaaaaa b\n")
check(txt([V("aaaaaa  b","double")],W(5)),'"aaaaaa\n  \\ b"\n')
check(txt([V("a:")]),"'a:'\n")
M=lambda *x,style="block",**k:[MapStart(style=style,**k),*x,MapEnd()]
Q=lambda *x,style="block",**k:[SeqStart(style=style,**k),*x,SeqEnd()]
check(txt(M(Alias("a"),V("v"))),"*a : v\n")
check(txt(M(*Q(style="any"),V("v"))),"[]: v\n")
check(txt(M(V("x"*129),V("v"))),"? "+"x"*129+"\n: v\n")
check(txt(M(V("x"*128),V("v"))),"x"*128+": v\n")
check(txt(M(V("é"*65),V("v")),S(unicode=True)),"? "+"é"*65+"\n: v\n")
check(txt([StreamStart(),DocStart(),V("a"),DocEnd(),DocStart(None,(("!e!","tag:e.com,2000:"),),True),Scalar(None,"tag:e.com,2000:t","x",False,False),DocEnd(),StreamEnd()],framed=False),"a\n...\n%TAG !e! tag:e.com,2000:\n--- !e!t x\n")
def T(tag,v="x",**k): return Scalar(None,tag,v,False,False,**k)
check(txt([T("!")]),"!<%21> x\n"); check(txt([T("!a!b")]),"!a%21b x\n"); check(txt([T("tag:yaml.org,2002:")]),"!<tag:yaml.org,2002:> x\n")
check(run([T("")])[1],[17,17,17])
check(txt(M(Scalar("a","tag:yaml.org,2002:str","k",False,False),Alias("a"),tag="tag:yaml.org,2002:map"),S(canonical=True)),'---\n!!map {\n  ? &a !!str "k"\n  : *a,\n}\n')
check(txt([Scalar(None,None,"a",True,False)],S(canonical=True)),'---\n! "a"\n')
check(run([V("\U0001F600")],S(encoding="utf16le",unicode=True))[0].hex(),"fffe3dd800de0a00")
check(run([V("a")],S(encoding="utf16be",limit=3)),(bytes.fromhex("feff00"),[20,20],20))
check(run([V("a")],S(encoding="utf16be",limit=6)),(bytes.fromhex("feff0061000a"),[],None))
STR="tag:yaml.org,2002:str";SEQ="tag:yaml.org,2002:seq";MAP="tag:yaml.org,2002:map"
def dump(*docs,st=None):
    L=[StreamStart()]
    for d in docs: L+=document_events(d,DocStart(),DocEnd())
    L.append(StreamEnd()); return txt(L,st,False)
nS=lambda *i:("seq",SEQ,list(i),"block"); nV=lambda v,t=STR:("scalar",t,v,"any"); nM=lambda *p:("map",MAP,list(p),"block")
check(dump([nS(2),nS(3,3),nV("a")]),"- - &id001 a\n  - *id001\n")
check(dump([nS(1)]),"&id001\n- *id001\n")
o,a,f,em=run_events(S(),[DocStart(),V("a"),V("b")]); check((o,a,em.held),(b"",[None,1,1],0))
o,a,f,em=run_events(S(),[StreamStart(),DocStart(),SeqStart("a",style="flow"),SeqStart(style="flow"),V("x")]); check((o,f,em.held),(b"&a",None,2))
check(run([StreamStart(),StreamEnd()],framed=False)[0],b""); check(run([StreamStart(),StreamEnd()],S(encoding="utf16be"),framed=False)[0].hex(),"feff")
check(txt(Q(Scalar(None,"tag:yaml.org,2002:int","5",False,False),Scalar(None,STR,"a",True,True),tag=SEQ),S(canonical=True,width=-1)),'---\n!!seq [\n  !!int "5",\n  !!str "a",\n]\n')
# ---- one of each kind
check(txt([V("foo")]),"foo\n")
check(txt(M(V("a"),*Q(V("b"),V("c")))),"a:\n- b\n- c\n")
check(txt(Q(V("a"),V("b"),style="flow")),"[a, b]\n")
check(txt(Q(V("a")),S(canonical=True)),'---\n[\n  "a",\n]\n')
check(txt([V("é")]),'"\\xE9"\n')
check(txt([V("a\nb","single")]),"'a\n\n  b'\n")
check(txt([V("aaaaaa b")],W(5)),"aaaaaa\n  b\n")
check(txt([V("- x")]),"'- x'\n")
check(txt([T("tag:yaml.org,2002:int","5")]),"!!int 5\n")
check(txt([T("!foo")]),"!foo x\n")
check(dump([nS(2,2),nV("a")]),"- &id001 a\n- *id001\n")
check(run([V("foo")],S(limit=2)),(b"fo",[20,20],20))
check(txt([StreamStart(),DocStart(implicit=False),V("foo"),DocEnd(False),StreamEnd()],framed=False),"--- foo\n...\n")
check(txt([StreamStart(),DocStart((1,1)),V("foo"),DocEnd(),StreamEnd()],framed=False),"%YAML 1.1\n--- foo\n")
check(txt(M(Alias("a"),V("v"),style="flow")),"{*a : v}\n")
check(txt(Q(V(" a","literal"))),"- |2-\n   a\n")
U=S(unicode=True)
check(txt([V("a"+LS+"b","single")],U),"'a"+LS+"  b'\n")
check(txt([V("a\n"+LS+"b","single")],U),"'a\n\n"+LS+"  b'\n")
check(txt([V("a"+LS+"\nb","single")],U),"'a"+LS+"\n  b'\n")
check(txt([V("a\n"+LS+"b","folded")],U),">-\n  a\n\n"+LS+"  b\n")
check(txt([V("a"+LS+"\nb","folded")],U),">-\n  a"+LS+"\n  b\n")
check(txt(Q(*Q(V("a"))),S(indent=4)),"-   - a\n")
check(txt(M(*Q(V("b")),V("v"))),"? - b\n: v\n")
check(txt(M(V("a"),*Q(V("b"),anchor="x"))),"a: &x\n- b\n")
check(txt(Q(*M(V("a"),V("b")))),"- a: b\n")
check(txt(M(V("a"),*M(V("b"),V("c")))),"a:\n  b: c\n")
check(txt(Q(V(""),style="flow")),"['']\n")
check(txt(M(V("a"),V(""))),"a:\n")
check(txt(M(V(""),V("v"))),"'': v\n")
check(txt([StreamStart(),DocStart(),V("a\n\n","literal"),DocEnd(),DocStart(),V("b"),DocEnd(),StreamEnd()],framed=False),"|+\n  a\n\n--- b\n")
check(txt([V("a\n","literal")],S(line_break="crln")),"|\r\n  a\r\n")
check(txt(Q(V("aaaa"),V("bb"),style="flow"),W(5)),"[aaaa,\n  bb]\n")
check(txt([V("\0\a\"\\\x85\x7f")]),'"\\0\\a\\"\\\\\\N\\x7F"\n')
check(txt([V("\U0001F600")]),'"\\U0001F600"\n')
C=S(canonical=True,width=-1)
def CS(**k): return S(canonical=True,width=-1,**k)
check(txt([V("a")],C),'---\n"a"\n')
# ---- canonical mode, errors, texts at their edges
check(txt([StreamStart(),DocStart(),V("a"),DocEnd(),DocStart(),V("b"),DocEnd(),StreamEnd()],C,False),'---\n"a"\n---\n"b"\n')
check(txt([StreamStart(),DocStart(),V("a"),DocEnd(False),StreamEnd()],C,False),'---\n"a"\n...\n')
check(txt([V("\n ")],C),'---\n"\\n "\n')
check(run([V("a")],CS(limit=4)),(b"---\n",[20,20],20))
check(txt(M(V("k"),V("v"),style="any"),C),'---\n{\n  ? "k"\n  : "v",\n}\n')
check(txt(Q(),C),'---\n[]\n'); check(txt(Q(*M()),C),'---\n[\n  {},\n]\n')
check(txt(Q(V("a")),CS(indent=4)),'---\n[\n    "a",\n]\n')
check(run([Scalar(None,None,"a",False,False)],C)[1],[18]*3)
o,a,f,em=run_events(C,[StreamStart(),DocStart(),MapStart(),V("a"),MapEnd()]); check(a[-1],4)
check(run([V("a")],CS(encoding="utf16be"))[0].hex(),"feff002d002d002d000a002200610022000a")
check(run([V("a")],CS(encoding="utf16be",limit=3)),(bytes.fromhex("feff00"),[20,20],20))
check(run([V("\U0001F600")],CS(encoding="utf16le",unicode=True))[0].hex(),"fffe2d002d002d000a0022003dd800de22000a00")
check(txt([V("a")],CS(line_break="cr")),'---\r"a"\r')
o,a,f,em=run_events(C,[StreamStart(),DocStart(),SeqStart(),V("a"),V("b")]); check((o,a,f,em.held),(b'---\n[\n  "a",\n  "b"',[None]*5,None,0))
for i,(t,w) in enumerate([("!",'!<%21> "x"'),("!a!b",'!a%21b "x"'),("tag:yaml.org,2002:",'!<tag:yaml.org,2002:> "x"')]): check(txt([T(t)],C),"---\n"+w+"\n")
def D(tags,node,version=None): return [StreamStart(),DocStart(version,tuple(tags),True),node,DocEnd(),StreamEnd()]
check(txt(D([("!e!","!x")],T("!xy")),C,False),'%TAG !e! %21x\n---\n!e!y "x"\n')
check(txt(D([("!!","tag:e.com,2000:")],T("tag:e.com,2000:t")),C,False),'%TAG !! tag:e.com,2000:\n---\n!!t "x"\n')
check(txt(D([("!!","tag:e.com,2000:")],T(STR)),C,False),'%TAG !! tag:e.com,2000:\n---\n!<tag:yaml.org,2002:str> "x"\n')
check(txt([T("!a\0")],C),'---\n!a%00 "x"\n'); check(txt([T("!é")],C),'---\n!%C3%A9 "x"\n')
check(txt([StreamStart(),DocStart(),V("a"),DocEnd(),DocStart((1,1)),V("b"),DocEnd(),StreamEnd()],C,False),'---\n"a"\n...\n%YAML 1.1\n---\n"b"\n')
def first(d): 
    o,a,f,em=run_events(C,[StreamStart(),d,V("x"),V("x")]); return [x for x in a if x][0]
check([first(DocStart((1,3),(("","x"),))),first(DocStart(None,(("","x"),))),first(DocStart(None,(("a!","x"),))),first(DocStart(None,(("!a","x"),))),first(DocStart(None,(("!a.b!","x"),))),first(DocStart(None,(("!e!",""),))),first(DocStart(None,(("!!","x"),("!!","x"))))],[6,7,8,9,10,11,12])
check(run([Scalar("","","x",False,False)],C)[1][0],13)
o,a,f,em=run_events(C,[Scalar("a b",None,"x")]); check(a,[14])
check(txt([V(" ")]),"' '\n"); check(txt([V(" \n","single")]),'" \\n"\n'); check(txt([V("\n","single")]),"'\n\n  '\n")
check(txt([V("éééé b c")],S(unicode=True,width=5)),"éééé b\n  c\n"); check(txt([V("'")]),"''''\n")
check(txt([V("\n\n","folded")]),">2+\n\n\n...\n"); check(txt([V("\n a","folded")]),">2-\n\n   a\n")
check(txt([V("aaaaaa  b","folded")],W(5)),">-\n  aaaaaa \n  b\n"); check(txt([V(" ","literal")]),'" "\n')
check(txt(M(V("x"*129),V("v"),style="flow"),W(-1)),"{? "+"x"*129+" : v}\n")
check(txt([StreamStart(),DocStart(),SeqStart("a",style="flow"),SeqStart(style="flow"),V("x"),SeqEnd(),SeqEnd(),DocEnd(),StreamEnd()],None,False),"&a [[x]]\n")
check(dump([nS(2,2),nS(3,3),nV("a")]),"- &id002\n  - &id001 a\n  - *id001\n- *id002\n")
check(dump([nM((2,1)),nV("k")]),"&id001\nk: *id001\n")
check(dump([nS(2,2),nV("a")],[nS(2,2),nV("a")]),"- &id001 a\n- *id001\n---\n- &id001 a\n- *id001\n")
check(dump([nV("5","tag:yaml.org,2002:int")]),"!!int 5\n")
L=[StreamStart(),DocStart(),SeqStart(style="flow"),V("a"),V("b")]
em=Emitter(S()); r=[em.emit(e) for e in L]+[em.flush(),em.emit(DocEnd()),em.flush()]; check((r,em.output),([None]*6+[4,4],b"[a, b"))
em=Emitter(S()); r=[em.emit(e) for e in [StreamStart(),DocStart(),SeqEnd()]]; check(r,[None,None,4])
full={"utf8":"f09f98800a","utf16le":"fffe3dd800de0a00","utf16be":"feffd83dde00000a"}
for enc,w in full.items():
    w=bytes.fromhex(w)
    for k in range(len(w)+2):
        o,a,f,em=run_events(S(unicode=True,encoding=enc,limit=k),frame([V("\U0001F600")])); check((o,a[3]),(w[:k],20 if k<len(w) else None))
n56=[nS(i+2,i+2) for i in range(40)]+[nV("a")]; ev=document_events(n56,DocStart(),DocEnd()); check((len(ev),sum(isinstance(e,Alias) for e in ev)),(123,40))
many=[StreamStart(),*document_events([nS(*list(range(2,1002))*2)]+[nV("x")]*1000,DocStart(),DocEnd()),StreamEnd()]
ls="".join(layout_of(effective(S(),"any"),many).pieces).split("\n"); check((ls[999],ls[1999]),("- &id1000 x","- *id1000"))
B12=S(unicode=True,breaks12=True)
check(txt([V("a"+LS+"b","single")],B12),'"a\\Lb"\n'); check(txt([V("a"+LS+"b","literal")],B12),'"a\\Lb"\n')
check(txt(M(V("a"+LS+"b"),V("v")),B12),'? "a\\Lb"\n: v\n')
check(dump([nM((2,1)),nV("k")],st=S(canonical=True)),'---\n&id001 !!map {\n  ? !!str "k"\n  : *id001,\n}\n')
check(dump([nS(2,2),nS(3,3),nV("a")],st=S(canonical=True)),dump([nS(3,3),nV("a"),nS(2,2)],st=S(canonical=True)))
# ---- indented sequences: in a mapping as any other block collection
I=S(indented_sequences=True); I4=S(indented_sequences=True,indent=4); K="k"*129
check(txt(M(V("a"),*Q(V("b"),V("c")),V("d"),V("e")),I),"a:\n  - b\n  - c\nd: e\n")
check(txt(M(*Q(V("b"),V("c")),V("v")),I),"? - b\n  - c\n: v\n")
check(txt(M(V(K),*Q(V("b"),V("c"))),I),"? "+K+"\n: - b\n  - c\n")
check([txt(M(V("a"),*Q(V("b"),anchor="x")),s) for s in (I,I4)],["a: &x\n  - b\n","a: &x\n    - b\n"])
check([txt(M(V("a"),SeqStart(None,"!t",False,"block"),V("b"),SeqEnd()),s) for s in (S(),I)],["a: !t\n- b\n","a: !t\n  - b\n"])
check([txt(M(*Q(V("b"),anchor="x"),V("v")),s) for s in (S(),I,I4)],["? &x\n- b\n: v\n","? &x\n  - b\n: v\n","? &x\n    - b\n: v\n"])
check([txt(M(V(K),*Q(V("b"),anchor="x")),s) for s in (S(),I)],["? "+K+"\n: &x\n- b\n","? "+K+"\n: &x\n  - b\n"])
check(txt(M(V("a"),*Q(V("b"),*M(V("c"),V("d"),V("e"),*Q(V("f"))))),I),"a:\n  - b\n  - c: d\n    e:\n      - f\n")
check(txt(M(V("a"),*Q(V("b"),*M(V("c"),V("d"),V("e"),*Q(V("f"))))),I4),"a:\n    - b\n    -   c: d\n        e:\n            - f\n")
check([txt(x,I) for x in (Q(V("a")),Q(*Q(V("a"))),Q(*M(V("a"),*Q(V("b")))))],["- a\n","- - a\n","- a:\n    - b\n"])
check([txt(x,I) for x in (M(V("a"),*Q()),M(V("a"),*Q(V("b"),style="flow")),M(V("a"),*M(V("b"),V("c"))))],["a: []\n","a: [b]\n","a:\n  b: c\n"])
check(txt(M(V("a"),*Q(V("b"))),S(canonical=True,indented_sequences=True)),txt(M(V("a"),*Q(V("b"))),C))
check(txt(M(V("a"),*Q(V("b\n","literal"),V("c d"))),S(indented_sequences=True,width=5)),"a:\n  - |\n    b\n  - c d\n")
check(txt(M(V("a"),*Q(V("b\n","literal"))),I4),"a:\n    - |\n        b\n")
check(txt(M(V("a"),*Q(V(" b\n","literal"))),I4),"a:\n    - |4\n         b\n")
print("test_layout.py:",n,"checks,",fails,"failures")
sys.exit(fails != 0)
