"""Random settings and lists of events, and their scripts."""
import random
from events import *
I32MIN,I32MAX=-2**31,2**31-1
ALPH_A=["a","b"," "," ","\n","x","-",":","#","'",'"',"\\","?",",","[","]","{","}","!","%","&","*","|",">","@","`","0",".","\t","\r","\x85","\u2028","\u2029","\xe9","\xa0","\ufeff","\x07","\0","\x7f","\ufffd","\ufffe","="]
ALPH_B=["a","b","c"," "," ","\n"]
ALPH_C=["a"," ","\n","\u2028"]
ALPH_W=["aaa","bbbb","cc"," "," ","  ","\n"]
def text(r,al=None,n=None):
    al=al or r.choice([ALPH_A,ALPH_B,ALPH_C,ALPH_W,["a"],["a","b"," "]])
    n=r.choice([0,1,2,3,4,5,8,15,40]) if n is None else n
    return "".join(r.choice(al) for _ in range(r.randint(0,n)))
def name(r): return "".join(r.choice("abz09_-AZ") for _ in range(r.randint(1,4)))
TAGS=["!","!!","!a","!a!b","tag:yaml.org,2002:str","tag:yaml.org,2002:int","tag:yaml.org,2002:","!e!x","tag:e.com,2000:t","tag:e.com,2000:","!\xe9","!x,[y]","a b","!!x","%","x\0y"[:1],"!long"+"y"*30]
DIRS=[("!e!","tag:e.com,2000:"),("!","tag:e.com,2000:"),("!!","!x"),("!a-b!","a"),("!e!","!"),("!q!","\xe9 %")]
def tag(r):
    k=r.random()
    return None if k<0.55 else r.choice(TAGS) if k<0.95 else text(r,None,6) or "!t"
def scalar(r,bad):
    t=tag(r); 
    p,q=r.random()<0.7,r.random()<0.7
    if t is None and not p and not q and not bad: p=True
    if t=="" : t=None; p=True
    return Scalar(name(r) if r.random()<0.15 else None,t,text(r),p,q,r.choice(["any","any","plain","single","double","literal","folded"]))
def node(r,depth,out,bad=0):
    k=r.random()
    if depth<=0 or k<0.5: out.append(scalar(r,bad)); return
    if k<0.58: out.append(Alias(name(r))); return
    t=tag(r); an=name(r) if r.random()<0.15 else None; imp=r.random()<0.6; st=r.choice(["any","block","block","flow"])
    n=r.choice([0,1,1,2,3])
    if k<0.79:
        out.append(SeqStart(an,t,imp,st))
        for _ in range(n): node(r,depth-1,out,bad)
        out.append(SeqEnd())
    else:
        out.append(MapStart(an,t,imp,st))
        for _ in range(n): node(r,depth-1,out,bad); node(r,depth-1,out,bad)
        out.append(MapEnd())
def events(r,bad=0,docs=None):
    out=[StreamStart(r.choice(["any","any","utf8","utf16le","utf16be"]))]
    for _ in range(r.choice([0,1,1,1,2,3]) if docs is None else docs):
        v=None if r.random()<0.8 else (1,r.choice([1,2]))
        ds=[]
        for h,p in r.sample(DIRS,r.choice([0,0,0,1,2])):
            if all(h!=x for x,_ in ds): ds.append((h,p))
        out.append(DocStart(v,tuple(ds),r.random()<0.7)); node(r,r.choice([0,1,2,3,4]),out,bad); out.append(DocEnd(r.random()<0.7))
    out.append(StreamEnd()); return out
def settings(r,seed=None):
    """With a seed a third of them indent sequences; that draws nothing, so what follows stays as it was."""
    return Settings(encoding=r.choice(["any"]*4+["utf8","utf16le","utf16be"]),canonical=r.random()<0.25,unicode=r.random()<0.6,
        indent=r.choice([None,None,2,3,4,9,1,10,0,-1]),width=r.choice([None,-1,0,4,5,6,8,10,20,80,I32MAX]),line_break=r.choice(["any","any","ln","cr","crln"]),
        indented_sequences=seed is not None and seed%3==0)
def quote(t):
    out=['"']
    for c in t:
        if c=="\\": out.append("\\\\")
        elif c=='"': out.append('\\"')
        elif c=="\n": out.append("\\n")
        elif c=="\0" or c=="\r": out.append("\\u{%X}"%ord(c))
        else: out.append(c)
    return "".join(out)+'"'
def opt(t): return "-" if t is None else quote(t)
def b(x): return "1" if x else "0"
def script(s,L):
    o=[]
    if s.limit!=1000000000: o.append("limit %d"%s.limit)
    if s.encoding!="any": o.append("encoding "+s.encoding)
    if s.canonical: o.append("canonical on")
    if s.unicode: o.append("unicode on")
    if s.indent is not None: o.append("indent %d"%s.indent)
    if s.width is not None: o.append("width %d"%s.width)
    if s.line_break!="any": o.append("break "+s.line_break)
    if s.breaks12: o.append("breaks12 on")
    if s.portable: o.append("portable on")
    if s.indented_sequences: o.append("sequences indented")
    if s.literal_blanks: o.append("blanks literal")
    for e in L:
        if isinstance(e,StreamStart): o.append("+STR "+e.encoding)
        elif isinstance(e,StreamEnd): o.append("-STR")
        elif isinstance(e,DocStart): o.append(" ".join(["+DOC",b(e.implicit),"-" if e.version is None else "%d.%d"%e.version]+[quote(x) for p in e.tags for x in p]))
        elif isinstance(e,DocEnd): o.append("-DOC "+b(e.implicit))
        elif isinstance(e,Alias): o.append("=ALI "+quote(e.anchor))
        elif isinstance(e,Scalar): o.append(" ".join(["=VAL",e.style,b(e.plain_implicit),b(e.quoted_implicit),opt(e.anchor),opt(e.tag),quote(e.value)]))
        elif isinstance(e,SeqStart): o.append(" ".join(["+SEQ",e.style,b(e.implicit),opt(e.anchor),opt(e.tag)]))
        elif isinstance(e,SeqEnd): o.append("-SEQ")
        elif isinstance(e,MapStart): o.append(" ".join(["+MAP",e.style,b(e.implicit),opt(e.anchor),opt(e.tag)]))
        elif isinstance(e,MapEnd): o.append("-MAP")
    return ("\n".join(o)+"\n").encode("utf-8")
