import re,json
t=open('._builtin/src/constants.rt',encoding='utf-8').read()
def arr(name):
    m=re.search(r'pub static %s: [^=]*= ?\[\n(.*?)\n?\];'%name,t,re.S); return m.group(1)
TEXT=re.search(r'pub static TEXT: &str =\s*"([^"]*)"',t).group(1)
nums=lambda n:[int(x) for x in re.findall(r'\d+',arr(n))]
NUMBERS,SLOTS,NEAR,PLACES,KIND_SLOTS,ENTRY_SLOTS=map(nums,['NUMBERS','SLOTS','NEAR','PLACES','KIND_SLOTS','ENTRY_SLOTS'])
NAMES=[(int(a),int(b)) for a,b in re.findall(r'Span\((\d+), (\d+)\)',arr('NAMES'))]
ITEMS=[(int(a),b) for a,b in re.findall(r'kind: (\d+),\s*quantifier: Quantifier::(\w+)',arr('ITEMS'))]
ENT=[list(map(int,re.findall(r'\d+',l))) for l in arr('ENTRIES').strip().split('\n')]
ENUM=[list(map(int,re.findall(r'\d+',l))) for l in arr('ENUMERANTS').strip().split('\n')]
KINDS=[(c,*map(int,re.findall(r'\d+',r))) for c,r in re.findall(r'KindRow\(\s*Category::(\w+),(.*?)\n    \),',arr('KINDS'),re.S)]
FORMS=re.findall(r'Form::(.*?),\n',arr('FORMS')+'\n')
g=json.load(open('/usr/include/spirv/unified1/spirv.core.grammar.json'))
names=lambda a,b:[TEXT[x:y] for x,y in NAMES[a:b]]
kinds=[]
for k in g['operand_kinds']:
    if k['kind'] not in kinds: kinds.append(k['kind'])
first={}
for i,(op,*_ ) in enumerate(ENT): first.setdefault(op,i)
assert all(PLACES[o]==first.get(o,2**32-1) for o in range(len(PLACES))) and max(first)==len(PLACES)-1
assert [e[0] for e in ENT]==sorted(e[0] for e in ENT)
for e,i in zip(ENT,g['instructions']):
    assert (e[0],TEXT[e[1]:e[2]])==(i['opcode'],i['opname'])
    ops=ITEMS[e[3]:e[4]]
    assert [(kinds[k],{'One':None,'Maybe':'?','Many':'*'}[q]) for k,q in ops]==[(o['kind'],o.get('quantifier')) for o in i.get('operands',[])]
    assert names(e[5],e[6])==i.get('capabilities',[])
    n=e[7]; assert all(q!='One' for _,q in ops[len(ops)-n:]) and (n==len(ops) or ops[len(ops)-n-1][1]=='One')
seen=set(); j=0
for k,name,f in zip(KINDS,kinds,FORMS):
    src=[x for x in g['operand_kinds'] if x['kind']==name][0]
    assert k[0]==src['category'] and TEXT[k[1]:k[2]]==name
    rows=ENUM[k[5]:k[6]]; near=NEAR[k[9]:k[10]]; slots=SLOTS[k[7]:k[8]]
    vals=[r[0] for r in rows]; assert vals==sorted(vals)
    for v in range(64):
        p=near[v] if v<len(near) else 2**32-1
        assert (p if p<len(rows) else None)==(vals.index(v) if v in vals else None),(name,v)
    assert len(slots)>8
    print(name,f,len(rows),len(near),len(slots)) if len(rows)<2 else None
print('fine',len(KINDS))
