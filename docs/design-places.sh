#!/usr/bin/env bash
# docs/design-places.sh: the places of each point of docs/DESIGN-PASS.md, counted in crates/*/src of the repository that it is run in; each
# command counts the old form.
cd "$(git rev-parse --show-toplevel)" || exit 2

# the lines of code that match: no comments, no `ghost use`, no clauses
code() { grep -rnE "$1" crates/*/src | grep -vE ':[[:space:]]*(//|ghost |requires|ensures)'; }

n() { printf '%-4s' "$1"; shift; printf '%s\n' "$*"; }

n 1a "$(code '(enum (Found|Answer|Run|Place|Input|Frame|Read)|struct Outcome) ' | wc -l)" 'types'

n 1b "$(code '\b(Answer::(Done|Refused)|Found::(At|Nowhere)|Run::(At|Nowhere)|Place::(At|Refused)|Input::(Bytes|Failed)|Frame::Damage|Read::(Whole|Cut|End))\b' | wc -l)" 'functions that make or match one of these enums'

n 1c "$(code '\bOutcome \{' | grep -v 'struct ' | wc -l)" 'functions that make an Outcome'

n 1d "$(code '(Answer|Place)::Refused\(\w*\) =>|(Run|Found)::Nowhere =>' | wc -l)" 'arms that hand on a refusal or a none, or make it anew (?, map, ok_or in place of it)'

n 1e "$(code 'fn refusal_before\(.*-> u32|if refusal != 0|number_of\(.*\) != 0' | wc -l)" 'a refusal as a number, 0 for none'

n 1f "$(code 'fn table_word\(.*-> u16|fn segment_at\(.*-> Answer|fn run\(.*-> usize' | wc -l)" 'a number that stands for "none" or that nobody reads'

n 1g "$(code '^ *[1-9][0-9]*(\.\.=[0-9]+)? =>|^ *\[[1-6],.*\] =>|_TAG if|^ *0\.\.=TRUSTED if|const (FREE|VERSION)\b|fn (owner_of|starts_segment|start_code|later_code)\(|version: u8' | wc -l)" 'kinds as numbers'

n 1h "$(code 'fn (wrong_lent|wrong_size|free_at_end|free_to_even)\(' | wc -l)" 'tests by bool or by 0/1 whose caller adds the refusal or the meaning'

n 2a "$(code 'fn (joined|byte_of|word_of|zero_byte|zero_word|further|before|above|below|word_at|ram_byte_at|flash_word_at|ram_byte|flash_word|entry)\(' | wc -l)" 'functions that differ in a type'

n 2b "$(code 'fn (low|high|push_local|push_cross|even_code|odd_code|set_even|set_odd|start_code|later_code|store_at|call_at|malloc_at|free_at|change_at|is_domain|is_module)\(' | wc -l)" 'functions that differ in a half, a size or a constant'

n 2c "$({ grep -rnE 'fn (apart_from|in_any_order|good_config|good_state|usual|unusual|change|set_up)\(' crates/good/src crates/hmt_c/src; code 'fn (multiples|good_bounds|indices_good|fill_table)\('; } | wc -l)" 'the same walk or test over another source, or with another end'

n 2d "$(grep -HnE 'fn (code_at|segment_blocks|set_run|set_free|lowest_run)\(' crates/map/src/by_address.rt | wc -l)" 'functions that differ in the kind of place they take: an address or a block'

n 2e "$(code 'frames::(LOCAL|CROSS)_BYTES\b|used < (LOCAL|CROSS)_BYTES|(LOCAL|CROSS)_BYTES <= used|in_range\(code, site\)' | wc -l)" 'arms or tests written twice, for a local and a cross-domain frame'

n 2f "$(code 'enum (Found|Run|Answer|Place) ' | wc -l)" 'types'

n 2g "$(code 'const (RAM_BYTES|TABLE_WORDS|TABLE_BYTES|DOMAINS|LOCAL_TAG|MOST_BYTES|MOST_TEXT)\b|; 8\]|^ *255 =>|\b65537\b' | wc -l)" 'one constant written more than once, or in two types'

n 3a "$(code '\b(while|loop)\b' | wc -l)" 'loops'

n 3b "$(code '(\+|-)= ' | wc -l)" 'lines that step a counter by hand'

n 3c "$(code 'code_range\(bytes, at, [0-7]\)|(area|slot)\[(at|BOUND|SAFEPOINTER|DOMAIN)( \+ [0-9])?\] = |input\[[0-9]\] != |at = put_field\(' | wc -l)" 'lists written out by hand'

n 3d "$(code '= put_decimal\(out, at, n / 10\)' | wc -l)" 'a loop as a recursion'

n 4a "$(code '\.0( [-+] [a-z0-9]+)? (==|!=|<=|<|>=|>) ([a-z_]+\.)*[a-z_]+\.0' | wc -l)" 'comparisons by .0 of two addresses of one kind'

n 4b "$(code '\.0\b[^|&]* (==|!=|<=|<|>=|>) | (==|!=|<=|<|>=|>) [^|&]*\.0\b' | grep -v % | grep -vE '\.0( [-+] [a-z0-9]+)? (==|!=|<=|<|>=|>) ([a-z_]+\.)*[a-z_]+\.0' | wc -l)" 'comparisons by .0 with a number or a difference'

n 4c "$(code 'fn (low|high|joined|byte_of|word_of|entry|ram_byte|flash_word|ram_byte_at|flash_word_at|number_of_refusal|number_of|value_of|refused|packed)\(' | wc -l)" 'conversions written by hand'

n 4d "$(code '\b(low|high|joined|byte_of|word_of|entry|ram_byte|flash_word|ram_byte_at|flash_word_at|number_of_refusal|number_of|value_of|refused|packed)\(' | grep -vE '\bfn ' | wc -l)" 'calls of these'

n 4e "$(code '\b(RamByte|FlashWord|Block)\(' | grep -v 'crates/rules/' | wc -l)" 'addresses made from numbers by the constructor, outside rules'

n 4f "$(code 'Refusal::[A-Za-z]+ => [0-9]+,|^ *[1-9][0-9]* =>|^ *0\.\.=|^ *\[[1-6],.*\] =>|_TAG if|Frame::[A-Za-z]+(\(.*\))? => (state\.)?domain' | wc -l)" 'match tables between enum and number'

n 4g "$(code 'fn (zeros|zero_byte|zero_word|first_block|fresh)\(' | wc -l)" 'default values and zeros by hand'

n 4h "$(code 'out\[at\] = text\[i\]|ram\[at as usize\] = byte|\] = (low|high)\(|(next|state)\.[a-z]+ = ' | wc -l)" 'copying by hand'

n 4i "$(code 'fn (put_text|put_decimal|put_field|put_line|put_set_up|put_lines)\(' | wc -l)" 'printing by hand'

n 4j "$(code '#\[derive\(Clone, Copy\)\]' | wc -l)" 'types that derive only Clone and Copy'

n 4k "$(code ' as (u8|u16|u32|usize)\b' | wc -l)" 'casts by as'

n 5a 'facts'
python3 -c "
import re,glob,collections
c=collections.Counter()
for f in glob.glob('crates/*/src/*.rt'):
  for l in open(f):
    m=re.match(r'\s*requires (?:\w+ )?\{ (.*) \}$',l)
    if m: c.update({re.sub(r'\.(old|now)\b','',re.sub(r'^\((.*)\)$',r'\1',p.strip())) for p in m[1].split(' × ')})
for k,n in c.most_common():
  if n>2: print(n,k)"

n 5b 'parameters that travel together'
python3 -c "
import re,glob
t=''.join(open(f).read() for f in glob.glob('crates/*/src/*.rt'))
s=[set(re.findall(r'(\w+): ',a)) for a in re.findall(r'\bfn \w+[^(]*\(([^)]*)\)',t)]
for g in 'state ram|config ram a|bot ram k|bot ram k code|bot ram k n|bot ram k n code|ram slot|target site pointer|state called word target pointer|state ram table|bytes at|input at|area used|low high|state ram address|state ram size|out start|state frame|state code|config a|config ram|config domain|k n'.split('|'): m=sum(set(g.split())<=x for x in s); m>2 and print(m,g)"

n 5c 'parameters that only the contract speaks of'
python3 -c "
import re,glob
for f in sorted(glob.glob('crates/*/src/*.rt')):
  for n,a,b in re.findall(r'\bfn (\w+)[^(]*\(([^)]*)\)[^{]*?(?:\n    (?:requires|ensures)[^\n]*)*\n?\s*\{\n(.*?)\n\}',open(f).read(),re.S):
    for p in re.findall(r'(\w+): ',a):
      if not re.search(r'\b'+p+r'\b',b): print(f,n,p)"

n 6a "$(code 'fn .*\b(out|area|bytes|input|slot): &(mut )?\[u8\],.*\b(at|start|used|from): (u16|usize)' | wc -l)" 'a buffer and a place in it as two parameters'

n 6b "$(code 'fn (put_text|put_decimal|put_field|put_line|put_set_up|put_lines|run|read_input|print)[(<]' | wc -l)" 'functions that hand back how far they wrote or read'

n 6c "$(code 'fn .*ram: &(mut )?(\[u8\]|Ram),.*\bn: u16' | wc -l)" 'a run of bytes or blocks of RAM as RAM, a first one and a count'

n 6d "$(code 'let mut (at|place|i|left|done|run|k|start|count)\b' | grep -v '= \[0' | wc -l)" 'places and counts as local variables that are stepped'

n 6e "$(code '\.len\(\) (!=|<) [A-Z_a-z:]*(BYTES|WORDS|MOST_TEXT)\b|2 \* \(at as usize\)|4 \* \(count_at' | wc -l)" 'a table of words as bytes, and fixed sizes by a test of the length'

n 7a "$(code 'extern "C" fn hmt_' | wc -l)" 'exports of hmt_c: lengths and state, one step, the answer packed'

n 7b "$(code 'operate\(state, ram, .*Operation::' | wc -l)" 'wrappers of operate, alike but for the operation'

n 7c "$({ code 'fn (usual|unusual|store_at|call_at|malloc_at|free_at|change_at|indices_good|fill_table)\('; grep -HnE 'fn (change|set_up|good_config|good_state)\(' crates/hmt_c/src/slot.rt; grep -HnE 'fn (free|change|malloc|store)\(' crates/operations/src/lib.rt; } | wc -l)" 'near-equal pairs and families that differ in the step in their middle'

n 7d "$({ code '(Operation|Frame)::[A-Z][a-z]+(\(.*\))?( if .*)? =>|^ *[1-6] =>|^ *\[[1-6],.*\] =>'; code 'if k\.0 % PER_BYTE == 0'; } | wc -l)" 'switches on which step to run'

n b1 "$(code 'return (true|false);' | wc -l)" 'return true; and return false;, tests in a row in place of && and ||'

n b2 "$(code 'return (Answer|Place)::Refused\(|return refused\(|return Read::Cut|return Frame::Damage' | wc -l)" 'refusals returned one test at a time'

n b3 "$(code '=> return |=> \{ return' | wc -l)" 'return in an arm of a last match or at a function’s end, where the value could stand'

n b4 "$(code '^ +(\w+): \1,$' | wc -l)" 'fields written name: name'

n tw 'pairs of functions whose bodies are alike, word by word, to 0.8 or more'
python3 -c "
import re,glob,difflib,itertools
F=[(f.split('/')[1]+'::'+n,re.findall(r'\w+|[^\w\s]',b)) for f in sorted(glob.glob('crates/*/src/*.rt')) for n,b in re.findall(r'^(?:pub )?(?:extern .C. )?fn (\w+).*?\{\n(.*?)^\}',open(f).read(),re.S|re.M)]
for (a,x),(b,y) in itertools.combinations(F,2):
  if min(len(x),len(y))>7:
    r=difflib.SequenceMatcher(None,x,y,autojunk=False).ratio()
    if r>=.8: print('%.2f'%r,a,b)"
