"""What a page holds after updates: its lines, values, stale bindings, and what became of each instance.

What is expected was worked out by hand from docs/PROTOCOL.md and docs/SCRIPT.md.
"""
from rows import play

# A counter whose importer accepts it by name.
COUNTER = (
    """\
root /main.js
quiet
edit /main.js
|import { count as c } from './counter.js'; export let count = c; if (import.meta.hot) { import.meta.hot.accept('./counter.js', (newCounter) => { count = newCounter?.count; console.log('count is now', count); }); }
edit /counter.js
|export const count = (import.meta.hot.data.count ?? 0) + 1; console.log('counter', count); if (import.meta.hot) { import.meta.hot.dispose((data) => { data.count = count; }); }
settle
open
turns 1 9
edit /counter.js
|export const count = (import.meta.hot.data.count ?? 0) + 10; console.log('counter', count);
settle
turns 1 9
show 1
values 1
fates 1
""",
    """\
1 log /counter.js counter 1
1 loaded
1 update /counter.js
1 accept /main.js /counter.js
1 log /counter.js counter 11
1 log /main.js count is now 11
1 updated
client 1 up
/counter.js 3
/main.js 1
stale /main.js /counter.js
values 1
value /counter.js count 11
value /main.js count 11
fates 1
instance 1 /counter.js 2 done replaced 3
dispose code spent
instance 2 /main.js 1 done live
dep code held
instance 3 /counter.js 3 done live
""",
)

# A leaf that accepts itself: its importer keeps what it had.
LEAF = (
    """\
root /m.js
quiet
edit /m.js
|import { a } from './a.js'; export let b = a;
edit /a.js
|export let a = 1; import.meta.hot.accept((m) => { a = m?.a; });
settle
open
turns 1 9
edit /a.js
|export let a = 2; import.meta.hot.accept();
settle
turns 1 9
show 1
values 1
fates 1
""",
    """\
1 loaded
1 update /a.js
1 accept /a.js /a.js
1 updated
client 1 up
/a.js 3
/m.js 1
stale /m.js /a.js
values 1
value /a.js a 2
value /m.js b 1
fates 1
instance 1 /a.js 2 done replaced 3
own code spent
instance 2 /m.js 1 done live
instance 3 /a.js 3 done live
""",
)

# An import that is removed and made again.
AGAIN = (
    """\
root /m.js
quiet
edit /m.js
|import './x.js'; import.meta.hot.accept();
edit /x.js
|console.log('seen', import.meta.hot.data.seen); import.meta.hot.data.seen = 1; import.meta.hot.dispose(() => console.log('dispose')); import.meta.hot.prune(() => console.log('prune'));
settle
open
turns 1 9
edit /m.js
|import.meta.hot.accept();
settle
turns 1 9
show 1
edit /m.js
|import './x.js'; import.meta.hot.accept();
settle
turns 1 9
show 1
fates 1
""",
    """\
1 log /x.js seen undefined
1 loaded
1 update /m.js
1 accept /m.js /m.js
1 updated
1 log /x.js dispose
1 log /x.js prune
1 pruned /x.js
client 1 up
/m.js 3
1 update /m.js
1 accept /m.js /m.js
1 log /x.js seen undefined
1 updated
client 1 up
/m.js 4
/x.js 2
fates 1
instance 1 /x.js 2 done pruned
dispose code spent
prune code spent
instance 2 /m.js 1 done replaced 3
instance 3 /m.js 3 done replaced 5
instance 4 /x.js 2 done live
dispose code held
prune code held
instance 5 /m.js 4 done live
""",
)

# Two disposers, of which the first is displaced; closures of the embedding program, and a label that it has none of.
CLOSURES = (
    """\
root /m.js
quiet
edit /m.js
|import.meta.hot.dispose(host('H')); import.meta.hot.dispose(() => console.log('second')); import.meta.hot.prune(host('H')); import.meta.hot.accept();
settle
open
turns 1 9
edit /m.js
|import.meta.hot.accept(); import.meta.hot.dispose(host('H'));
settle
turns 1 9
edit /m.js
|import.meta.hot.accept(); console.log(import.meta.hot.data.host);
settle
turns 1 9
fates 1
edit /m.js
|import.meta.hot.accept(); import.meta.hot.dispose(host('Z'));
settle
turns 1 9
edit /m.js
|import.meta.hot.accept(); import.meta.hot.prune(host('H'));
settle
turns 1 9
fates 1
""",
    """\
1 loaded
1 update /m.js
1 accept /m.js /m.js
1 log /m.js second
1 updated
1 update /m.js
1 accept /m.js /m.js
1 log /m.js host H 3
1 log /m.js 3
1 updated
fates 1
instance 1 /m.js 1 done replaced 2
dispose host H 1 dropped
dispose code spent
prune host H 2 dropped
instance 2 /m.js 2 done replaced 3
dispose host H 3 spent
instance 3 /m.js 3 done live
1 update /m.js
1 accept /m.js /m.js
1 nohost /m.js Z
1 updated
1 update /m.js
1 accept /m.js /m.js
1 updated
fates 1
instance 1 /m.js 1 done replaced 2
dispose host H 1 dropped
dispose code spent
prune host H 2 dropped
instance 2 /m.js 2 done replaced 3
dispose host H 3 spent
instance 3 /m.js 3 done replaced 4
instance 4 /m.js 4 done replaced 5
instance 5 /m.js 5 done live
prune host H 4 held
""",
)

# A chain that nothing accepts: no disposer runs.
CHAIN = (
    """\
root /m.js
quiet
edit /m.js
|import './a.js';
edit /a.js
|import './b.js'; import.meta.hot.dispose(() => { console.log('never'); });
edit /b.js
settle
open
turns 1 9
edit /b.js
|export const n = 1;
settle
turns 1 9
fates 1
""",
    """\
1 loaded
1 reload root /b.js /a.js /m.js
1 reloaded
fates 1
instance 1 /b.js 3 done reloaded
instance 2 /a.js 2 done reloaded
dispose code dropped
instance 3 /m.js 1 done reloaded
instance 4 /b.js 4 done live
instance 5 /a.js 2 done live
dispose code held
instance 6 /m.js 1 done live
""",
)

# What a module that failed does to those that import it, and to callbacks: one that threw, one that wasn't run, and in
# a cycle one that isn't evaluated yet.
STATUSES = (
    """\
root /m.js
quiet
edit /m.js
|import './d.js'; import './f.js'; import './u.js'; import './w.js'; import.meta.hot.accept(['./d.js', './f.js', './u.js'], ([d, f, u]) => { console.log('m got', d?.d, f?.f, u?.u); });
edit /d.js
|export const d = 1;
edit /f.js
|export const f = 1;
edit /u.js
|import { f } from './f.js'; export const u = f;
edit /w.js
|export const w = 1; import.meta.hot.accept((n) => { console.log('w is', n?.w); });
settle
open
turns 1 9
edit /d.js
|export const d = 2;
edit /f.js
|export const f = 2; throw 'bad';
settle
turns 1 9
values 1
edit /w.js
|import { d } from './d.js'; export const w = d; import.meta.hot.accept((n) => { console.log('w is', n?.w); });
settle
turns 1 9
edit /w.js
|import { f } from './f.js'; export const w = f; import.meta.hot.accept((n) => { console.log('w is', n?.w); });
settle
turns 1 9
edit /w.js
|import { u } from './u.js'; export const w = u; import.meta.hot.accept();
settle
turns 1 9
edit /w.js
|import { c } from './c.js'; export const w = c; import.meta.hot.accept();
edit /c.js
|import { w } from './w.js'; console.log('c runs'); export const c = w;
settle
turns 1 9
fates 1
""",
    """\
1 loaded
1 update /d.js /f.js /u.js
1 accept /m.js /d.js
1 accept /m.js /f.js
1 accept /m.js /u.js
1 fault /f.js module thrown bad
1 unrun /u.js
1 log /m.js m got 2 undefined undefined
1 log /m.js m got undefined undefined undefined
1 log /m.js m got undefined undefined undefined
1 updated
values 1
value /d.js d 2
value /f.js f 2
value /u.js u -
value /w.js w 1
1 update /w.js
1 accept /w.js /w.js
1 log /w.js w is 2
1 updated
1 update /w.js
1 accept /w.js /w.js
1 unrun /w.js
1 log /w.js w is undefined
1 updated
1 update /w.js
1 accept /w.js /w.js
1 unrun /w.js
1 updated
1 update /w.js
1 accept /w.js /w.js
1 log /c.js c runs
1 fault /c.js module uninitialised w
1 unrun /w.js
1 updated
fates 1
instance 1 /d.js 2 done replaced 6
instance 2 /f.js 3 done replaced 7
instance 3 /u.js 4 done replaced 8
instance 4 /w.js 5 done replaced 9
own code spent
instance 5 /m.js 1 done live
dep code held
instance 6 /d.js 6 done live
instance 7 /f.js 7 faulted live
instance 8 /u.js 4 unrun live
instance 9 /w.js 8 done replaced 10
own code spent
instance 10 /w.js 9 unrun replaced 11
instance 11 /w.js 10 unrun replaced 13
instance 12 /c.js 12 faulted live
instance 13 /w.js 11 unrun live
""",
)

# A dependency that was removed, and comes back.
MISSING = (
    """\
root /m.js
quiet
edit /m.js
|import { x } from './x.js'; import.meta.hot.accept('./x.js', (n) => { console.log('x is', n?.x); });
edit /x.js
|export const x = 1;
settle
open
turns 1 9
remove /x.js
turns 1 9
show 1
edit /x.js
|export const x = 5;
settle
turns 1 9
show 1
""",
    """\
1 loaded
1 update /x.js
1 accept /m.js /x.js
1 aborted missing /x.js
client 1 behind
/m.js 1
/x.js 2
1 update /x.js
1 accept /m.js /x.js
1 log /m.js x is 5
1 updated
client 1 up
/m.js 1
/x.js 4
stale /m.js /x.js
""",
)

# An import that isn't exported, and then the right one.
LINK = (
    """\
root /m.js
quiet
edit /m.js
|import './a.js'; import.meta.hot.accept('./a.js');
edit /a.js
|import { x } from './x.js'; export const a = x;
edit /x.js
|export const x = 1;
settle
open
turns 1 9
edit /x.js
|export const y = 3;
settle
turns 1 9
edit /a.js
|import { y } from './x.js'; export const a = y;
settle
turns 1 9
show 1
""",
    """\
1 loaded
1 update /a.js /x.js
1 accept /m.js /a.js
1 aborted link /a.js /x.js x
1 update /a.js /x.js
1 accept /m.js /a.js
1 updated
client 1 up
/a.js 5
/m.js 1
/x.js 4
stale /m.js /a.js
""",
)

# A page whose root isn't served yet, then is broken, then good.
BROKEN = (
    """\
root /m.js
quiet
edit /m.js
|export const = 1;
open
turn 1
settle
turns 1 2
show 1
fates 1
edit /m.js
|export const n = 2;
settle
turns 1 9
show 1
""",
    """\
1 wait /m.js
settle /m.js 1 refused 1:14 unexpected
1 aborted broken /m.js
client 1 behind
fates 1
1 loaded
client 1 up
/m.js 2
""",
)

# A module that invalidates itself: what imports it and accepts itself takes the update.
IMPORTER = (
    """\
root /m.js
quiet
edit /m.js
|import { a } from './a.js'; console.log('m', a); import.meta.hot.accept();
edit /a.js
|export const a = 1; import.meta.hot.accept((n) => { import.meta.hot.invalidate('changed ' + n?.a); });
settle
open
turns 1 9
edit /a.js
|export const a = 3; import.meta.hot.accept();
settle
turns 1 9
show 1
""",
    """\
1 log /m.js m 1
1 loaded
1 update /a.js
1 accept /a.js /a.js
1 updated
1 invalidated /a.js changed 3
1 update /m.js
1 accept /m.js /m.js
1 log /m.js m 3
1 updated
client 1 up
/a.js 3
/m.js 1
""",
)

# A root that invalidates itself.
ROOT = (
    """\
root /m.js
quiet
edit /m.js
|import.meta.hot.accept(() => import.meta.hot.invalidate());
settle
open
turns 1 9
edit /m.js
|import.meta.hot.accept();
settle
turns 1 9
show 1
""",
    """\
1 loaded
1 update /m.js
1 accept /m.js /m.js
1 updated
1 invalidated /m.js
1 reload root /m.js
1 reloaded
client 1 up
/m.js 2
""",
)

# A page of one module, whose load is told line by line.
LOADED = (
    """\
root /m.js
edit /m.js
|export const n = 1;
settle
open
turns 1 9
show 1
fresh
""",
    """\
edit /m.js job 1
settle /m.js 1 served
open 1
1 loaded
client 1 up
/m.js 1
fresh
/m.js 1
""",
)

# Two clients, of which one invalidates a module; the other is untouched.
TWO_CLIENTS = (
    """\
root /m.js
quiet
edit /m.js
|import { a } from "./a.js"; console.log("m", a);
|import.meta.hot.accept();
edit /a.js
|export const a = 1;
|import.meta.hot.accept((n) => { import.meta.hot.invalidate("changed " + n?.a); });
settle
open
open
turns 1 9
turns 2 9
edit /a.js
|export const a = 2; import.meta.hot.accept();
settle
turns 1 20
show 1
show 2
turns 3 5
""",
    """\
1 log /m.js m 1
1 loaded
2 log /m.js m 1
2 loaded
1 update /a.js
1 accept /a.js /a.js
1 updated
1 invalidated /a.js changed 2
1 update /m.js
1 accept /m.js /m.js
1 log /m.js m 2
1 updated
client 1 up
/a.js 3
/m.js 1
client 2 behind
/a.js 2
/m.js 1
unknown 3
""",
)

# A client has 64 closures of the label H; there is none for a further call of `host`.
SPENT = (
    "root /m.js\nquiet\nedit /m.js\n" + "|import.meta.hot.dispose(host('H'));\n" * 65 + "settle\nopen\nturns 1 9\n",
    "1 nohost /m.js H\n1 loaded\n",
)


def runs():
    pages = [LOADED, COUNTER, LEAF, AGAIN, CLOSURES, SPENT, CHAIN, STATUSES]
    for script, lines in [*pages, MISSING, LINK, BROKEN, IMPORTER, ROOT, TWO_CLIENTS]:
        yield play(script, lines)
