for (const k in o) f(k, g);
for (var x of y) { let z; f(x, z, w); }
for (a.b in c) ; for (a of b) ; for ({ d, e: [f2] } of g) ; for ((h) of i) ;
for (async of => 1; ;) break;
for (let of = 1; of < 2; of++) ;
for (let of of xs) of();
outer: for (;;) {
    inner: for (const k in o) {
        if (a) continue outer; if (b) break inner; if (c) break; if (d) continue; if (e) break outer;
        for (;;) { break; continue; }
        switch (f) { case 1: break; case 2: continue outer; }
    }
    switch (a) { case 1: for (const l of m) { continue; } break; }
    break;
}
function g() { for (x of y) { if (a) return 1; h(() => { return 2; }); } for (const k in o) var v = k, w = 2; return v + w; }
while (a) for (k in o) if (b) break;
do for (k in o) c(k); while (a)
if (a) for (const k in o) b(k)
else debugger
debugger;
