class A {
    get; set; static; async; static static; static async
    #p = this; #m() { return this.#p?.#q; } static #q = 1; static async *#h() {}
    's' = 1; 1 = 2; [k] = v; static x = A; y = () => this.z + w;
    static { var q = A; let r; f(q, r, z, this); }
    get [g]() { return 1; } static set h(v) {}
    constructor() { super.x = 1; new.target; a = arguments; }
}
x = class B extends (class {}) { constructor() { super(B, c); } m() { return super.m(B); } };
class C extends f(g)?.h { static has(o) { return #r in o; } #r; }
new (class { })();
function outer() { return class { [this.k] = this; l = this.m; n() { return () => this; } }; }
class Counter { static count = 0; constructor() { Counter.count++; total += 1; } }
class D { [this.a]() {} [b](b) { return b; } static [c](c = d) {} get [this.e]() {} [arguments_](arguments_) {} x = [this, () => this]; }
class E { get
    *f() {} async
    *g() {} static
    *h() {} i
    [j] }
k = { [l](l) {}, async [m](m) {}, [this.n]() {}, set [o](o) {} };
