function f(a) { function a() { return b; } return a; }
function g(a = 1) { var a; return a; }
function h(a) { var a; return a; }
function i() { var a; function a() {} }
function j() { function a() {} function a() {} }
k = (a, b = () => a) => { var a; };
function l() { try { m(); } catch (e) { var e = 1; } }
function m() { try { n(); } catch (e) { for (;;) { var o = e; } } return o; }
function n() { var x; { var x; } }
