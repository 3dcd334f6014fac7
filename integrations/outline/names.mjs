var \u0061b = 1, é = 2;
é++; o.é; o.é = 1; o.é++; delete o.é;
f({ é }, { é: 1 }, { a: é }, typeof ü, ü(), x => é, é => é + g);
function è(ö) { return è + ö + h; }
(é, b) => é + b + c;
(a = é) => a;
(é = 1) => é;
ö: for (;;) { break ö; }
(function (a, ñ = a) { return a; })(a);
let 𠮷 = 1;
𠮷.x = 𠮷;
