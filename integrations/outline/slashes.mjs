a = b / c / d; e = /x/g; f(/y/, /[/\]]/u, !/x/);
if (x) /re/.test(y);
x++ / 2; (a) / b / c; ({}) / 2 / 1;
function g() {} /z/.exec(q);
{ } /w/u.test(p);
x = function () {} / 2;
y = a => {}
/re/.test(b);
b = a
/ c / d;
