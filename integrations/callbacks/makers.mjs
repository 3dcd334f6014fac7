// Functions given to `new`, to setters and to host names.
let made = 0;
const view = new Widget(() => { made += 1; return made; }, { ready: (x) => log('ready', x) });
view.draw(function () { return typeof this; });
page.onload = () => { made = made; log('load', made); };
page.onerror ??= () => 1;
on.error = undefined ?? ((e) => e);
(0, page.show)(() => 'no receiver');
(true && page.show)(() => 'none either');
page.show(() => 'a receiver');
