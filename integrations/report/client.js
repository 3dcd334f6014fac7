'use strict';

// Runs in the page of a report: selects modules, moves in the map and in the list by keys, sorts and filters.

(() => {
    // How much a line and one that replaces it have in common at least, for its changed part to be marked.
    const LIKE = 0.4;
    const { modules, claims } = JSON.parse(document.getElementById('data').textContent);
    const map = document.getElementById('map');
    const body = document.getElementById('rows');
    const detail = document.getElementById('detail');
    const cells = [...map.children];
    const rows = [...body.rows];
    const links = rows.map((row) => row.querySelector('a'));
    // By the numbers of modules, whatever the order in the page.
    const cellsBy = new Map(cells.map((cell) => [Number(cell.dataset.module), cell]));
    const cellOf = (index) => cellsBy.get(index);
    const linkOf = (index) => links[index];
    const rowOf = (index) => rows[index];
    // What had the focus before the details got it.
    let origin = null;

    function make(tag, properties = {}, ...children) {
        const element = Object.assign(document.createElement(tag), properties);
        element.append(...children);
        return element;
    }

    // The part of two lines in which they differ: the length of what both begin with, and of what both end with. Lines that have
    // little in common differ as a whole: both are 0.
    function changed(a, b) {
        let [head, tail] = [0, 0];
        const most = Math.min(a.length, b.length);
        while (head < most && a[head] === b[head]) head += 1;
        while (tail < most - head && a[a.length - 1 - tail] === b[b.length - 1 - tail]) tail += 1;
        return head + tail < LIKE * Math.max(a.length, b.length) ? [0, 0] : [head, tail];
    }

    function marked(tag, sign, text, [head, tail]) {
        const end = text.length - tail;
        const parts = head + tail === 0 ? [text] : [text.slice(0, head), make('mark', {}, text.slice(head, end)), text.slice(end)];
        return make(tag, { className: 'code' }, `${sign} `, ...parts);
    }

    // The lines of one part of a difference. A removed line and an added one behind it are compared.
    function linesOf(lines) {
        const pairs = lines.map(([sign, text], i) => (sign === '-' && lines[i + 1]?.[0] === '+' ? changed(text, lines[i + 1][1]) : [0, 0]));
        return lines.map(([sign, text], i) => {
            if (sign === ' ') return make('span', { className: 'both code' }, `  ${text}`);
            if (sign === '-') return marked('del', '-', text, pairs[i]);
            return marked('ins', '+', text, pairs[i - 1] ?? [0, 0]);
        });
    }

    function diffOf(module) {
        const lines = make('div', { className: 'lines' });
        for (const part of module.hunks) {
            lines.append(make('span', { className: 'at' }, `line ${part.line} of the module with a line for each statement`), ...linesOf(part.lines));
        }
        const box = make('div', { className: 'diff', tabIndex: 0 }, lines);
        box.setAttribute('role', 'region');
        box.setAttribute('aria-label', `What was removed of ${module.name}`);
        return box;
    }

    function removedOf(module) {
        const found = [make('h3', {}, 'What was removed')];
        if (module.hunks.length === 0) found.push(make('p', {}, 'Nothing: the result is the module as it prints.'));
        else found.push(diffOf(module));
        if (module.more > 0) found.push(make('p', { className: 'soft' }, `${module.more.toLocaleString('en-US')} more lines of the difference aren't in this page.`));
        return found;
    }

    function reasonOf(module) {
        const place = module.line === undefined ? '' : ` at line ${module.line}, column ${module.column + 1}`;
        const title = module.result === 'left' ? 'What was left, and why' : 'Why it was refused';
        const found = [make('h3', {}, title), make('p', {}, `${module.reason}${place}.`)];
        if (module.source !== undefined) found.push(make('pre', { className: 'source' }, module.source));
        const lost = module.lost.map(({ name, line, column }) => `${name} (line ${line}, column ${column + 1})`);
        if (lost.length > 0) found.push(make('p', {}, `Flags that aren't replaced in it: ${lost.join(', ')}.`));
        return found;
    }

    function show(index) {
        const module = modules[index];
        const heading = make('h2', { tabIndex: -1, id: 'detail-title' }, module.name);
        const link = make('a', { href: document.getElementById('claim').href }, 'docs/CLAIM.md');
        detail.replaceChildren(heading, make('p', {}, module.summary),
            ...(module.result === 'simplified' ? removedOf(module) : reasonOf(module)),
            make('h3', {}, 'What is claimed'), ...claims[module.claim].map((sentence) => make('p', {}, sentence)),
            make('p', {}, 'The exact sentences: ', link, '.'));
        detail.scrollTop = 0;
        for (const element of document.querySelectorAll('[aria-current]')) element.removeAttribute('aria-current');
        cellOf(index).setAttribute('aria-current', 'true');
        rowOf(index).setAttribute('aria-current', 'true');
        enter(cells, cellOf(index), false);
        enter(links, linkOf(index), false);
        history.replaceState(null, '', `#${index}`);
        return heading;
    }

    // One element of a group can be reached by the key Tab: the given one.
    function enter(group, element, focus = true) {
        for (const other of group) if (other.tabIndex === 0) other.tabIndex = -1;
        element.tabIndex = 0;
        if (focus) element.focus();
    }

    // Shows a module. By a key the focus gets to what is shown, and Escape brings it back.
    function choose(event, index) {
        event.preventDefault();
        const heading = show(index);
        origin = document.activeElement;
        if (event.detail === 0) heading.focus();
    }

    map.addEventListener('keydown', (event) => {
        const cell = document.activeElement;
        const beside = cells[cell.dataset[event.key.toLowerCase()]];
        const next = { Home: cells[0], End: cells.at(-1) }[event.key] ?? beside;
        if (event.key.startsWith('Arrow')) event.preventDefault();
        if (next === undefined) return;
        event.preventDefault();
        enter(cells, next);
    });

    body.addEventListener('keydown', (event) => {
        const seen = [...body.rows].filter((row) => !row.hidden).map((row) => row.querySelector('a'));
        const at = seen.indexOf(document.activeElement);
        const next = { ArrowDown: seen[at + 1], ArrowUp: seen[at - 1], Home: seen[0], End: seen.at(-1) }[event.key];
        if (next === undefined) return;
        event.preventDefault();
        enter(links, next);
    });

    detail.addEventListener('keydown', (event) => {
        if (event.key === 'Escape' && origin !== null) origin.focus();
    });
    cells.forEach((cell) => cell.addEventListener('click', (event) => choose(event, Number(cell.dataset.module))));
    links.forEach((link, index) => link.addEventListener('click', (event) => choose(event, index)));

    const search = document.getElementById('search');
    const kind = document.getElementById('kind');
    function filter() {
        const text = search.value.toLowerCase();
        const fits = ({ name, result }) => name.toLowerCase().includes(text) && ['', result].includes(kind.value);
        let count = 0;
        modules.forEach((module, index) => {
            const out = !fits(module);
            rowOf(index).hidden = out;
            cellOf(index).classList.toggle('out', out);
            if (!out) count += 1;
        });
        document.getElementById('count').textContent = `${count.toLocaleString('en-US')} of ${modules.length.toLocaleString('en-US')} modules`;
        const first = [...body.rows].find((row) => !row.hidden);
        if (first !== undefined && !links.some((link, index) => link.tabIndex === 0 && !rowOf(index).hidden)) enter(links, first.querySelector('a'), false);
    }
    search.addEventListener('input', filter);
    kind.addEventListener('change', filter);

    const values = { name: (module) => module.name, before: (module) => module.before, after: (module) => module.after, change: (module) => module.after - module.before, result: (module) => module.result };
    for (const heading of document.querySelectorAll('th[data-by]')) {
        heading.querySelector('button').addEventListener('click', () => {
            const falling = heading.getAttribute('aria-sort') === 'ascending';
            for (const other of document.querySelectorAll('th[data-by]')) other.removeAttribute('aria-sort');
            heading.setAttribute('aria-sort', falling ? 'descending' : 'ascending');
            const value = values[heading.dataset.by];
            const order = modules.map((module, index) => [value(module), index]).sort(([a, i], [b, j]) => (a < b ? -1 : a > b ? 1 : i - j));
            if (falling) order.reverse();
            body.append(...order.map(([, index]) => rowOf(index)));
        });
    }

    const asked = Number(location.hash.slice(1));
    if (location.hash.length > 1 && modules[asked] !== undefined) show(asked);
    filter();
})();
