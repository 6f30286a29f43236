// The page: what was pasted, what the library says of it, and the link to it.
'use strict';

(() => {
    const { element, count } = View;
    const at = (id) => document.getElementById(id);
    const encoder = new TextEncoder(), decoder = new TextDecoder();
    const TEXTS = ['ctx', 'with', 'def', 'next', 'graph'];
    const CHANGES = {
        Shape: 'its shape is another one',
        Key: 'the keys of the map have a type that doesn’t hold the old one’s',
        Kind: 'its values have a type that doesn’t hold the old one’s',
    };

    let library = null;
    let program = null;
    let replay = null;
    let asked = { bag: '', step: null, field: null }; // what a link or a reader chose
    let budget = null; // null where nothing is to be cut
    let shown = null; // what was computed last

    // ---- what is said

    const readBag = (id) => Bags.read(at(id).value, asked.bag, library, program);

    /** The fields of a report, by their paths. */
    function reportRows(table, bytes) {
        const lines = decoder.decode(library.report(table, bytes)).split('\n').slice(1, -1);
        return new Map(lines.map((line) => {
            const [path, state] = line.split(' ', 2);
            return [path, { state, text: line.slice(path.length + state.length + 2) }];
        }));
    }

    /** The fields of a context with an atom that isn't spelled as its field's type: those fields are left out of the report. */
    function rowsOfIllTyped(table, bytes) {
        const places = library.places(table.bytes, bytes), slots = table.table.slots;
        const ill = slots.filter((_, k) => places[k].state === 3);
        const rest = reportRows(encoder.encode(Table.without(table.tableText, ill.map((slot) => slot.field))), bytes);
        const rowOf = (slot, { state, offset }) => (state === 3 ? { state: 'ill typed', text: `at byte ${offset}` } : rest.get(slot.path));
        return new Map(slots.map((slot, k) => [slot.path, rowOf(slot, places[k])]));
    }

    function rowsOf(table, bytes) {
        try {
            return reportRows(table.bytes, bytes);
        } catch (error) {
            if (error.status !== Status.TYPE) {
                throw error;
            }
            return rowsOfIllTyped(table, bytes);
        }
    }

    // ---- what is computed

    const formOf = (contexts) => (contexts.some((it) => Atoms.isFormTwo(it.bytes)) ? 2 : 1);

    function merge(contexts) {
        return library.join(formOf(contexts), contexts.map((it) => it.bytes), null);
    }

    /** All that is shown but the cut: it changes with the texts alone. */
    function compute() {
        const first = Carriers.read(at('ctx').value, library), second = Carriers.read(at('with').value, library);
        const table = readBag('def'), all = [...first, ...second];
        const whole = merge(all), form = Atoms.isFormTwo(whole) ? 2 : 1;
        const atoms = Atoms.read(whole, table.table);
        const paths = [first, second].map((contexts) => new Set(Atoms.read(merge(contexts), null).map((atom) => atom.path)));
        const isMerge = Boolean(first.length && second.length), rows = table.table && rowsOf(table, whole);
        return { first, second, table, whole, form, atoms, paths, isEmpty: !all.length, isMerge, rows };
    }

    function cut({ whole, form, atoms, table, rows }) {
        const least = form === 2 ? 13 : 1;
        const most = Math.max(whole.length, least), limit = budget === null ? most : Math.min(Math.max(budget, least), most);
        const bytes = limit < whole.length ? library.join(form, [whole], limit) : whole;
        const isCut = bytes.length < whole.length || bytes.some((byte, k) => byte !== whole[k]);
        const kept = isCut ? Atoms.read(bytes, null).length - 1 : atoms.length;
        return { least, most, limit, bytes, isCut, kept, rows: isCut && table.table ? rowsOf(table, bytes) : rows };
    }

    // ---- what is shown

    function showFound(id, text, contexts) {
        at(`${id}-found`).replaceChildren(...View.found(text, contexts));
    }

    function showBag({ table }) {
        const said = table.fault ? element('span', { class: 'bad' }, table.fault)
            : table.table ? element('span', { class: 'good' }, `${count(table.slots, 'field')}, and the table has ${count(table.tableText.length, 'byte')}`)
                : element('span', { class: 'hint' }, 'Without a definition the atoms are shown, and no names, types and values of fields.');
        at('def-found').replaceChildren(said);
        at('bag-label').hidden = table.names.length < 2;
        at('bag').replaceChildren(...table.names.map((name) => element('option', { value: name }, name)));
        at('bag').value = table.bag;
    }

    function cutSentence({ whole, atoms }, { isCut, bytes, kept, limit, most }) {
        if (!isCut) {
            const marker = atoms.some((atom) => atom.kind === 'marker') ? ' It has a marker: an earlier cut took something.' : '';
            return `Nothing is cut: all ${count(whole.length, 'byte')} in ${count(atoms.length, 'atom')} fit.${marker}`;
        }
        const gone = atoms.slice(kept), size = gone.reduce((sum, atom) => sum + atom.size, 0);
        return `A budget of ${count(limit, 'byte')} of ${most.toLocaleString('en')}: ${count(bytes.length - 1, 'byte')} and a marker stay; `
            + `${count(size, 'byte')} in ${count(gone.length, 'atom')} go.`;
    }

    function newlyPartial({ rows }, after) {
        if (!after.isCut || !rows) {
            return '';
        }
        const paths = [...rows.keys()].filter((path) => rows.get(path).state === 'exact' && after.rows.get(path).state === 'partial');
        return paths.length ? ` Partial by this cut: ${paths.join(', ')}.` : ' No field becomes partial by this cut.';
    }

    function showCut(it, after) {
        at('bar').replaceChildren(...View.bar(it.atoms, after.kept));
        for (const id of ['budget', 'budget-number']) {
            Object.assign(at(id), { min: after.least, max: after.most, value: after.limit, disabled: it.isEmpty });
        }
        at('budget').setAttribute('aria-valuetext', `${after.limit} bytes`);
        at('whole').disabled = !after.isCut;
        at('cut-said').textContent = it.isEmpty ? 'Paste a context above, or choose an example.' : cutSentence(it, after) + newlyPartial(it, after);
        const value = Carriers.toHeader(after.bytes);
        const outputs = [['Header', `terncommode: ${value}`], ['Value', value], ['Digits', Carriers.toHex(after.bytes)]];
        at('outputs').replaceChildren(...(it.isEmpty ? [] : outputs.map(([name, text]) => View.output(name, text, copy))));
        at('cut-title').textContent = it.isMerge ? 'Both, merged, within a budget' : 'The context, within a budget';
    }

    function showFields(it, after) {
        const { table } = it.table;
        at('fields-card').hidden = !table || it.isEmpty;
        if (!table || it.isEmpty) {
            return;
        }
        const rows = table.slots.map((slot) => ({ slot, now: after.rows.get(slot.path), before: after.isCut ? it.rows.get(slot.path) : undefined }));
        at('fields').replaceChildren(rows.length ? View.fields(rows) : element('p', { class: 'hint' }, 'The table has no field that has a value.'));
        at('json').disabled = rows.some(({ now }) => now.state === 'ill typed');
    }

    function showAtoms(it) {
        const whose = it.isMerge ? (atom) => (it.paths[0].has(atom.path) ? 'A' : ' ') + (it.paths[1].has(atom.path) ? ' B' : '  ') : null;
        const digits = element('code', {}, Carriers.toHex(it.whole.slice(0, Atoms.HEAD))), follow = count(it.whole.length - Atoms.HEAD, 'byte');
        const head = it.form === 2 ? [element('p', { class: 'legend' }, `Form two: its first ${Atoms.HEAD} bytes, `, digits, `, say that ${follow} follow.`)] : [];
        const letters = whose ? [element('p', { class: 'legend' }, 'A: it came in the first text. B: it came in the second.')] : [];
        const none = it.isEmpty || !it.atoms.length ? [element('p', { class: 'hint' }, it.isEmpty ? '' : 'The empty context: nothing is said in it.')] : null;
        at('atoms').replaceChildren(...(none || [...head, ...letters, ...View.atoms(it.atoms, whose)]));
        at('atoms-legend').hidden = Boolean(none);
    }

    function cutAtoms(after) {
        const list = document.querySelector('#atoms .atoms');
        if (list) {
            View.cutAtoms(list, after.kept, `✂ a budget of ${count(after.limit, 'byte')}: here stands the marker 00, and what follows is gone`);
        }
    }

    /** The names on the way that evolve tells in numbers. */
    function wayNames(way, table) {
        let shape = table.root;
        return way.split('.').map((step) => {
            if (step === '*') {
                shape = shape.value;
                return 'its values';
            }
            const field = shape.fields.find((one) => String(one.number) === step);
            shape = field.shape;
            return field.name;
        }).join(', ');
    }

    function evolveLine(old, next, oldTable) {
        const line = decoder.decode(library.evolve(old.bytes, next.bytes)).trim();
        const [word, way, code] = line.split(' ');
        if (word === 'ok') {
            return element('span', { class: 'good' }, element('code', {}, line), ` It fits, with ${count(Number(way), 'field')} in both.`);
        }
        return element('span', { class: 'bad' }, element('code', {}, line), ` It breaks at ${wayNames(way, oldTable)}: ${CHANGES[code]}.`);
    }

    function showEvolve({ table }) {
        const next = readBag('next'), said = at('evolve-said');
        if (!next.text || !table.table) {
            const why = next.text ? 'There is no definition above to compare it with.' : 'Paste a definition or a table.';
            said.replaceChildren(element('span', { class: 'hint' }, why));
            return;
        }
        if (next.fault) {
            said.replaceChildren(element('span', { class: 'bad' }, next.fault));
            return;
        }
        said.replaceChildren(element('ul', {}, element('li', {}, 'Old contexts, new readers: ', evolveLine(table, next, table.table)),
            element('li', {}, 'New contexts, old readers, while both run: ', evolveLine(next, table, next.table))));
    }

    // ---- when something changes

    /** Shows an error of the page itself, or of a library that is out of memory, in the place of what can't be shown. */
    function guarded(work) {
        return (...words) => {
            try {
                at('broken').hidden = true;
                return work(...words);
            } catch (error) {
                at('broken').hidden = false;
                at('broken').textContent = `This can't be shown: ${error.message}.`;
                return undefined;
            }
        };
    }

    const showBudget = guarded(() => {
        const after = cut(shown);
        showCut(shown, after);
        showFields(shown, after);
        cutAtoms(after);
        shown.after = after;
    });

    const update = guarded(() => {
        shown = compute();
        showFound('ctx', at('ctx').value, shown.first);
        showFound('with', at('with').value, shown.second);
        showBag(shown);
        showAtoms(shown);
        showBudget();
        showEvolve(shown);
        replay.show(shown.table, at('graph').value, asked.step, asked.field);
    });

    function setBudget(value) {
        const { least, most } = shown.after;
        budget = Number.isFinite(value) && value < most ? Math.max(Math.floor(value), least) : null;
        showBudget();
    }

    // ---- links and copies

    function link() {
        const name = (id) => (id === 'def' && !shown.table.isDefinition ? 'table' : id);
        const words = new URLSearchParams(TEXTS.map((id) => [name(id), at(id).value]).filter(([, text]) => text));
        const ofGraph = at('graph').value ? { step: replay.step, field: replay.path } : {};
        const more = { bag: shown.table.names.length > 1 && shown.table.bag, cut: shown.after.isCut && budget, ...ofGraph };
        Object.entries(more).filter(([, value]) => value || value === 0).forEach(([key, value]) => words.set(key, value));
        return `${location.href.split('#')[0]}#${words}`;
    }

    function openLink() {
        const words = new URLSearchParams(location.hash.slice(1));
        if (![...words.keys()].length) {
            return false;
        }
        const number = (name) => (/^\d{1,9}$/.test(words.get(name) || '') ? Number(words.get(name)) : null);
        TEXTS.forEach((id) => { at(id).value = words.get(id) || ''; });
        at('def').value = words.get('def') || words.get('table') || '';
        budget = number('cut');
        asked = { bag: words.get('bag') || '', step: number('step'), field: words.get('field') };
        at('example').value = '';
        update();
        return true;
    }

    function copyByHand(text) {
        const area = element('textarea', { class: 'unseen', 'aria-hidden': 'true' });
        area.value = text;
        document.body.append(area);
        area.select();
        const isDone = document.execCommand('copy');
        area.remove();
        return isDone;
    }

    async function copy(text, name) {
        let isDone = false;
        try {
            await navigator.clipboard.writeText(text);
            isDone = true;
        } catch (error) {
            isDone = copyByHand(text);
        }
        at('copied').textContent = isDone ? `Copied: ${name}` : `${name} can't be copied: the browser doesn't let this page`;
    }

    function openExample(number) {
        const it = EXAMPLES[number];
        const texts = { ctx: it.context, with: it.other, def: it.definition, next: it.next, graph: it.graph };
        Object.entries(texts).forEach(([id, text]) => { at(id).value = text; });
        budget = it.budget;
        asked = { bag: it.bag, step: it.step, field: it.field };
        update();
    }

    /** Looks at the context of a step, in place of what came. */
    function openContext(digits) {
        at('ctx').value = digits;
        at('with').value = '';
        at('example').value = '';
        budget = null;
        asked = { bag: shown.table.bag, step: replay.step, field: replay.path };
        update();
        at('results').focus();
        at('results').scrollIntoView();
    }

    function listen() {
        let waiting = 0;
        const soon = () => {
            clearTimeout(waiting);
            waiting = setTimeout(update, 80);
        };
        TEXTS.forEach((id) => at(id).addEventListener('input', () => {
            at('example').value = '';
            soon();
        }));
        at('bag').addEventListener('change', () => {
            asked = { bag: at('bag').value, step: null, field: null };
            update();
        });
        at('budget').addEventListener('input', () => setBudget(Number(at('budget').value)));
        at('budget-number').addEventListener('change', () => setBudget(at('budget-number').value === '' ? Infinity : Number(at('budget-number').value)));
        at('whole').addEventListener('click', () => setBudget(Infinity));
        at('link').addEventListener('click', () => copy(link(), 'the link'));
        at('json').addEventListener('click', guarded(() => {
            copy(decoder.decode(library.reportJson(shown.table.bytes, shown.after.bytes)), 'the fields as JSON');
        }));
        at('example').addEventListener('change', () => at('example').value !== '' && openExample(Number(at('example').value)));
        window.addEventListener('hashchange', openLink);
    }

    async function start() {
        const choices = EXAMPLES.map((it, number) => element('option', { value: number }, it.name));
        at('example').replaceChildren(element('option', { value: '' }, 'your own'), ...choices);
        try {
            [library, program] = await Promise.all([loadLibrary(), loadProgram()]);
        } catch (error) {
            at('broken').hidden = false;
            at('broken').textContent = `The modules can't be started in this browser: ${error.message}. It takes one of the end of 2023 or later.`;
            return;
        }
        replay = new Replay(program, openContext, guarded);
        listen();
        if (!openLink()) {
            at('example').value = '0';
            openExample(0);
        }
        document.documentElement.dataset.ready = 'yes';
    }

    start();
})();
