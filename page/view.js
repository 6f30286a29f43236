// How what the library says is shown. Each function makes elements of what it is handed, and knows nothing of the page's state.
'use strict';

const View = (() => {
    const ATOMS_MOST = 2000, BYTES_MOST = 48, TEXT_MOST = 20000, HUES = 8;
    const SIGNS = { exact: '●', partial: '◆', 'ill typed': '✕' };
    const CLASSES = { exact: 'exact', partial: 'partial', 'ill typed': 'ill' };
    const KINDS = { header: 'a header’s value', member: 'a member of baggage', binary: 'metadata of gRPC', digits: 'hexadecimal digits', pieces: 'pieces' };

    /** An element with its attributes and what is in it: elements, texts, or lists of them. */
    function element(name, attributes, ...inside) {
        const it = document.createElement(name);
        Object.entries(attributes || {}).forEach(([key, value]) => {
            if (value !== null && value !== undefined && value !== false) {
                it.setAttribute(key, value);
            }
        });
        it.append(...inside.flat(Infinity).filter((one) => one !== null && one !== ''));
        return it;
    }

    const count = (number, one, many = `${one}s`) => `${number.toLocaleString('en')} ${number === 1 ? one : many}`;

    const hue = (colour) => (colour === null || colour === undefined ? '' : `hue-${colour % HUES}`);

    const unseen = (text) => element('span', { class: 'unseen' }, text);

    const shortened = (text) => (text.length <= TEXT_MOST ? text : `${text.slice(0, TEXT_MOST)} .. and ${count(text.length - TEXT_MOST, 'more letter')}`);

    // ---- what was found in a text

    function foundLine(it) {
        const what = KINDS[it.kind];
        if (it.fault !== null) {
            return element('span', { class: 'bad' }, `${what}: ${it.fault}. It counts as lost.`);
        }
        const check = it.kind === 'header' || it.kind === 'member' ? ', its check is right' : '', form = Atoms.isFormTwo(it.bytes) ? ', form two' : '';
        return element('span', { class: 'good' }, `${what}${check}: ${count(it.bytes.length, 'byte')}${form}`);
    }

    /** What was found in a text, or that nothing was. */
    function found(text, contexts) {
        if (!text.trim()) {
            return [];
        }
        if (!contexts.length) {
            return [element('span', { class: 'bad' }, 'No context stands there: neither a header’s value, nor hexadecimal digits, nor pieces of one.')];
        }
        const lines = contexts.slice(0, 20).map(foundLine);
        if (lines.length === 1) {
            return lines;
        }
        const more = contexts.length > 20 ? [element('li', {}, `and ${contexts.length - 20} more`)] : [];
        return [`${contexts.length} contexts, which are merged:`, element('ul', {}, lines.map((line) => element('li', {}, line)), more)];
    }

    // ---- the bar

    /** Neighbours of one colour as one run of bytes. */
    function runs(atoms, kept) {
        const out = [];
        atoms.forEach((atom, k) => {
            const look = k >= kept ? 'gone' : atom.kind === 'marker' ? 'gone' : hue(atom.colour), last = out[out.length - 1];
            if (last && last.look === look && last.colour === atom.colour) {
                last.size += atom.size;
            } else {
                out.push({ look, colour: atom.colour, size: atom.size });
            }
        });
        return out;
    }

    function bar(atoms, kept) {
        const whole = runs(atoms.slice(0, kept), kept), gone = runs(atoms.slice(kept), 0);
        const span = (run) => {
            const it = element('span', { class: run.look });
            it.style.flexGrow = run.size;
            return it;
        };
        return [...whole.map(span), ...(gone.length ? [element('span', { class: 'marker' })] : []), ...gone.map(span)];
    }

    // ---- texts to copy

    function output(name, text, copy) {
        const button = element('button', { type: 'button', 'aria-label': `Copy: ${name}` }, 'Copy');
        button.addEventListener('click', () => copy(text, name));
        const value = element('div', { class: 'value', tabindex: 0, role: 'group', 'aria-label': name }, text || '-');
        return element('div', {}, element('dt', {}, name), element('dd', {}, value), button);
    }

    // ---- fields

    function state(name, before) {
        const was = before && before !== name ? element('div', { class: 'hint' }, `was ${before}`) : '';
        return [element('span', { class: CLASSES[name] }, `${SIGNS[name]} ${name}`), was];
    }

    function value(text, before) {
        const was = before === undefined || before === text ? '' : element('div', {}, unseen('before the cut: '), element('s', {}, shortened(before)));
        return [was, element('div', {}, was ? unseen('after the cut: ') : '', shortened(text))];
    }

    /** A row for each field: what it says now, and what it said before the cut where that was more. */
    function fields(rows) {
        const head = ['Field', 'Kind', 'State', 'Value'].map((name) => element('th', { scope: 'col' }, name));
        const body = rows.map(({ slot, now, before }) => element('tr', { 'data-path': slot.path },
            element('th', { scope: 'row' }, element('span', { class: `swatch ${hue(slot.field.outer)}`, 'aria-hidden': 'true' }), slot.path),
            element('td', { class: 'shape' }, slot.field.words),
            element('td', { class: 'state' }, state(now.state, before && before.state)),
            element('td', { class: 'value' }, value(now.text, before && before.text))));
        const caption = element('caption', { class: 'unseen' }, 'What the context says of each field');
        return element('table', { class: 'fields' }, caption, element('thead', {}, element('tr', {}, head)), element('tbody', {}, body));
    }

    // ---- atoms

    function bytes(atom) {
        const kind = atom.body.slice(0, 1), rest = atom.body.slice(1), isLong = rest.length > BYTES_MOST;
        const digits = Carriers.toHex(isLong ? rest.slice(0, BYTES_MOST) : rest);
        return element('span', { class: 'bytes' }, unseen('bytes '), element('span', { class: 'length' }, Carriers.toHex(atom.lengthBytes)), ' ',
            element('span', { class: 'kind' }, Carriers.toHex(kind)), digits ? ` ${digits}` : '', isLong ? ` .. ${count(rest.length, 'byte')}` : '');
    }

    function atomLine(atom, whose) {
        const guides = Array.from({ length: atom.level }, () => element('span', { class: 'guide', 'aria-hidden': 'true' }));
        return element('li', { class: atom.kind, 'data-at': atom.at },
            whose === null ? '' : element('span', { class: 'whose' }, whose || ' '),
            element('span', { class: 'at' }, unseen('byte '), String(atom.at)),
            element('span', { class: 'what' }, guides,
                element('span', { class: `name ${hue(atom.colour)}` }, unseen(`level ${atom.level}, `), shortened(atom.name)),
                element('span', { class: 'word' }, atom.word === atom.name ? '' : atom.word),
                element('span', { class: 'note' }, atom.note), element('span', { class: 'unseen said' })),
            bytes(atom));
    }

    /** The tree of atoms, a line each. Where two contexts were merged, each line says of which it is. */
    function atoms(all, whoseOf) {
        const lines = all.slice(0, ATOMS_MOST).map((atom) => atomLine(atom, whoseOf ? whoseOf(atom) : null));
        const more = all.length > ATOMS_MOST ? [element('p', { class: 'legend' }, `${count(all.length - ATOMS_MOST, 'more atom')} aren't shown.`)] : [];
        return [element('ul', { class: `atoms${whoseOf ? ' merged' : ''}`, tabindex: 0, 'aria-label': 'The tree of atoms' }, lines), ...more];
    }

    /** Marks the atoms of the tree from a place on as cut off, and puts a line there that says so. */
    function cutAtoms(list, kept, cutLine) {
        list.querySelectorAll('.cut').forEach((line) => line.remove());
        const lines = [...list.children];
        lines.forEach((line, k) => {
            line.classList.toggle('gone', k >= kept);
            line.querySelector('.said').textContent = k >= kept ? 'cut off' : '';
        });
        if (kept < lines.length) {
            lines[kept].before(element('li', { class: 'cut' }, cutLine));
        }
    }

    return { element, count, found, bar, output, fields, atoms, cutAtoms };
})();
