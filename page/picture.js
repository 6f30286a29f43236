// The picture of a recorded graph, as tools/draw makes it: a lane for each service, a box for each step, a mark for each field.
'use strict';

const Picture = (() => {
    const LINE = 16, MARKS = 20, PAD = 8, GAP = 26, TOP = 64, MARKS_MOST = 8, LETTERS_MOST = 16;
    const BOTTOMS = new Set(['-', 'off', '{}', '0{}']);
    const ACTS = new Set(['start', 'recv', 'set', 'branch', 'forward', 'trim', 'join']);

    // ---- the graph

    const linesOf = (text) => text.split('\n').map((line) => line.replace(/\r$/, ''));

    const isStep = (line) => ACTS.has(line.split(' ')[0]);

    const countSteps = (text) => linesOf(text).filter(isStep).length;

    function labelOf(words) {
        const [act] = words;
        return { set: words.slice(3).join(' '), trim: `cut to ${words[words.length - 1]} bytes`, recv: 'received' }[act] || act;
    }

    function stepOf(words, steps) {
        const act = words[0];
        const parents = act === 'start' || act === 'recv' ? [] : (act === 'join' ? words.slice(2) : words.slice(2, 3)).map(Number);
        const service = act === 'start' || act === 'recv' ? words[2] : act === 'forward' ? words[3] : steps[parents[0]].service;
        return { number: steps.length, act, parents, service, label: labelOf(words) };
    }

    /** The services, by name with what they know, and the steps of a graph that the program accepted. */
    function read(text) {
        const services = new Map(), steps = [];
        linesOf(text).forEach((line) => {
            const words = line.split(' ');
            if (words[0] === 'service' || words[0] === 'service2') {
                const knows = { all: 'knows all fields', none: 'knows no type' }[words[2]] || `knows ${words.slice(3).join(' ')}`;
                services.set(words[1], knows + (words[0] === 'service2' ? ', form two' : ''));
            } else if (isStep(line)) {
                steps.push(stepOf(words, steps));
            }
        });
        return { services, steps };
    }

    // ---- the layout

    const heightOf = (box) => PAD + LINE * box.steps.length + MARKS;

    const lastOf = (box) => box.steps[box.steps.length - 1];

    /** The boxes in order: a write joins the box of its parent where it is the parent's only child and the next step. */
    function boxesOf(steps) {
        const children = new Map(), boxes = [], boxOf = new Map();
        steps.forEach((step) => step.parents.forEach((parent) => children.set(parent, [...(children.get(parent) || []), step.number])));
        steps.forEach((step) => {
            const before = boxOf.get(step.number - 1);
            const isNext = step.act === 'set' && before && step.parents[0] === step.number - 1 && children.get(step.number - 1).length === 1;
            if (isNext) {
                before.steps.push(step);
            } else {
                boxes.push({ steps: [step], rank: 0 });
            }
            boxOf.set(step.number, isNext ? before : boxes[boxes.length - 1]);
        });
        return { boxes, boxOf };
    }

    /** Gives each box its lane and its rank, so that it is after its parents and no two share a place. */
    function place({ boxes, boxOf }, services) {
        const taken = new Set(), heights = [], lanes = [...services.keys()];
        boxes.forEach((box) => {
            box.lane = lanes.indexOf(lastOf(box).service);
            box.parents = [...new Set(box.steps[0].parents.map((parent) => boxOf.get(parent)))];
            box.rank = Math.max(0, ...box.parents.map((parent) => parent.rank + 1));
            while (taken.has(`${box.lane} ${box.rank}`)) {
                box.rank += 1;
            }
            taken.add(`${box.lane} ${box.rank}`);
            heights[box.rank] = Math.max(heights[box.rank] || 0, heightOf(box));
        });
        let top = TOP;
        const tops = heights.map((height) => {
            const at = top;
            top += height + GAP;
            return at;
        });
        boxes.forEach((box) => { box.top = tops[box.rank]; });
        return { taken, bottom: top };
    }

    // ---- the certificate

    /** Which steps and edges a certificate speaks of, and which its refused line is of. */
    function way(certificate, verdict) {
        const it = { reach: new Map(), uses: new Set(), step: null, bad: null };
        const refused = /^no (\d{1,9}) /.exec(verdict);
        certificate.split('\n').forEach((line, k) => {
            const words = line.split(' '), numbers = words.slice(1).filter((word) => /^\d{1,9}$/.test(word)).map(Number);
            if (words[0] === 'why' && numbers.length) {
                [it.step] = numbers;
            } else if (words[0] === 'reach' && numbers.length === 2) {
                it.reach.set(numbers[0], numbers[1]);
            } else if (words[0] === 'uses' && numbers.length) {
                it.uses.add(numbers[0]);
            }
            if (refused && k + 1 === Number(refused[1]) && numbers.length) {
                [it.bad] = numbers;
            }
        });
        return it;
    }

    const isOnWay = (box, found) => box.steps.some((step) => found.reach.has(step.number) || step.number === found.step);

    function boxLook(box, found) {
        if (!found || found.step === null) {
            return { group: '', box: '' };
        }
        const isUsed = box.steps.some((step) => found.uses.has(step.number)), isBad = box.steps.some((step) => step.number === found.bad);
        return { group: isOnWay(box, found) ? '' : 'pale', box: isBad ? 'cut' : isOnWay(box, found) ? `way${isUsed ? ' used' : ''}` : '' };
    }

    function edgeLook(parent, box, found) {
        if (!found || found.step === null) {
            return '';
        }
        const isReached = parent.steps.some((step) => box.steps.some((child) => found.reach.get(step.number) === child.number));
        return !isReached ? 'pale' : lastOf(parent).number === found.bad ? 'cut' : 'way';
    }

    // ---- the picture

    function draw(name, attributes, ...inside) {
        const it = document.createElementNS('http://www.w3.org/2000/svg', name);
        Object.entries(attributes).forEach(([key, value]) => it.setAttribute(key, value));
        it.append(...inside.flat());
        return it;
    }

    const text = (x, y, look, words, anchor = 'start') => draw('text', { x, y, class: look, 'text-anchor': anchor }, words);

    function mark(x, y, { state, text: value }) {
        const look = BOTTOMS.has(value) ? `${state}-open` : state;
        return state === 'exact' ? draw('circle', { cx: x, cy: y, r: 4, class: look }) : draw('path', { d: `M${x} ${y - 5}l5 5l-5 5l-5 -5z`, class: look });
    }

    class Drawing {
        constructor(services, steps, found) {
            Object.assign(this, { services, steps, found });
            this.lane = Math.max(144, Math.min(176, Math.floor(720 / Math.max(services.size, 1))));
            this.wide = this.lane - 6;
            const made = boxesOf(steps);
            this.boxes = made.boxes;
            Object.assign(this, place(made, services));
            this.left = 0;
        }

        middle(box) {
            return this.lane * box.lane + Math.floor(this.lane / 2);
        }

        lanes() {
            return [...this.services].flatMap(([name, knows], at) => {
                const x = this.lane * at + Math.floor(this.lane / 2);
                const short = knows.length > 28 ? `${knows.slice(0, 27)}…` : knows;
                const line = draw('path', { d: `M${x} ${TOP - 12}V${this.bottom - GAP + 8}`, class: 'lane' });
                return [line, text(x, 20, 'head', name, 'middle'), text(x, 38, 'soft', short, 'middle')];
            });
        }

        edge(parent, box) {
            const isCut = lastOf(box).act === 'trim' && lastOf(box).bytes !== lastOf(parent).bytes, look = isCut ? 'cut' : edgeLook(parent, box, this.found);
            const y = parent.top + heightOf(parent), toY = box.top;
            let x = this.middle(parent), toX = this.middle(box), path;
            const between = Array.from({ length: box.rank - parent.rank - 1 }, (_, k) => parent.rank + 1 + k);
            const isBlocked = between.some((rank) => this.taken.has(`${box.lane} ${rank}`));
            if (x === toX && isBlocked) {
                x -= Math.floor(this.wide / 2) - 12;
                toX = x;
                this.left = Math.min(this.left, x - 24);
                path = `M${x} ${y}C${x - 24} ${y + 20} ${x - 24} ${toY - 20} ${x} ${toY - 5}`;
            } else {
                const shift = x === toX ? 0 : toX > x ? 30 : -30, bend = Math.min(20, Math.max(8, Math.floor((toY - y) / 2)));
                x += shift;
                toX -= shift;
                path = shift ? `M${x} ${y}C${x} ${y + bend} ${toX} ${y + Math.floor(bend / 2)} ${toX} ${toY - 5}` : `M${x} ${y}V${toY - 5}`;
            }
            const said = isCut ? [text(toX + 7, toY - 9, 'cut', `✂ ${lastOf(parent).size} → ${lastOf(box).size} bytes`)] : [];
            return [draw('path', { d: path, class: `edge ${look}` }), draw('path', { d: `M${toX - 4} ${toY - 8}h8l-4 7z`, class: `tip ${look}` }), ...said];
        }

        box(box, chosen) {
            const left = this.middle(box) - Math.floor(this.wide / 2), { top } = box, look = boxLook(box, this.found), last = lastOf(box);
            const isChosen = box.steps.some((step) => step.number === chosen);
            const lines = box.steps.flatMap((step, at) => {
                const y = top + PAD + 9 + LINE * at;
                const label = step.label.length <= LETTERS_MOST ? step.label : `${step.label.slice(0, LETTERS_MOST - 1)}…`;
                return [text(left + 22, y, 'soft', String(step.number), 'end'), text(left + 28, y, step.act === 'set' ? 'mono' : '', label)];
            });
            const y = top + heightOf(box) - 11;
            const marks = last.fields.slice(0, MARKS_MOST).map((field, at) => mark(left + 12 + 14 * at, y, field));
            return draw('g', { class: `step ${look.group}`, 'data-step': last.number },
                draw('rect', { x: left, y: top, width: this.wide, height: heightOf(box), rx: 5, class: `box ${look.box}${isChosen ? ' chosen' : ''}` }),
                lines, marks, text(left + this.wide - 7, y + 4, 'soft', `${last.size} B`, 'end'));
        }

        svg(chosen) {
            const edges = this.boxes.flatMap((box) => box.parents.flatMap((parent) => this.edge(parent, box)));
            const inside = [...this.lanes(), ...edges, ...this.boxes.map((box) => this.box(box, chosen))];
            const width = Math.max(this.lane * this.services.size, 144) - this.left, height = this.bottom - GAP + 12;
            return draw('svg', { width, height, viewBox: `${this.left} 0 ${width} ${height}`, role: 'img',
                'aria-label': `A run of ${this.steps.length} steps at ${this.services.size} services. The list of steps below says the same.` }, inside);
        }
    }

    return { read, countSteps, way, Drawing };
})();
