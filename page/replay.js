// A recorded graph: its picture, what each step says, and a certificate of one value, all by the program.
'use strict';

class Replay {
    /** `open` shows a context above; `guarded` makes work of such that says what can't be shown. */
    constructor(program, open, guarded) {
        Object.assign(this, { program, open, bag: null, ran: null, step: null, path: null, asked: null });
        this.at = (id) => document.getElementById(id);
        const on = (id, event, work) => this.at(id).addEventListener(event, guarded(work));
        on('step', 'change', () => this.choose(Number(this.at('step').value)));
        on('field', 'change', () => this.chooseField(this.at('field').value));
        on('certificate', 'input', () => this.verify());
        on('anew', 'click', () => this.explain());
        on('above', 'click', () => this.open(this.ran.steps[this.step].bytes));
        on('picture', 'click', (event) => {
            const box = event.target.closest('[data-step]');
            if (box) {
                this.choose(Number(box.dataset.step));
            }
        });
    }

    // ---- the run

    /** Runs the graph under a bag, unless it was the last that ran. */
    show(bag, graph, step, path) {
        const asked = JSON.stringify([bag.text, bag.bag, graph, step, path]);
        if (asked === this.asked) {
            return;
        }
        this.asked = asked;
        Object.assign(this, { bag, graph: graph.replace(/\s+$/, '').replace(/\r\n/g, '\n') });
        this.ran = this.graph && bag.table ? this.run() : null;
        const isRun = Boolean(this.ran && !this.ran.fault && this.ran.steps.length);
        this.at('graph-found').replaceChildren(...this.said());
        this.at('replayed').hidden = !isRun;
        if (isRun) {
            const { steps } = this.ran;
            this.step = step !== null && step < steps.length ? step : steps.length - 1;
            this.path = bag.table.slots.some((slot) => slot.path === path) ? path : bag.table.slots.length ? bag.table.slots[0].path : null;
            this.fillChoices();
            this.choose(this.step);
        }
    }

    said() {
        const { element, count } = View;
        if (!this.ran) {
            const why = this.graph ? 'There is no definition above to run it under.' : 'Paste a graph, or choose the first example.';
            return [element('span', { class: 'hint' }, why)];
        }
        return [this.ran.fault ? element('span', { class: 'bad' }, this.ran.fault)
            : element('span', { class: 'good' }, `${count(this.ran.steps.length, 'step')} at ${count(this.ran.services.size, 'service')}`)];
    }

    /** The report of all steps, or why there is none. */
    run() {
        const count = Picture.countSteps(this.graph);
        if (count > Replay.STEPS_MOST) {
            return { fault: `${count} steps are too many to be shown here.` };
        }
        const shows = Array.from({ length: count }, (_, k) => `show ${k}\n`).join('');
        const { status, out, refused } = this.program.run(['runtable', 'table'], new Map([['table', this.bag.tableText]]), `${this.graph}\n${shows}`);
        if (status !== 0) {
            return { fault: this.faultOf(refused) };
        }
        const { services, steps } = Picture.read(this.graph);
        const blocks = this.blocksOf(out).slice(-count || Infinity);
        steps.forEach((it, k) => Object.assign(it, blocks[k]));
        return { fault: null, services, steps };
    }

    faultOf(refused) {
        const found = /line (\d+) (.*)$/.exec(refused);
        return found ? `Line ${found[1]}: ${found[2]}: ${(this.graph.split('\n')[Number(found[1]) - 1] || '').slice(0, 80)}` : refused;
    }

    blocksOf(out) {
        const lines = out.split('\n').slice(0, -1), size = this.bag.slots + 2, blocks = [];
        for (let at = 0; at < lines.length; at += size) {
            const bytes = lines[at + 1].split(' ')[1];
            const fields = lines.slice(at + 2, at + size).map((line) => {
                const [path, state] = line.split(' ', 2);
                return { path, state, text: line.slice(path.length + state.length + 2) };
            });
            blocks.push({ bytes, size: bytes === '-' ? 0 : bytes.length / 2, fields });
        }
        return blocks;
    }

    // ---- a step

    fillChoices() {
        const { element } = View;
        const option = (value, name) => element('option', { value }, name);
        this.at('step').replaceChildren(...this.ran.steps.map((it) => option(it.number, `${it.number}  ${it.service}: ${it.label}`.slice(0, 60))));
        this.at('field').replaceChildren(...this.bag.table.slots.map((slot) => option(slot.path, slot.path)));
        this.at('field').value = this.path;
    }

    choose(step) {
        const { element, count } = View;
        const it = this.ran.steps[step], slots = this.bag.table.slots;
        this.step = step;
        this.at('step').value = step;
        this.at('step-said').textContent = `Step ${step}, at ${it.service}: ${it.label}. Its context has ${count(it.size, 'byte')}.`;
        const rows = slots.map((slot, k) => ({ slot, now: it.fields[k] }));
        this.at('step-fields').replaceChildren(rows.length ? View.fields(rows) : element('p', { class: 'hint' }, 'The bag has no field.'));
        this.explain();
    }

    // ---- a certificate

    chooseField(path) {
        this.path = path;
        this.explain();
    }

    explain() {
        const { element } = View;
        const isPossible = this.bag.isDefinition && this.path !== null;
        this.at('why').hidden = !isPossible;
        if (!isPossible) {
            this.draw(null);
            return;
        }
        const { status, out, refused } = this.program.run(['why', Bags.MAIN, this.bag.bag, String(this.step), this.path], this.bag.files, `${this.graph}\n`);
        this.at('certificate').value = status === 0 ? out : '';
        this.at('certificate').disabled = status !== 0;
        if (status === 0) {
            this.verify();
            return;
        }
        const why = / Partial$/.test(refused) ? 'It is partial at this step, so no certificate says that this is all.' : refused;
        this.at('verified').replaceChildren(element('span', { class: 'partial' }, why));
        this.draw(null);
    }

    verify() {
        const { element } = View;
        const certificate = this.at('certificate').value;
        const files = new Map([...this.bag.files, ['certificate', certificate]]);
        const { status, out, refused } = this.program.run(['verify', Bags.MAIN, this.bag.bag, 'certificate'], files, `${this.graph}\n`);
        const verdict = status === 0 ? out.trim() : refused;
        const isGood = verdict === 'yes';
        this.at('verified').replaceChildren(element('span', { class: isGood ? 'good' : 'bad' }, element('code', {}, verdict),
            isGood ? ' It keeps the rules of certificates, so what it says of the value is true.' : ' It proves nothing.'));
        this.draw(Picture.way(certificate, verdict));
    }

    // ---- the picture

    draw(found) {
        const { element } = View;
        const drawing = new Picture.Drawing(this.ran.services, this.ran.steps, found);
        const boxes = drawing.boxes.length;
        const picture = boxes <= Replay.BOXES_MOST ? drawing.svg(this.step) : element('p', { class: 'hint' }, `${boxes} boxes are too many to be drawn.`);
        this.at('picture').replaceChildren(picture);
    }
}
Replay.STEPS_MOST = 2000;
Replay.BOXES_MOST = 300;
