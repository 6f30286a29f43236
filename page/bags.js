// What a text says of a bag: a printed table, or a definition, which the program compiles.
'use strict';

const Bags = (() => {
    const MAIN = 'definition', FILE = /^\/\/ file (\S+)[ \t]*$/;
    const TABLE_CODES = {
        Head: 'the first line isn’t “baggage table 1”',
        Form: 'it hasn’t the form of a field’s line',
        Depth: 'it stands deeper than the lines before it let it',
        Order: 'its number isn’t greater than that of the field before',
        DuplicateField: 'an earlier field has the name',
        TooDeep: 'its headers would need too many levels',
        TooManySlots: 'there are too many fields',
    };

    /** The files of a text: the definition, and each that it imports after a line `// file NAME`. */
    function filesOf(text) {
        const files = new Map([[MAIN, '']]);
        let name = MAIN;
        text.split('\n').forEach((line) => {
            const found = FILE.exec(line);
            name = found ? found[1] : name;
            files.set(name, `${files.get(name) || ''}${found ? '' : `${line}\n`}`);
        });
        return files;
    }

    /** The names of the bags of a definition, as they stand there. */
    const namesOf = (text) => [...text.replace(/\/\/.*/g, '').matchAll(/\bbag\s+([A-Za-z_]\w*)/g)].map((match) => match[1]);

    function tableFault(error, text) {
        const code = error.message.split(': ')[1], line = text.split('\n')[error.offset - 1] || '';
        return error.status === Status.TABLE ? `Line ${error.offset}, ${code}: ${TABLE_CODES[code]}: ${line.slice(0, 80)}` : error.message;
    }

    /** What the program says of a definition that it refuses. */
    function definitionFault(refused) {
        const found = /^definition (.+) (\d+):(\d+) (\w+)$/.exec(refused);
        return found ? `${found[1] === MAIN ? 'Line' : `${found[1]}, line`} ${found[2]}, column ${found[3]}: ${found[4]}` : refused;
    }

    const none = (text, more) => ({ text, isDefinition: false, names: [], bag: '', table: null, slots: 0, fault: null, ...more });

    function ofTable(text, library, more) {
        const bytes = new TextEncoder().encode(text);
        try {
            const slots = library.checkTable(bytes);
            return none(text, { tableText: text, bytes, table: Table.read(text), slots, ...more });
        } catch (error) {
            return none(text, { fault: tableFault(error, text), ...more });
        }
    }

    /** A bag, or why there is none. Of several bags of a definition it is the one with this name, or the last. */
    function read(raw, wanted, library, program) {
        const text = raw.replace(/\r\n/g, '\n').replace(/\s+$/, '');
        if (!text) {
            return none('');
        }
        if (/^baggage table/.test(text)) {
            return ofTable(`${text}\n`, library, {});
        }
        const files = filesOf(text), names = namesOf(files.get(MAIN));
        const bag = names.includes(wanted) ? wanted : names[names.length - 1] || 'Bag';
        const more = { isDefinition: true, files, names, bag };
        const { status, out, refused } = program.run(['table', MAIN, bag], files, '');
        return status === 0 ? { ...ofTable(out, library, more), text } : none(text, { ...more, fault: definitionFault(refused) });
    }

    return { read, MAIN };
})();
