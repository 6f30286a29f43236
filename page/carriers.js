// What a pasted text carries: headers as docs/FORMATS.md has them, hexadecimal digits, pieces, or a line of a log with one of these in it.
'use strict';

const LOST = Uint8Array.of(0);

const Carriers = (() => {
    const PART = '[A-Za-z0-9_-]*\\.[A-Za-z0-9_-]{6}';
    const VALUE = new RegExp(`^[ \\t]*(?:${PART})?(?:[ \\t]*,[ \\t]*(?:${PART})?)*[ \\t]*$`);
    const CUT_VALUE = /^[A-Za-z0-9_-]{12,}(?:\.[A-Za-z0-9_-]{0,5})?$/;
    const INSIDE = new RegExp(`(^|[^A-Za-z0-9_.-])(${PART})(?![A-Za-z0-9_-])`, 'g');
    const DIGITS = /^(?:[0-9A-Fa-f]{2}\s*)+$/;
    const DIGITS_INSIDE = /(^|[^A-Za-z0-9])((?:[0-9A-Fa-f]{2}){4,})(?![A-Za-z0-9])/g;
    const NAMED = /^\s*[<>]?\s*(terncommode|terncommode-bin|baggage)\s*:(.*)$/i;
    const PIECE = /^p \d+ \d+ \S+$/;
    const LETTERS = 'ABCDEFGHIJKLMNOPQRSTUVWXYZabcdefghijklmnopqrstuvwxyz0123456789-_';

    const REMAINDERS = Array.from({ length: 256 }, (_, byte) => {
        let it = byte;
        for (let bit = 0; bit < 8; bit++) {
            it = it & 1 ? (it >>> 1) ^ 0xedb88320 : it >>> 1;
        }
        return it >>> 0;
    });

    /** The CRC-32 of Ethernet and zlib, as four bytes, most significant first. */
    function checkBytes(data) {
        const crc = ~data.reduce((it, byte) => REMAINDERS[(it ^ byte) & 0xff] ^ (it >>> 8), -1) >>> 0;
        return Uint8Array.of(crc >>> 24, crc >>> 16, crc >>> 8, crc);
    }

    function toBase64(data) {
        const letters = [];
        for (let at = 0; at < data.length; at += 3) {
            const bits = (data[at] << 16) | ((data[at + 1] || 0) << 8) | (data[at + 2] || 0);
            letters.push(...[18, 12, 6, 0].slice(0, Math.min(data.length - at, 3) + 1).map((shift) => LETTERS[(bits >>> shift) & 63]));
        }
        return letters.join('');
    }

    /** The bytes of base64url without padding, or null where it is none or bits that carry nothing aren't zero. */
    function fromBase64(text) {
        const data = new Uint8Array(Math.floor((text.length * 3) / 4));
        let bits = 0, count = 0, at = 0;
        for (const letter of text) {
            bits = ((bits << 6) | LETTERS.indexOf(letter)) & 0xffff;
            count += 6;
            if (count >= 8) {
                count -= 8;
                data[at++] = bits >> count;
            }
        }
        return text.length % 4 !== 1 && (bits & ((1 << count) - 1)) === 0 ? data : null;
    }

    const toHeader = (data) => `${toBase64(data)}.${toBase64(checkBytes(data))}`;

    const toHex = (data) => Array.from(data, (byte) => byte.toString(16).padStart(2, '0')).join('');

    function fromHex(text) {
        const digits = text.replace(/\s+/g, '');
        return Uint8Array.from({ length: digits.length / 2 }, (_, k) => parseInt(digits.slice(2 * k, 2 * k + 2), 16));
    }

    /** Why bytes are no context's; null where they are. */
    function faultOf(library, data) {
        try {
            library.check(data);
            return null;
        } catch (error) {
            return error.message;
        }
    }

    /** A context that was found, or why a lost one stands for it. */
    const found = (kind, data, fault = null) => ({ kind, bytes: fault === null ? data : LOST, fault });

    function ofBytes(library, kind, data) {
        return found(kind, data, faultOf(library, data));
    }

    /** One part of a header's value. */
    function ofPart(library, part) {
        const text = part.trim();
        const dot = text.indexOf('.');
        if (!text) {
            return found('header', LOST, 'a part of the value is empty');
        }
        if (!new RegExp(`^${PART}$`).test(text)) {
            return found('header', LOST, 'it has not the form DATA.CHECK');
        }
        const data = fromBase64(text.slice(0, dot));
        if (!data) {
            return found('header', LOST, 'its letters are no base64url');
        }
        if (toBase64(checkBytes(data)) !== text.slice(dot + 1)) {
            return found('header', LOST, `its check isn't that of the ${data.length} bytes: it was cut or changed on the way`);
        }
        return ofBytes(library, 'header', data);
    }

    const ofValue = (library, value) => value.split(',').map((part) => ofPart(library, part));

    /** The member `terncommode` of a header of W3C Baggage. */
    function ofMembers(library, value) {
        const members = value.split(',').map((member) => member.split(';')[0].split('='));
        const own = members.filter(([name, ...rest]) => name.trim() === 'terncommode' && rest.length);
        return own.map(([, ...rest]) => ({ ...ofPart(library, rest.join('=')), kind: 'member' }));
    }

    /** A value of gRPC's metadata: padded or unpadded base64 of bytes. */
    function ofBinary(library, value) {
        return value.split(',').map((one) => {
            const data = fromBase64(one.trim().replace(/=+$/, '').replace(/\+/g, '-').replace(/\//g, '_'));
            return data && data.length ? ofBytes(library, 'binary', data) : found('binary', LOST, 'it is no base64 of bytes');
        });
    }

    function ofPieces(library, lines) {
        try {
            return found('pieces', library.collect(new TextEncoder().encode(lines.map((line) => `${line}\n`).join(''))));
        } catch (error) {
            return found('pieces', LOST, error.message);
        }
    }

    /** What stands somewhere in a line: what carries a context, and nothing else. Digits are looked for where there is no header's value. */
    function inside(library, line) {
        const good = (form, read) => [...line.matchAll(form)].map((match) => read(match[2])).filter((it) => it.fault === null);
        const parts = good(INSIDE, (part) => ofPart(library, part));
        return parts.length ? parts : good(DIGITS_INSIDE, (digits) => ofBytes(library, 'digits', fromHex(digits)));
    }

    function ofLine(library, line) {
        const named = NAMED.exec(line);
        if (named) {
            const read = { terncommode: ofValue, 'terncommode-bin': ofBinary, baggage: ofMembers }[named[1].toLowerCase()];
            return read(library, named[2]);
        }
        if (line.trim() === '-') {
            return [found('digits', new Uint8Array(0))];
        }
        if (DIGITS.test(line.trim())) {
            return [ofBytes(library, 'digits', fromHex(line))];
        }
        const isValue = (line.includes('.') && VALUE.test(line)) || CUT_VALUE.test(line.trim());
        return isValue ? ofValue(library, line) : inside(library, line);
    }

    /** All contexts of a text, line by line. Digits and values that go over several lines, as an editor breaks them, are one. */
    function read(text, library) {
        const lines = text.split(/\r?\n/).filter((line) => line.trim());
        if (lines.length && lines.every((line) => PIECE.test(line.trim()))) {
            return [ofPieces(library, lines.map((line) => line.trim()))];
        }
        const whole = lines.join('').trim();
        if (lines.length > 1 && !lines.every((line) => ofLine(library, line).some((it) => it.fault === null))) {
            const one = DIGITS.test(whole) || (whole.includes('.') && VALUE.test(whole)) ? ofLine(library, whole) : [];
            if (one.length && one.every((it) => it.fault === null)) {
                return one;
            }
        }
        return lines.flatMap((line) => ofLine(library, line));
    }

    return { read, toHeader, toHex, fromHex };
})();
