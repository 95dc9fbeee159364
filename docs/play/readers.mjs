/** The values that attributes have by their texts in a source, as tools/vindaesk/layouts/values.py reads them. */
export const NULL = 0;
export const REFERENCE = 1;
export const THEME = 2;
export const STRING = 3;
export const FLOAT = 4;
export const DIMENSION = 5;
export const FRACTION = 6;
export const WHOLE = 0x10;
export const HEXADECIMAL = 0x11;
export const BOOLEAN = 0x12;
export const COLOURS = 0x1c;
export const LAST_COLOUR = 0x1f;
export const UNITS = ["px", "dp", "sp", "pt", "in", "mm"];
export const RADIXES = [0, 7, 15, 23];

const NUMBER = "[-+]?(?:\\d+(?:\\.\\d*)?|\\.\\d+)(?:[eE][-+]?\\d{1,2})?";
const NAMED = /^@(\+?)(?:([A-Za-z_][\w.]*):)?(\w+)\/([\w.$-]+)$/;
const THEMED = /^\?(?:([A-Za-z_][\w.]*):)?(?:attr\/)?([\w.$-]+)$/;
const REAL = new RegExp(`^${NUMBER}$`), LENGTH = new RegExp(`^(${NUMBER})(px|dip|dp|sp|pt|in|mm)$`);
const SHARE = new RegExp(`^(${NUMBER})%(p?)$`);

const made = (kind, word, text = null) => ({ kind, word: word >>> 0, text });

/** The value of a number and a unit, with as many bits after the point as there is room for, as Android keeps it. */
function complex(kind, number, unit) {
    const parts = Math.floor(Math.fround(Math.fround(Math.abs(number) * 2 ** 23) + 0.5));
    if (!(parts < 2 ** 46)) return null;
    const fitting = [3, 2, 1].find((it) => parts < 2 ** (23 + 8 * (3 - it)));
    const radix = parts % 2 ** 23 === 0 ? 0 : fitting || 0, mantissa = Math.floor(parts / 2 ** (23 - RADIXES[radix]));
    return made(kind, (((number < 0 ? -mantissa : mantissa) & 0xffffff) << 8) | (radix << 4) | unit);
}

/** A text of a source without its escapes; nothing where it has half of a character, or half of an escape. */
function unescaped(text) {
    let isBroken = false;
    const found = text.replace(/\\(u[0-9A-Fa-f]{4}|.?)/gsu, (_, it) => {
        if (it[0] === "u" && it.length !== 5) isBroken = true;
        if (it[0] === "u") return String.fromCharCode(parseInt(it.slice(1), 16));
        return { n: "\n", t: "\t" }[it] || it;
    });
    return isBroken || !found.isWellFormed() ? null : found;
}

/** The value of a text that names a resource, or an attribute of a theme; `isWrong` where it names one that there is
 * not. */
function reference(text, names) {
    const known = (kind, number) => (number === undefined ? { isWrong: true } : made(kind, number));
    if (text === "@null") return made(REFERENCE, 0);
    if (text === "@empty") return made(NULL, 1);
    const found = NAMED.exec(text);
    if (found) return found[1] ? { isWrong: true } : known(REFERENCE, names.found(found[2] || "", found[3], found[4]));
    const number = /^@(?:0x)?([0-9A-Fa-f]{1,8})$/.exec(text), byNumber = /^\?(?:0x)?([0-9A-Fa-f]{8})$/.exec(text);
    if (number) return made(REFERENCE, parseInt(number[1], 16));
    if (byNumber) return made(THEME, parseInt(byNumber[1], 16));
    const themed = THEMED.exec(text);
    return themed && known(THEME, names.found(themed[1] || "", "attr", themed[2]));
}

const READERS = {
    colour(text) {
        const found = /^#([0-9A-Fa-f]{3}|[0-9A-Fa-f]{4}|[0-9A-Fa-f]{6}|[0-9A-Fa-f]{8})$/.exec(text);
        if (!found) return null;
        const digits = found[1], whole = digits.length < 6 ? [...digits].map((it) => it + it).join("") : digits;
        return made(COLOURS + { 8: 0, 6: 1, 4: 2, 3: 3 }[digits.length], parseInt(whole.padStart(8, "f"), 16));
    },
    boolean(text) {
        if (!/^(?:true|True|TRUE|false|False|FALSE)$/.test(text)) return null;
        return made(BOOLEAN, /^t/i.test(text) ? -1 : 0);
    },
    whole(text) {
        if (/^0x[0-9A-Fa-f]{1,8}$/.test(text)) return made(HEXADECIMAL, parseInt(text.slice(2), 16));
        const isWhole = /^-?\d{1,10}$/.test(text) && Number(text) >= -(2 ** 31) && Number(text) < 2 ** 31;
        return isWhole ? made(WHOLE, Number(text)) : null;
    },
    float(text) {
        const number = REAL.test(text) ? Math.fround(Number(text)) : NaN;
        const [word] = new Uint32Array(Float32Array.of(number).buffer);
        return Number.isFinite(number) ? made(FLOAT, word) : null;
    },
    dimension(text) {
        const found = LENGTH.exec(text);
        return found && complex(DIMENSION, Math.fround(Number(found[1])), UNITS.indexOf(found[2].replace("dip", "dp")));
    },
    share(text) {
        const found = SHARE.exec(text);
        const { fround } = Math;
        return found && complex(FRACTION, fround(fround(Number(found[1])) * fround(0.01)), found[2].length);
    },
};

/** The value of words joined by `|`. */
function flags(text, known) {
    const parts = text ? text.split("|").map((it) => it.trim()) : [];
    if (!parts.every((it) => Object.hasOwn(known, it))) return null;
    return made(HEXADECIMAL, parts.reduce((sum, it) => sum | known[it], 0));
}

/** The value of a text of a source, for an attribute of some form; nothing where it does not fit. */
export function read(text, form, names) {
    const plain = text.replace(/^[ \n\r\t]+|[ \n\r\t]+$/g, "");
    let found = reference(plain, names);
    if (found && found.isWrong) return null;
    if (!found && Object.hasOwn(form.words, plain)) found = made(WHOLE, form.words[plain]);
    if (!found && Object.keys(form.flags).length) found = flags(plain, form.flags);
    for (const name of form.forms) found = found || (READERS[name] ? READERS[name](plain) : null);
    if (found || !form.forms.includes("string")) return found;
    const whole = unescaped(text);
    return whole === null ? null : { kind: STRING, word: 0, text: whole };
}
