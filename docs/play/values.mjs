/** Attributes of layout files as sources have them, as tools/vindaesk/layouts/values.py writes them. */
import { characters, printable } from "./lines.mjs";
import { decimal, general, signed } from "./numbers.mjs";
import { BOOLEAN, COLOURS, DIMENSION, FLOAT, FRACTION, HEXADECIMAL, LAST_COLOUR, NULL, RADIXES, REFERENCE, STRING,
    THEME, UNITS, WHOLE, read } from "./readers.mjs";

export const ANDROID = "http://schemas.android.com/apk/res/android";
const MOST = 60;

const hex = (word) => word.toString(16).padStart(8, "0");

/** The number of a word, times a scale, and its unit, with more and more digits, and at the end with all of them. */
function* complexTexts(word, scale, unit) {
    const radix = RADIXES[(word >> 4) & 3];
    for (let digits = 0; digits < 24; digits++) {
        const text = decimal(BigInt(signed(word >>> 8, 24) * scale), 1n << BigInt(radix), digits);
        yield (digits ? text.replace(/\.?0+$/, "") : text) + unit;
    }
}

/** A float with more and more digits; nothing where it is infinite or no number. */
function* floatTexts(word) {
    const number = new DataView(Uint32Array.of(word).buffer).getFloat32(0, true);
    for (let digits = 1; digits < 10 && Number.isFinite(number); digits++) {
        const text = general(number, digits);
        if (/^-*\d+$/.test(text)) yield text + ".0";
        yield text;
    }
}

/** A colour in as few digits as its type has, and in all of them. */
function* colourTexts(kind, word) {
    const digits = hex(word);
    if (kind > COLOURS + 1) yield "#" + [0, 2, 4, 6].map((it) => digits[it]).join("").slice(kind - COLOURS - 2);
    if (kind === COLOURS + 1) yield "#" + digits.slice(2);
    yield "#" + digits;
}

/** The fewest words without a bit in common that make a word of flags, where there are such. */
function flagsText(word, known) {
    const within = Object.keys(known).filter((it) => ((known[it] & word) >>> 0) === known[it]);
    function made(count, from, left) {
        if (count === 0) return left === 0 ? [] : null;
        for (let at = from; at < within.length; at++) {
            const bits = known[within[at]];
            const rest = (bits & ~left) === 0 ? made(count - 1, at + 1, (left & ~bits) >>> 0) : null;
            if (rest) return [within[at], ...rest];
        }
        return null;
    }
    const found = [0, 1, 2, 3, 4].map((it) => made(it, 0, word)).find(Boolean);
    return found ? found.join("|") : null;
}

function* wholeTexts({ kind, word }, form) {
    yield kind === WHOLE ? String(word | 0) : "0x" + word.toString(16);
    const name = Object.keys(form.words).find((it) => form.words[it] === (word | 0));
    if (name !== undefined) yield name;
    const flags = Object.keys(form.flags).length ? flagsText(word, form.flags) : null;
    if (flags) yield flags;
}

/** A text as a source has it. */
function escaped(text) {
    const made = text.replace(/\\/g, "\\\\").replace(/\n/g, "\\n").replace(/\t/g, "\\t")
        .replace(/[^\u0020-\ud7ff\ue000-\ufffd\u{10000}-\u{10ffff}]/gu, (it) => "\\u" + hex(it.charCodeAt(0)).slice(4));
    return /^[@?#]/.test(made) ? "\\" + made : made;
}

/** A text as a source has it, and after a backslash, so that it is no value of another type. */
const stringTexts = (text) => [escaped(text), "\\" + escaped(text), escaped(text)];

function referenceText({ kind, word }, names) {
    const name = names.nameOf(word);
    if (kind === THEME) return "?" + (name !== null && /(^|:)attr\//.test(name) ? name : hex(word));
    return name === null ? (word ? "@" + hex(word) : "@null") : "@" + name;
}

/** The texts that a value may have in a source; the last one says it most exactly. */
function* texts(value, form, names) {
    const { kind, word } = value, scale = kind === FRACTION ? 100 : 1;
    const unit = kind === FRACTION ? ["%", "%p"][word & 15] : UNITS[word & 15];
    if (kind === REFERENCE || kind === THEME) yield referenceText(value, names);
    else if (kind === NULL) yield word === 1 ? "@empty" : "@null";
    else if (kind === STRING) yield* stringTexts(value.text || "");
    else if (kind === FLOAT) yield* floatTexts(word);
    else if ((kind === DIMENSION || kind === FRACTION) && unit) yield* complexTexts(word, scale, unit);
    else if (kind === BOOLEAN) yield word ? "true" : "false";
    else if (kind >= COLOURS && kind <= LAST_COLOUR) yield* colourTexts(kind, word);
    else if (kind === WHOLE || kind === HEXADECIMAL) yield* wholeTexts(value, form);
}

/** The text of a value in a source: the first one that is read as this value, else the most exact one; nothing where
 * it has none. */
function textOf(value, form, names) {
    let text = null;
    for (text of texts(value, form, names)) {
        const found = read(text, form, names);
        if (found && found.kind === value.kind && found.word === value.word && found.text === value.text) return text;
    }
    return text;
}

/** An attribute as a source has it. */
export function shown({ namespace, name, value }, form, names) {
    const text = textOf(value, form, names);
    const plain = printable(text === null ? value.kind.toString(16).padStart(2, "0") + " " + hex(value.word) : text);
    const cut = characters(plain) <= MOST ? plain : [...plain].slice(0, MOST).join("") + " ..";
    return `${namespace === ANDROID ? "android:" : ""}${name}="${cut}"`;
}
