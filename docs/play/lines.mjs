/** The lines of a script, their words, and the columns in them. */
export const MAX_LINE = 1024;
export const MAX_SCRIPT = 16777216;

const NO_MEMORY = 5, LONG = 7;

const DECODER = new TextDecoder("utf-8", { ignoreBOM: true });
const ENCODER = new TextEncoder();
export const decoded = (bytes) => DECODER.decode(bytes);
export const encoded = (text) => ENCODER.encode(text);

/** Some arrays as one. */
export function joined(pages) {
    const all = new Uint8Array(pages.reduce((sum, it) => sum + it.length, 0));
    pages.reduce((at, it) => (all.set(it, at), at + it.length), 0);
    return all;
}

/** The lines of a script, one after the other. A last one without a line feed counts if it is not empty, and a carriage
 * return at its end belongs to it. */
export function* linesIn(bytes) {
    for (let at = 0; at < bytes.length; ) {
        const feed = bytes.indexOf(10, at), end = feed < 0 ? bytes.length : feed, line = bytes.subarray(at, end);
        yield feed < 0 && line[line.length - 1] === 13 ? joined([line, Uint8Array.of(13)]) : line;
        at = end + 1;
    }
}

/** The texts of an answer, a line each. */
export const textsOf = (page) => (page.length ? decoded(page).slice(0, -1).split("\n") : []);

/** A line less the one carriage return that may end it. */
export const withoutReturn = (line) => (line[line.length - 1] === 13 ? line.subarray(0, -1) : line);

/** The words of a line; none where it is passed over, or too long to be read. */
export function wordsOf(line) {
    if (line[0] === 35 || line.length > MAX_LINE) return [];
    return decoded(withoutReturn(line)).split(" ").filter((it) => it !== "");
}

/** How many characters a text has. */
export const characters = (text) => [...text].length;

/** How many bytes from the start on are valid UTF-8. */
export function validBytes(bytes) {
    for (let at = 0; at < bytes.length; ) {
        const first = bytes[at];
        const more = first < 0x80 ? 0 : first < 0xc2 ? -1 : first < 0xe0 ? 1 : first < 0xf0 ? 2 : first < 0xf5 ? 3 : -1;
        const least = first === 0xe0 ? 0xa0 : first === 0xf0 ? 0x90 : 0x80;
        const most = first === 0xed ? 0x9f : first === 0xf4 ? 0x8f : 0xbf;
        if (more < 0 || (more > 0 && !(bytes[at + 1] >= least && bytes[at + 1] <= most))) return at;
        for (let k = 2; k <= more; k++) if (!(bytes[at + k] >= 0x80 && bytes[at + k] <= 0xbf)) return at;
        at += more + 1;
    }
    return bytes.length;
}

/** Whether a file is XML as people write it. */
export const isXml = (bytes) => decoded(bytes.subarray(0, 64)).replace(/^[\ufeff \t\r\n]+/, "").startsWith("<");

/** A text of a line without its escapes. */
export const unescaped = (text) => text.replace(/\\([n\\])/g, (_, it) => (it === "n" ? "\n" : it));

/** Why the module carries a script out no further, by its status. */
export const failureOf = (status) => new Error({
    [NO_MEMORY]: "the script needs more memory than the module has: make its window or its texts smaller",
    [LONG]: `with the lines that this page adds the script has more than ${MAX_SCRIPT} bytes`,
}[status] || `the module ended with the status ${status}; this is a mistake of the page`);

const NUMBER = /^(?:0|-?[1-9][0-9]{0,9})$/;
const MAX_SIDE = 4096;

/** Width and height of the window that words open; such a line is never refused. */
export function windowOf(words) {
    if (words.length !== 3 || words[0] !== "window" || !words.slice(1).every((it) => NUMBER.test(it))) return null;
    const sides = words.slice(1).map(Number);
    return sides.every((it) => it >= 1 && it <= MAX_SIDE) ? sides : null;
}

/** A sentence with values in the places that `%s`, `%d` and `%02x` keep for them. */
export function filled(sentence, ...values) {
    return sentence.replace(/%(s|d|02x)/g, (_, form) => {
        const value = values.shift();
        return form === "02x" ? value.toString(16).padStart(2, "0") : String(value);
    });
}

/** A text whose control characters are escaped. */
export function printable(text) {
    return Array.from(text, (it) => (/^(?: |[^\p{C}\p{Z}])$/u.test(it) ? it : escape(it))).join("");
}

function escape(character) {
    const named = { "\t": "\\t", "\n": "\\n", "\r": "\\r" }[character];
    const number = character.codePointAt(0), digits = (count) => number.toString(16).padStart(count, "0");
    if (named) return named;
    if (number < 0x100) return "\\x" + digits(2);
    return number < 0x10000 ? "\\u" + digits(4) : "\\U" + digits(8);
}
