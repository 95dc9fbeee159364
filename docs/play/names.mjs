/** Names of ids in lines, `@id/send` in the place of `@7f080002`, by a list ids.txt: as
 * tools/vindaesk/scripts/names.py and resource_names.py have them, with their sentences. */
import { characters, decoded, encoded, filled, joined, printable, withoutReturn } from "./lines.mjs";

export const LIST = "ids.txt";
const SYSTEM = "android";
const LINE = /^(?:([A-Za-z_][\w.]*):)?(\w+)\/([\w.$-]+) *= *(?:0x)?([0-9A-Fa-f]{8})$/;
const NAME = /^@(\+?)(?:([A-Za-z_][\w.]*):)?([A-Za-z_]\w*)\/([\w.$-]+)$/;
const BLANK = 32, HASH = 35, SLASH = 47, AT = 64;
// how much of a line a message shows
const SHOWN = 160;

/** The names of a list. */
export class Names {
    constructor(text, say) {
        // ids by `package type name`, and the names by the ids
        Object.assign(this, { ids: new Map(), names: new Map(), packages: new Set(), say });
        text.split("\n").forEach((line, at) => {
            const plain = line.replace(/^[ \t\r\v\f]+|[ \t\r\v\f]+$/g, "");
            if (plain && !plain.startsWith("#")) this.read(plain, `${LIST}:${at + 1}`);
        });
    }

    read(line, place) {
        const found = LINE.exec(line), fail = (why) => new Error(filled(why, place, printable(line).slice(0, SHOWN)));
        if (!found) throw fail(this.say.NO_NAME_LINE);
        const [, pack = "", kind, name, digits] = found;
        const number = parseInt(digits, 16);
        const key = [pack, kind, name].join(" ");
        const isOther = (this.ids.get(key) ?? number) !== number || (this.names.get(number) ?? key) !== key;
        if (number === 0 || isOther) throw fail(this.say.NAME_AGAIN);
        this.ids.set(key, number);
        this.names.set(number, key);
        if (pack !== SYSTEM) this.packages.add(pack);
    }

    /** The id of a name. Without a package it may be that of any but the system's. */
    found(pack, kind, name) {
        const packages = pack ? [pack] : [...this.packages];
        return packages.map((it) => this.ids.get([it, kind, name].join(" "))).find((it) => it !== undefined);
    }

    /** The name of an id as a source has it. */
    nameOf(number) {
        if (!this.names.has(number)) return null;
        const [pack, kind, name] = this.names.get(number).split(" ");
        return `${pack === SYSTEM ? SYSTEM + ":" : ""}${kind}/${name}`;
    }
}

/** A line with ids in the place of names: `unknown` are the names that are not in the list, with their columns. */
class Expanded {
    constructor(text, shifts = [], unknown = []) {
        Object.assign(this, { text, shifts, unknown });
    }

    /** The column in the line as it was written. */
    writtenColumn(column) {
        return this.shifts.filter((it) => it.column < column).reduce((sum, it) => sum + it.less, column);
    }
}

export class Ids {
    /** `list` has the bytes of a list, or is undefined; `tables` are those of the page. */
    constructor(list, grammar, tables) {
        Object.assign(this, { isThere: Boolean(list), grammar, say: grammar.say, system: tables.ids_of_android });
        this.first = tables.first_of_android;
        this.listed = new Names(list ? decoded(list) : "", this.say);
    }

    number(pack, kind, name) {
        const found = this.listed.found(pack, kind, name), place = this.system.indexOf(name);
        return found === undefined && pack === SYSTEM && kind === "id" && place >= 0 ? this.first + place : found;
    }

    /** The name of an id as lines have it; with its package where a shorter one means another id. */
    name(number) {
        if (this.listed.names.has(number)) {
            const [pack, kind, name] = this.listed.names.get(number).split(" ");
            const isShort = pack !== SYSTEM && this.listed.found("", kind, name) === number;
            return `@${isShort || !pack ? "" : pack + ":"}${kind}/${name}`;
        }
        const name = this.system[number - this.first];
        return name ? `@${SYSTEM}:id/${name}` : null;
    }

    /** Why a name has no id. */
    unknown(pack, kind, name) {
        const whole = `@${pack && pack + ":"}${kind}/${name}`;
        const listed = [...this.listed.ids.keys()].map((it) => it.split(" "));
        if (pack === SYSTEM && kind === "id") {
            return filled(this.say.NO_PUBLIC_ID, whole, this.grammar.guess(name, this.system));
        }
        if (!this.isThere) return filled(this.say.NO_LIST, whole, LIST);
        const near = this.grammar.guess(name, listed.filter((it) => it[1] === kind).map((it) => it[2]));
        return filled(this.say.NOT_LISTED, whole, LIST, near || this.grammar.guess(kind, listed.map((it) => it[1])));
    }

    /** The id of a word that is a name, or why it has none. */
    read(word) {
        const [, plus, pack = "", kind, name] = NAME.exec(word);
        if (plus) return { why: filled(this.say.MAKES_NO_IDS, kind, name, LIST) };
        const number = this.number(pack, kind, name);
        return number === undefined ? { why: this.unknown(pack, kind, name) } : { number };
    }

    /** A line with ids in the place of the names in it. Names within texts stay. */
    expanded(line) {
        const isNamed = line.includes(AT) && line.includes(SLASH), first = line.find((it) => it !== BLANK);
        if (!isNamed || first === HASH) return new Expanded(line);
        const parts = [], shifts = [], unknown = [];
        let end = 0, length = 0;
        for (const { at, word } of nameWords(line)) {
            const { number, why } = this.read(word);
            if (why) unknown.push({ column: characters(decoded(line.subarray(0, at))) + 1, why });
            else {
                const before = line.subarray(end, at), given = "@" + number.toString(16);
                parts.push(before, encoded(given));
                length += characters(decoded(before));
                shifts.push({ column: length + 1, less: word.length - given.length });
                length += given.length;
                end = at + word.length;
            }
        }
        return new Expanded(joined([...parts, line.subarray(end)]), shifts, unknown);
    }
}

/** Where the names of a line are, in bytes. What follows `text V` or `res @HEX text` is a text, in which there are
 * none. */
function nameWords(line) {
    const plain = Array.from(withoutReturn(line), (it) => String.fromCharCode(it)).join("");
    const words = [...plain.matchAll(/[^ ]+/g)].map((it) => ({ at: it.index, word: it[0] }));
    // a line of a stack of windows: `in 0 text v1 ..`
    const first = words.length && words[0].word === "in" ? 2 : 0;
    const [one, , three] = words.slice(first).map((it) => it.word);
    const isText = one === "text" || (one === "res" && three === "text");
    return (isText ? words.slice(0, first + 2) : words).filter((it) => NAME.test(it.word));
}
