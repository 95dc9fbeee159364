/** The elements of layout files, from the lines that `dump` writes of them, and why such a file is refused. */
import { alone } from "./compiled.mjs";
import { encoded, filled, isXml, printable, wordsOf } from "./lines.mjs";
import { NULL, REFERENCE, STRING } from "./readers.mjs";
import { ANDROID, shown } from "./values.mjs";

const NOT_XML = 5, BAD_VALUE = 14, NO_SIZE = 17, CYCLE = 18, UNKNOWN_CLASS = 23, MISSING = 39;
const OF_ATTRIBUTES = [12, 13, BAD_VALUE, 16];
const SIZES = ["layout_width", "layout_height"];

/** A string as it is in the file. */
const unescaped = (text) =>
    text.replace(/\\(n|\\|"|x[0-9a-f]{2})/g, (_, it) =>
        it === "n" ? "\n" : it.length === 1 ? it : String.fromCharCode(parseInt(it.slice(1), 16)));

/** The value of a line `attr`: its type and its word; or of a string its text. */
function valueOf(words, strings) {
    const kind = parseInt(words[4], 16), word = parseInt(words[5], 16);
    return kind === STRING ? { kind, word: 0, text: strings.get("s" + word) } : { kind, word, text: null };
}

/** The elements of a document in order: name, line, the place of the one around it, and its attributes of Android. */
export function elementsIn(dump) {
    const lines = dump.split("\n"), strings = new Map(), found = [], open = [];
    lines.forEach((line, number) => {
        const [first, ...words] = line.split(" ");
        if (first === "start") {
            const rows = lines.slice(number + 1, number + 1 + Number(words[3])).map((it) => it.split(" "));
            const whole = rows.map((it) => ({
                namespace: strings.get(it[1]) || "", name: strings.get(it[2]), value: valueOf(it, strings),
            }));
            const attributes = new Map(whole.filter((it) => it.namespace === ANDROID).map((it) => [it.name, it.value]));
            const parent = open.length ? open[open.length - 1] : null;
            open.push(found.length);
            const name = strings.get(words[2]), line = Number(words[0]);
            found.push({ name, line, parent, attributes, whole, number: found.length + 1 });
        } else if (first === "end") open.pop();
        else if (first[0] === "s") strings.set(first, unescaped(line.slice(first.length + 2, -1)));
    });
    return found;
}

/** The last part of a name. */
export const lastPart = (name) => name.slice(name.lastIndexOf(".") + 1);

/** Whether a value is a reference or null, and to which id. */
export const reference = ({ kind, word }) => [kind === NULL || kind === REFERENCE, kind === REFERENCE ? word : 0];

/** Says why layout files are refused. `dump` returns the lines of the file of a name, or nothing where it is
 * refused, and `tried` with other files how each of some lines is refused; `ids` are the names of ids. `settings`
 * are the lines `dpi` and `res` up to now. */
export class Faults {
    constructor(tables, reasons, files, { dump, tried, ids }) {
        Object.assign(this, { tables, reasons, files, dump, tried, ids, settings: [] });
        Object.assign(this, { say: tables.sentences, classes: tables.classes });
    }

    /** Why a file is refused; nothing where there is no more to say than that. */
    detail(name, text) {
        const number = Number(text.split(" ")[1]), why = this.reasons.known(number).why;
        if (number === MISSING) return why + this.reasons.grammar.guess(name, Object.keys(this.files).sort());
        const isSource = number === NOT_XML && this.files[name] && isXml(this.files[name]);
        if (isSource) return filled(this.say.SOURCE, "tools/axml");
        const offset = / at ([0-9]+)$/.exec(text);
        if (offset) return filled(this.say.AT_BYTE, why, offset[1]);
        const form = number === CYCLE ? / e([1-9][0-9]*)/g : / element ([1-9][0-9]*)$/g;
        const numbers = [...text.matchAll(form)].map((it) => it[1]);
        const dump = numbers.length ? this.dump(name) : null;
        const elements = dump === null ? [] : elementsIn(dump);
        const found = numbers.filter((it) => it <= elements.length).map((it) => elements[it - 1]);
        return found.length ? this.ofElements(name, found, number, why) : "";
    }

    /** Why elements of a file are refused. */
    ofElements(name, found, number, plain) {
        let why = plain;
        if (number === UNKNOWN_CLASS) {
            why += this.reasons.grammar.guess(lastPart(found[0].name), this.classes) ||
                filled(this.say.THERE_ARE, this.classes.join(", "));
        } else if (number === NO_SIZE) {
            const missing = SIZES.filter((it) => !found[0].attributes.has(it)).map((it) => "android:" + it);
            why = filled(this.say.NO_SIZE, missing.join(this.say.AND_NO));
        }
        let places = found.map((it) => filled(this.say.IN_LINE, it.name, it.line)).join(", ");
        const culprit = OF_ATTRIBUTES.includes(number) ? this.culprit(name, found[0], number) : null;
        if (culprit) {
            places += ": " + shown(culprit, this.formOf(culprit), this.ids.listed);
            why = (number === BAD_VALUE && this.otherKind(culprit)) || why;
        }
        return printable(`${name}: ${places}: ${why}`);
    }

    /** What the text of an attribute may be. */
    formOf({ namespace, name }) {
        return (namespace === ANDROID && this.tables.attributes[name]) || this.tables.any_attribute;
    }

    /** The attribute for which an element is refused: the first with which files of the element alone are refused
     * alike. */
    culprit(name, element, number) {
        const counts = element.whole.map((_, at) => at + 1);
        const file = this.files[name];
        const made = Object.fromEntries(counts.map((it) => [`a${it}.xml`, alone(file, element.number, it)]));
        const lines = ["add root FrameLayout 0 0", ...counts.map((it) => `inflate a${it}.xml into v1`)].map(encoded);
        const found = this.tried([...this.settings, ...lines], made).slice(this.settings.length + 1);
        const place = found.findIndex((it) => it.startsWith(`refused ${number} `));
        return place < 0 ? null : element.whole[place];
    }

    /** What is said where an attribute names a resource whose value is of a kind that it cannot have. */
    otherKind(culprit) {
        if (culprit.value.kind !== REFERENCE) return "";
        const { word } = culprit.value;
        const isNamed = ([first, id]) => first === "res" && parseInt(id.slice(1), 16) === word;
        const named = this.settings.map(wordsOf).findLast(isNamed);
        if (!named) return "";
        return filled(this.say.OTHER_KIND, this.tables.resource_kinds[named[2]], this.formOf(culprit).said);
    }
}
