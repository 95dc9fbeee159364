/** What the page holds: the script, whether it is of one window or of a stack, and files. */
import { MOST_BYTES, MOST_LINES, wholeLines } from "./editor.mjs";
import { decoded, encoded, isXml, validBytes } from "./lines.mjs";

const SCRIPTS = { ".script": "run", ".stack": "stack" };
const NAME = /^[A-Za-z0-9_-][A-Za-z0-9_.-]{0,63}$/;
// the names of files that no line `inflate` reads
const OF_TOOLS = /^ids\.txt$|\.lines$/;
// how compiled layouts begin, and compiled resources
const COMPILED = [[3, 0, 8, 0], [2, 0, 12, 0]];

/** The bytes of two files are the same. */
const same = (one, other) => Boolean(other) && one.length === other.length && one.every((it, at) => it === other[at]);

export class Held {
    /** `editor` has the text, `ofExamples` the files that links need not hold. */
    constructor(editor, ofExamples) {
        Object.assign(this, { editor, ofExamples, files: {}, form: "run", kept: "" });
        // the bytes of the script that was opened, as long as nobody edits it
        this.opened = { text: "", bytes: new Uint8Array() };
    }

    get script() {
        return this.editor.text === this.opened.text ? this.opened.bytes : encoded(this.editor.text);
    }

    /** Whether the script was edited since it was opened, saved or put into a link. */
    get isUnsaved() {
        return this.editor.text !== this.kept;
    }

    /** What is said of a script of which the editor shows the beginning alone. */
    get fixed() {
        const { length } = this.opened.bytes;
        const said = `The script has ${length} bytes, too many to be edited here: its beginning is shown.`;
        return this.editor.isFixed ? said : "";
    }

    keep() {
        this.kept = this.editor.text;
    }

    /** Opens a script of a form with its files. Of one that is too long for the editor it shows the beginning. */
    open(bytes, files, form) {
        const shown = bytes.subarray(0, Math.min(wholeLines(bytes, MOST_LINES), MOST_BYTES));
        this.editor.text = decoded(shown);
        this.editor.isFixed = shown.length < bytes.length;
        this.opened = { text: this.editor.text, bytes };
        Object.assign(this, { files, form });
        this.keep();
    }

    /** Takes a file, of which a script is opened. Returns what there is to say. */
    take(name, bytes) {
        const form = SCRIPTS[/\.[^.]*$/.exec(name)?.[0]];
        if (form) {
            this.open(bytes, this.files, form);
            const end = validBytes(bytes), place = bytes.subarray(0, end).filter((it) => it === 10).length + 1;
            return end === bytes.length ? this.fixed : `${name} is no text in UTF-8: see its line ${place}.`;
        }
        if (!NAME.test(name)) {
            return `${name} was not added: a name has 1 to 64 letters, digits, _, - and ., the first not a dot.`;
        }
        this.files[name] = bytes;
        return whyNot(name, bytes);
    }

    /** The files that a link does not hold. */
    get ownFiles() {
        return Object.keys(this.files).filter((name) => !same(this.files[name], this.ofExamples[name]));
    }
}

/** Why no line can read a file that was added; nothing where one may. */
function whyNot(name, bytes) {
    if (OF_TOOLS.test(name) || COMPILED.some((its) => its.every((it, at) => bytes[at] === it))) return "";
    if (!isXml(bytes)) {
        return `${name} is no compiled layout, and no line inflate can read it. ` +
            "Scripts end with .script or .stack, files of a line include with .lines.";
    }
    return `${name} is the source of a layout, which this page does not compile: ` +
        "add what tools/axml makes of it, or see it by tools/preview.";
}
