/** The lines of a script as they were written, with those of the files that it includes in their place and with ids
 * in the place of names: as tools/vindaesk/scripts/script.py reads them, with its sentences. */
import { MAX_SCRIPT, decoded, filled, linesIn, wordsOf } from "./lines.mjs";

// the script itself, as messages have it
const OWN = "";
const MAX_DEPTH = 16, MAX_INCLUDES = 1000;

/** Puts the lines of files in the place of lines `include FILE`. */
class Includer {
    constructor(files, say) {
        Object.assign(this, { files, say, count: 0, size: 0 });
    }

    * lines(file, text, around) {
        this.size += text.length;
        let number = 0;
        for (const line of linesIn(text)) {
            number++;
            const name = includedBy(line);
            if (name === null) yield { line, file, number };
            else yield* this.inner(name, { file, number }, [...around, file]);
        }
    }

    /** The lines of the file that a line includes. */
    inner(name, at, around) {
        this.count++;
        const fail = (why, ...values) => {
            const place = at.file === OWN ? `line ${at.number}` : `${at.file}:${at.number}`;
            return new Error(`${place}: include: ${filled(why, ...values)}`);
        };
        if (around.includes(name) && name !== OWN) throw fail(this.circle([...around, name]));
        if (!name) throw fail(this.say.NO_INCLUDED);
        if (around.length > MAX_DEPTH || this.count > MAX_INCLUDES) {
            throw fail(this.say.MANY_INCLUDES, MAX_DEPTH, MAX_INCLUDES);
        }
        const text = Object.hasOwn(this.files, name) ? this.files[name] : null;
        if (text === null) throw fail(this.say.NO_FILE + "; add it to the page", name);
        if (this.size + text.length > MAX_SCRIPT) throw fail(this.say.LONG_INCLUDE, MAX_SCRIPT);
        return this.lines(name, text, around);
    }

    /** Which files include each other. */
    circle(chain) {
        const [first, second, ...more] = chain.slice(chain.indexOf(chain[chain.length - 1]));
        return [`${first} includes ${second}`, ...more].join(", which includes ");
    }
}

/** The file that a line includes; nothing where it is no such line. */
function includedBy(line) {
    if (wordsOf(line)[0] !== "include") return null;
    const found = /^ *include +(.*?) *\r?$/s.exec(decoded(line));
    return found ? found[1] : "";
}

/** The lines of a script: the bytes that the program is given, where the line was written, and how it was made of
 * that. */
export function* writtenIn(script, files, ids) {
    for (const { line, file, number } of new Includer(files, ids.say).lines(OWN, script, [])) {
        const expanded = ids.expanded(line);
        yield { text: expanded.text, file, number, expanded };
    }
}
