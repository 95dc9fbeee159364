/** Which word of a refused line is meant, and why it is refused: what `vindaesk check` says, by its tables. Whether
 * a line is refused, and for what, the proved module says. */
import { Grammar, wordsFrom } from "./grammar.mjs";
import { MAX_LINE, characters, decoded, filled, validBytes, withoutReturn } from "./lines.mjs";

const RANGE = 30, SYNTAX = 31, LONG_LINE = 32, NO_VIEW = 28, HOOK_EDIT = 25, NO_PANE = 43;

export class Reasons {
    constructor(tables) {
        this.grammar = new Grammar(tables);
        this.say = tables.sentences;
        this.refusals = tables.refusals;
        this.atLines = tables.at_lines;
        this.ofFile = tables.of_file;
    }

    /** What a refusal means, at a line of these words. */
    why(number, words) {
        const found = (this.atLines[number] || []).find(
            ([wanted]) => wanted[0] === words[0] && wanted.every((it) => words.slice(0, 3).includes(it)));
        return found ? found[1] : this.known(number).why;
    }

    known(number) {
        return this.refusals[number] || { about: [], why: this.say.REFUSED };
    }

    /** Where a line is no UTF-8. */
    undecoded(line) {
        const end = validBytes(line);
        if (end === line.length) return null;
        return { column: characters(decoded(line.subarray(0, end))) + 1, why: filled(this.say.NO_UTF8, line[end]) };
    }

    /** The word of a line that has no form, is outside its bounds, or is too much, by the number of the refusal. */
    unfit(line, number) {
        if (number === LONG_LINE) {
            return { column: characters(decoded(line.subarray(0, MAX_LINE))) + 1, why: this.known(LONG_LINE).why };
        }
        const undecoded = this.undecoded(line);
        if ((number !== RANGE && number !== SYNTAX) || undecoded) return undecoded;
        const text = decoded(line);
        if (text.startsWith("\ufeff")) return { column: 1, why: this.say.MARK };
        const reading = this.grammar.read(text);
        const misfit = number === SYNTAX ? reading.misfit : this.grammar.outOfBounds(reading);
        return misfit && { column: characters(text.slice(0, misfit.at)) + 1, why: misfit.why };
    }

    /** The word of a line that a refusal is about, by what the program says of it, and what that means. */
    meant(line, number, text) {
        const columnOf = (word) => characters(line.slice(0, word ? word.at : 0)) + 1;
        const edit = number === HOOK_EDIT ? this.grammar.noEdit(line) : null;
        if (edit) return { column: columnOf(edit), why: this.say.NO_HOOK_EDIT };
        const given = wordsFrom(line), { words } = this.grammar.read(line);
        const why = this.why(number, given.map((it) => it.text));
        for (const name of text.includes(" element ") ? this.ofFile : this.known(number).about) {
            const named = words.filter((it) => it.slot && it.slot.name === name);
            if (!named.length) continue;
            if (number === NO_VIEW && new Set(named.map((it) => it.text)).size > 1) {
                return { column: columnOf(named[0]), why: this.say.A_VIEW };
            }
            const place = / at ([0-9]+)$/.exec(text);
            return { column: columnOf(named[0]) + (place && name === "HEX" ? 2 * Number(place[1]) : 0), why };
        }
        return { column: columnOf(given[0]), why };
    }

    /** Why a line is refused: by what the program says of it, as `refused 28 NoView`. */
    reason(bytes, text) {
        const line = withoutReturn(bytes), [, number, name] = text.split(" ");
        const before = / *in +[^ ]+ +/y.exec(String.fromCharCode(...line.subarray(0, 2 * MAX_LINE)));
        if (Number(number) === NO_PANE) {
            const second = wordsFrom(decoded(line))[1];
            return { column: (second ? second.at : 0) + 1, title: this.say.NO_PANE, why: this.say.NO_PANE_WHY };
        }
        const inner = before ? line.subarray(before[0].length) : line;
        const found = this.unfit(inner, Number(number)) || this.meant(decoded(inner) || "?", Number(number), text);
        const shift = before ? characters(decoded(line.subarray(0, before[0].length))) : 0;
        return { column: found.column + shift, title: `${number} ${name}`, why: found.why };
    }
}
