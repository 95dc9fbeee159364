/** Where a line does not fit the forms of lines. The forms, the kinds of words and the sentences are those of
 * tools/vindaesk/scripts/grammar.py and come with the page; this reads lines by them as that module does. Places in a
 * line are indices of its string. */
import { filled, printable } from "./lines.mjs";
import { nearest } from "./similar.mjs";

const SHOWN = 64;

/** Words as a sentence lists them. */
const listed = (words) => [words.slice(0, -1).join(", "), words[words.length - 1]].filter(Boolean).join(" or ");

const unique = (words) => [...new Set(words)];

/** A word as a message shows it. */
function shown(word) {
    const all = [...word];
    return printable(all.slice(0, SHOWN).join("")) + (all.length > SHOWN ? " .." : "");
}

/** The words of a line from a place on. */
export const wordsFrom = (line, from = 0) =>
    [...line.slice(from).matchAll(/[^ ]+/g)].map((it) => ({ at: from + it.index, text: it[0], slot: null }));

/** All that follows the one space after the word before a place; nothing where that space is missing. */
function restOf(line, words, place) {
    const before = words[place - 1], end = before.at + before.text.length;
    return end < line.length ? { at: end + 1, text: line.slice(end + 1), slot: null } : null;
}

class Kind {
    constructor(record) {
        Object.assign(this, record);
        this.whole = new RegExp(`^(?:${record.form})$`, "su");
        this.part = record.culprit ? new RegExp(`^(?:${record.culprit})`, "su") : null;
    }

    fits(word) {
        return this.whole.test(word);
    }

    isWithin(word) {
        const isId = /^@[0-9A-Fa-f]{1,8}$/.test(word);
        if (!this.bounds || !(isId || /^(?:0|-?[1-9][0-9]{0,9})$/.test(word))) return true;
        const number = isId ? parseInt(word.slice(1), 16) : Number(word);
        return this.bounds[0] <= number && number <= this.bounds[1];
    }

    culpritOf(word) {
        const found = this.part && this.part.exec(word);
        return found ? found[1] : word;
    }
}

export class Grammar {
    constructor(tables) {
        this.say = tables.sentences;
        this.editWords = tables.edit_words;
        this.mostEdits = tables.most_edits;
        const kinds = tables.kinds.map((it) => new Kind(it));
        this.forms = tables.forms.map((slots) => slots.map(([name, kind]) => ({ name, kind: kinds[kind] })));
        this.firstWords = unique(this.forms.map((it) => it[0].name));
        this.edit = { name: "E", kind: kinds[tables.edit] };
    }

    /** What was meant, as the end of a sentence, where something is near. */
    guess(word, choices) {
        const near = nearest(word, choices);
        return near === null ? "" : filled(this.say.GUESS, near);
    }

    /** What may be at a place, by the words that some forms have there. */
    expected(slots) {
        const isFixed = ({ name, kind: { choices } }) => choices.length === 1 && choices[0] === name;
        const fixed = slots.filter(isFixed).map((it) => it.name);
        const others = slots.filter((it) => !fixed.includes(it.name))
            .map((it) => filled(this.say.MEANS, it.name, it.kind.says));
        const words = fixed.length ? [filled(this.say.EXPECTED, listed(unique(fixed).map((it) => `'${it}'`)))] : [];
        return [...words, ...unique(others)].join(", or ");
    }

    isTabbed(word) {
        return word.includes("\t") ? this.say.TAB : "";
    }

    /** A word that may not be where it is. */
    wrong(word, slots) {
        if (!slots.length) {
            const note = word.text.startsWith("#") ? this.say.COMMENT : this.isTabbed(word.text);
            return { at: word.at, why: filled(this.say.TOO_MANY, shown(word.text), note) };
        }
        const part = slots[0].kind.culpritOf(word.text);
        const note = this.isTabbed(part) || this.guess(part, slots.flatMap((it) => it.kind.choices));
        const why = filled(this.say.MISFIT, shown(part), note || ": " + this.expected(slots));
        return { at: word.at + Math.max(word.text.indexOf(part), 0), why };
    }

    /** How far a line fits a form: its words with their slots; and where it does not fit, the word and the slot
     * there. */
    tried(line, words, form) {
        const read = [];
        let slot;
        for (slot of form) {
            const word = slot.kind.is_rest ? restOf(line, words, read.length) : words[read.length];
            if (!word || !slot.kind.fits(word.text)) return { words: read, isWhole: false, word, slot };
            read.push({ ...word, slot });
            if (slot.kind.is_rest) return { words: read, isWhole: true, word, slot };
        }
        while (read.length < words.length && slot.kind.is_many) {
            const word = words[read.length], last = read[read.length - 1].text;
            // `none` is for itself
            if (!slot.kind.fits(word.text) || word.text === "none" || last === "none") {
                return { words: read, isWhole: false, word, slot: last === "none" ? null : slot };
            }
            read.push({ ...word, slot });
        }
        return { words: read, isWhole: read.length === words.length, word: words[read.length], slot: null };
    }

    /** A line by the form among some that it fits, or that it fits longest. */
    fitted(line, words, forms) {
        const trials = forms.map((it) => this.tried(line, words, it));
        const whole = trials.find((it) => it.isWhole);
        if (whole) return { words: whole.words, misfit: null };
        const most = Math.max(...trials.map((it) => it.words.length));
        const best = trials.filter((it) => it.words.length === most);
        const slots = best.map((it) => it.slot).filter(Boolean), word = best[0].word;
        const missing = { at: line.length, why: filled(this.say.MISSING, this.expected(slots)) };
        const misfit = word ? this.wrong(word, slots) : missing;
        return { words: best[0].words, misfit };
    }

    formsOf(word) {
        return this.forms.filter((it) => it[0].name === word);
    }

    /** A line `hook`, of which all up to its edits was read: each edit by its own form. */
    readHook(line, before) {
        const words = before.words.slice(0, -1);
        const given = wordsFrom(line, before.words[words.length].at);
        const ends = [...given.keys()].filter((it) => given[it].text === ";").concat(given.length);
        let begun = 0;
        for (const [count, end] of ends.entries()) {
            const edit = given.slice(begun, end), place = end < given.length ? given[end].at : line.length;
            if (!edit.length) return { words, misfit: { at: place, why: this.say.NO_EDIT } };
            if (!this.firstWords.includes(edit[0].text)) return { words, misfit: this.wrong(edit[0], [this.edit]) };
            if (this.editWords.includes(edit[0].text) && count < this.mostEdits) {
                const until = (end < given.length ? line.slice(0, place - 1) : line).replace(/ +$/, "");
                const reading = this.fitted(until, edit, this.formsOf(edit[0].text));
                words.push(...reading.words);
                if (reading.misfit) return { words, misfit: reading.misfit };
            }
            begun = end + 1;
        }
        return { words, misfit: null };
    }

    /** The words of a line up to where they stop to fit a form, and where that is. */
    read(line) {
        const words = wordsFrom(line);
        if (!words.length) return { words: [], misfit: null };
        const first = words[0], forms = this.formsOf(first.text);
        if (!forms.length) {
            const note = this.isTabbed(first.text) || this.guess(first.text, this.firstWords);
            return { words: [], misfit: { at: first.at, why: filled(this.say.NO_LINE, shown(first.text)) + note } };
        }
        const reading = this.fitted(line, words, forms);
        return first.text === "hook" && !reading.misfit ? this.readHook(line, reading) : reading;
    }

    /** The first word of the first edit of a line `hook` that is none, or the ninth. */
    noEdit(line) {
        const given = wordsFrom(line).slice(2);
        const firsts = given.filter((_, place) => place === 0 || given[place - 1].text === ";");
        return firsts.find((it, place) => !this.editWords.includes(it.text) || place >= this.mostEdits);
    }

    /** The first word of a line that is outside its bounds, where it is so by itself. */
    outOfBounds(reading) {
        const word = reading.words.find((it) => it.slot && !it.slot.kind.isWithin(it.text));
        if (!word) return null;
        return { at: word.at, why: filled(this.say.OUT_OF_BOUNDS, word.text, word.slot.name, word.slot.kind.says) };
    }
}
