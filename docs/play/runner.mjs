/** Carries a script out by the module, and asks it for bounds and picture. */
import { Faults } from "./layouts.mjs";
import { MAX_SCRIPT, decoded, encoded, failureOf, joined, textsOf, wordsOf } from "./lines.mjs";
import { Picture, asked } from "./pixels.mjs";
import { Reasons } from "./reasons.mjs";
import { StackRun } from "./stacks.mjs";
import { World, refusalIn } from "./worlds.mjs";
import { Ids, LIST } from "./names.mjs";
import { writtenIn } from "./written.mjs";

const REFUSED = 1;
const SETTINGS = ["dpi", "res"], TOUCHES = ["down", "move", "up", "cancel"];

const NUMBERED = /^line [0-9]+: /;

/** How the program refuses each of some lines over other files; an empty text where it does not. */
function tried(vindaesk, lines, files) {
    const session = vindaesk.session(files);
    const found = lines.map((it) => session.line(it)).map(
        ({ page, status }) => (status === REFUSED ? textsOf(page)[0].replace(NUMBERED, "") : ""));
    session.close();
    return found;
}

/** What is said of the lines of a script that are refused. */
class Findings {
    constructor(vindaesk, files, tables) {
        this.dump = (name) => {
            const { page, status } = vindaesk.dump(name, files);
            return status === 0 ? decoded(page) : null;
        };
        this.reasons = new Reasons(tables);
        this.ids = new Ids(files[LIST], this.reasons.grammar, tables);
        const ways = { dump: this.dump, tried: (lines, made) => tried(vindaesk, lines, made), ids: this.ids };
        this.faults = new Faults(tables, this.reasons, files, ways);
    }

    /** Where a line, of these words, is refused, and why. */
    finding({ text: line, file, number, expanded }, words, text) {
        const { column, title, why } = this.reasons.reason(line, text), at = { file, line: number };
        if (expanded.unknown.length) return { ...at, ...expanded.unknown[0], title };
        const detail = words[0] === "inflate" && words.length > 1 ? this.faults.detail(words[1], text) : "";
        return { ...at, column: expanded.writtenColumn(column), title, why: detail || why };
    }
}

/** One run of a script of one window, line by line. */
class Run {
    constructor(vindaesk, files, findings) {
        this.session = vindaesk.session(files);
        this.findings = findings;
        this.world = new World(findings.dump);
        Object.assign(this, { pages: [], refused: [], touches: [], status: 0 });
    }

    /** What the session says of a line, and whether it is refused. */
    asked(line) {
        const { page, status } = this.session.line(line);
        if (status > REFUSED) throw failureOf(status);
        return { page, isRefused: status === REFUSED };
    }

    /** Carries out a line. */
    line(it) {
        const { page, isRefused } = this.asked(it.text), words = wordsOf(it.text);
        if (page.length) this.pages.push(page);
        if (isRefused) {
            this.status = REFUSED;
            this.refused.push(this.findings.finding(it, words, textsOf(page)[0].replace(NUMBERED, "")));
            return;
        }
        const texts = textsOf(page);
        this.world.follow(words, it.text, texts);
        if (SETTINGS.includes(words[0])) this.findings.faults.settings.push(it.text);
        if (TOUCHES.includes(words[0])) this.touches.push({ line: it.number, words, replies: texts });
    }

    /** Carries out lines, and asks for views and picture. */
    carryOut(lines) {
        for (const it of lines) this.line(it);
        const { pages, refused, touches, status, world: { size } } = this, answer = joined(pages);
        const bounds = textsOf(this.asked(encoded("bounds")).page);
        const window = { pane: null, corner: [0, 0], size, ...this.world.views(bounds) };
        return { answer, status, refused, touches, windows: [window], pane: null, ...this.picture(size || [1, 1]) };
    }

    /** The picture of the last frame, or the number of the refusal. */
    picture([width, height]) {
        const found = new Picture(width, height);
        for (const line of asked("pixels", 0, 0, width, height)) {
            const { page, isRefused } = this.asked(encoded(line));
            if (isRefused) return { picture: null, noPicture: refusalIn(textsOf(page)) };
            found.add(page);
        }
        return { picture: found.made([0, 0]), noPicture: 0 };
    }
}

/** What a script of a form, `run` or `stack`, comes to: the bytes of its answer and the status, the refused lines, the
 * touches, the windows with their views, and the picture of the window of a number, or of all. */
export function outcome(vindaesk, { script, files, form, pane }, tables) {
    const { length } = script;
    if (length > MAX_SCRIPT) throw new Error(`the script has ${length} bytes, and may have ${MAX_SCRIPT}`);
    const findings = new Findings(vindaesk, files, tables), lines = writtenIn(script, files, findings.ids);
    if (form === "stack") {
        const of = { dump: findings.dump, finding: (...given) => findings.finding(...given) };
        return named(new StackRun(vindaesk, files, of).carryOut(lines, pane), findings.ids);
    }
    const run = new Run(vindaesk, files, findings);
    try {
        return named(run.carryOut(lines), findings.ids);
    } finally {
        run.session.close();
    }
}

/** An outcome whose views have the names of their ids. */
function named(found, ids) {
    for (const view of found.windows.flatMap((it) => it.views)) {
        view.name = ids.name(view.id) || "@" + view.id.toString(16);
    }
    return found;
}
