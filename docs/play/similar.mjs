/** Which of some words is most like another one: as Python's difflib says it, which the tools ask. */
const CUTOFF = 0.7;

/** The longest part that two words have in common within some bounds: where it begins in each, and its size. */
function longest(one, other, [fromOne, toOne, fromOther, toOther]) {
    let best = [fromOne, fromOther, 0];
    let before = new Map();
    for (let i = fromOne; i < toOne; i++) {
        const sizes = new Map();
        for (let j = fromOther; j < toOther; j++) {
            if (one[i] !== other[j]) continue;
            const size = (before.get(j - 1) || 0) + 1;
            sizes.set(j, size);
            if (size > best[2]) best = [i - size + 1, j - size + 1, size];
        }
        before = sizes;
    }
    return best;
}

/** How alike two words are, from 0 to 1. */
function ratio(one, other) {
    let count = 0;
    const waiting = [[0, one.length, 0, other.length]];
    while (waiting.length) {
        const [fromOne, toOne, fromOther, toOther] = waiting.pop();
        const [i, j, size] = longest(one, other, [fromOne, toOne, fromOther, toOther]);
        if (!size) continue;
        count += size;
        waiting.push([fromOne, i, fromOther, j], [i + size, toOne, j + size, toOther]);
    }
    return (2 * count) / (one.length + other.length || 1);
}

const compared = (one, other) => (one < other ? -1 : one > other ? 1 : 0);

/** The word among some that is nearest to another one, in either case of letters; nothing where none is near. Of two
 * that differ by capitals alone it is the one that begins as the word does. */
export function nearest(word, choices) {
    const ordered = [...choices].sort((one, other) =>
        (one[0] === word[0]) - (other[0] === word[0]) || compared(one, other));
    const folded = new Map(ordered.filter((it) => it !== word).map((it) => [it.toLowerCase(), it]));
    const characters = [...word.toLowerCase()];
    let best = null, most = 0;
    for (const it of folded.keys()) {
        const found = ratio([...it], characters);
        if (found >= CUTOFF && (found > most || (found === most && it > best))) [best, most] = [it, found];
    }
    return best === null ? null : folded.get(best);
}
