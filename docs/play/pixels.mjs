/** Pictures from the colours that the program writes. */

// how many pixels one line may ask for
const MOST = 65536;

/** The lines that ask for a part of a picture by a word, row after row. */
export function asked(word, left, top, width, height) {
    const rows = Math.max(Math.floor(MOST / width), 1), found = [];
    for (let at = 0; at < height; at += rows) {
        found.push(`${word} ${left} ${top + at} ${width} ${Math.min(rows, height - at)}`);
    }
    return found;
}

// the value of each byte that is a hexadecimal digit in small letters
const DIGITS = new Uint8Array(256);
[..."0123456789abcdef"].forEach((it, value) => (DIGITS[it.charCodeAt(0)] = value));

/** A picture that is filled with colours `rrggbb`, each followed by a space or a line feed. */
export class Picture {
    constructor(width, height) {
        Object.assign(this, { width, height, at: 0, words: new Uint32Array(width * height) });
    }

    /** Adds the colours of an answer. */
    add(page) {
        const two = (from) => (DIGITS[page[from]] << 4) | DIGITS[page[from + 1]];
        for (let from = 0; from < page.length; from += 7) {
            // the bytes of a pixel are red, green, blue and alpha
            this.words[this.at++] = two(from) | (two(from + 2) << 8) | (two(from + 4) << 16) | (255 << 24);
        }
    }

    /** The picture with the point of its left upper corner, as bytes of red, green, blue and alpha. */
    made(origin) {
        return { width: this.width, height: this.height, origin, pixels: new Uint8ClampedArray(this.words.buffer) };
    }
}
