/** The parts of compiled layout files. */
const FILE = 0x0003, POOL = 0x0001, MAP = 0x0180, START = 0x0102, END = 0x0103;
const HEADER = 8, NODE = 16;

/** The chunks of a file: their kinds and their bytes. */
function chunksOf(file) {
    const view = new DataView(file.buffer, file.byteOffset, file.byteLength), found = [];
    for (let at = view.getUint16(2, true); at + HEADER <= file.length; ) {
        const size = view.getUint32(at + 4, true);
        if (size < HEADER) break;
        found.push({ kind: view.getUint16(at, true), bytes: file.subarray(at, at + size) });
        at += size;
    }
    return found;
}

/** The chunk of an element that begins, with its first attributes alone. */
function shortened(bytes, count) {
    const from = new DataView(bytes.buffer, bytes.byteOffset, bytes.byteLength);
    const fields = from.getUint16(2, true);
    const first = fields + from.getUint16(fields + 8, true);
    const each = from.getUint16(fields + 10, true);
    const made = bytes.slice(0, first + count * each), to = new DataView(made.buffer);
    to.setUint32(4, made.length, true);
    to.setUint16(fields + 12, count, true);
    // which attributes are id, class and style
    for (const at of [14, 16, 18]) to.setUint16(fields + at, 0, true);
    return made;
}

/** The chunk that ends an element. */
function ending(start) {
    const fields = start[2] + 256 * start[3], made = new Uint8Array(NODE + 8), to = new DataView(made.buffer);
    to.setUint16(0, END, true);
    to.setUint16(2, NODE, true);
    to.setUint32(4, made.length, true);
    made.set(start.subarray(8, NODE), 8);
    made.set(start.subarray(fields, fields + 8), NODE);
    return made;
}

/** A file with the element of a number, from 1, of another file alone, and of its attributes the first ones. */
export function alone(file, number, count) {
    const chunks = chunksOf(file), start = chunks.filter((it) => it.kind === START)[number - 1].bytes;
    const before = chunks.filter((it) => it.kind === POOL || it.kind === MAP).map((it) => it.bytes);
    const parts = [...before, shortened(start, count), ending(start)];
    const made = new Uint8Array(parts.reduce((sum, it) => sum + it.length, HEADER)), to = new DataView(made.buffer);
    to.setUint16(0, FILE, true);
    to.setUint16(2, HEADER, true);
    to.setUint32(4, made.length, true);
    parts.reduce((at, it) => (made.set(it, at), at + it.length), HEADER);
    return made;
}
