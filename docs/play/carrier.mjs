/** Has scripts carried out by a worker, which is ended where one takes too long. */

// how much longer a script may take once another one waits, in milliseconds
const IMPATIENT = 400;

export class Carrier {
    constructor(source, module, tables) {
        this.address = URL.createObjectURL(new Blob([source], { type: "text/javascript" }));
        Object.assign(this, { module, tables, busy: null, waiting: null });
        // how long a script may take, in milliseconds
        this.most = 5000;
        this.start();
    }

    start() {
        this.worker = new Worker(this.address);
        this.worker.postMessage({ module: this.module, tables: this.tables });
        this.worker.onmessage = ({ data }) => {
            // a module that has failed may not be asked again
            if (data.error) this.anew();
            this.end(data);
        };
        this.worker.onerror = (it) => {
            this.anew();
            this.end({ error: it.message || "the page's worker has failed; reload the page" });
        };
    }

    anew() {
        this.worker.terminate();
        this.start();
    }

    /** What a script comes to, which is given with its form and its files: { found } or { error }; { isOld } where a
     * newer one was given before it began. */
    run(given) {
        return new Promise((done) => {
            if (this.waiting) this.waiting.done({ isOld: true });
            this.waiting = { given, done };
            if (!this.busy) this.next();
            else this.endIn(IMPATIENT, { isOld: true });
        });
    }

    next() {
        const { given, done } = this.waiting;
        Object.assign(this, { waiting: null, busy: done });
        this.worker.postMessage({ given });
        this.endIn(this.most, {
            error: `the script was ended after ${this.most / 1000} seconds; ./vindaesk ${given.form} has no such limit`,
        });
    }

    /** Ends the worker in a time, unless it has answered by then. */
    endIn(time, answer) {
        clearTimeout(this.timer);
        this.timer = setTimeout(() => {
            this.anew();
            this.end(answer);
        }, time);
    }

    end(answer) {
        clearTimeout(this.timer);
        const done = this.busy;
        this.busy = null;
        if (done) done(answer);
        if (this.waiting) this.next();
    }
}
