// The page's end of the worker: asks questions, and ends the worker to cancel.

/** The worker was ended before it answered. */
export class Cancelled extends Error {}

/** The worker ended by itself, such as for lack of memory. */
export class Ended extends Error {}

/** A worker, and another one after each that was ended. */
export class Client {
    #makeWorker;
    #start;
    #worker = null;
    #waiting = new Map();
    #number = 0;
    #opened = null;
    #broken = null;

    /**
     * @param {() => Worker} makeWorker
     * @param {object} start the first question to each worker
     */
    constructor(makeWorker, start) {
        this.#makeWorker = makeWorker;
        this.#start = start;
        this.#begin();
    }

    /** The files that all further questions are about, for a worker that begins anew too. */
    open(opened) {
        this.#opened = opened;
        this.ask('open', opened).catch(() => {});
    }

    /** Asks a question. `tell` is told of progress. A worker that could not begin answers nothing: the next one may. */
    ask(kind, question, tell = () => {}) {
        if (this.#broken !== null) {
            return Promise.reject(this.#broken);
        }
        const number = ++this.#number;
        return new Promise((resolve, reject) => {
            this.#waiting.set(number, { resolve, reject, tell });
            this.#worker.postMessage({ number, kind, question });
        });
    }

    /** A client with a worker of its own, which has had the same first question. */
    another() {
        return new Client(this.#makeWorker, this.#start);
    }

    /** Ends the worker, and begins no other one: what it was asked is never answered. */
    leave() {
        this.#worker.terminate();
    }

    /** Begins anew with another first question. */
    restart(start) {
        this.#start = start;
        this.cancel();
    }

    /** Ends the worker, with all that it was asked, and begins another one. */
    cancel() {
        this.#end(new Cancelled());
    }

    /** Begins anew if the worker could not begin. */
    renew() {
        if (this.#broken !== null) {
            this.#end(this.#broken);
        }
    }

    #begin() {
        this.#broken = null;
        this.#worker = this.#makeWorker();
        this.#worker.addEventListener('message', ({ data }) => this.#heard(data));
        this.#worker.addEventListener('error', (event) => this.#end(new Ended(event.message || 'the worker has ended')));
        this.#worker.addEventListener('messageerror', () => this.#end(new Ended('an answer could not be read')));
        this.ask('start', this.#start).catch((error) => this.#startFailed(error));
        if (this.#opened !== null) {
            this.ask('open', this.#opened).catch(() => {});
        }
    }

    // Whoever waits is told why nothing comes.
    #startFailed(error) {
        if (!(error instanceof Cancelled) && !(error instanceof Ended)) {
            this.#broken = error;
            const waiting = [...this.#waiting.values()];
            this.#waiting.clear();
            waiting.forEach(({ reject }) => reject(error));
        }
    }

    #end(error) {
        this.#worker.terminate();
        const waiting = [...this.#waiting.values()];
        this.#waiting.clear();
        this.#begin();
        waiting.forEach(({ reject }) => reject(error));
    }

    #heard({ number, progress, answer, error }) {
        const waiting = this.#waiting.get(number);
        if (waiting === undefined) {
            return;
        }
        if (progress !== undefined) {
            waiting.tell(progress);
            return;
        }
        this.#waiting.delete(number);
        if (error === undefined) {
            waiting.resolve(answer);
        } else {
            waiting.reject(new Error(error));
        }
    }
}
