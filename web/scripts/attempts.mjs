// What the page does when something that it asked for fails: it says so where the answer would stand, with a way to try again.
import { Cancelled } from './client.mjs';
import { button, element, saidWith, theirs } from './dom.mjs';
import { say } from './texts.mjs';

/**
 * Does something that may fail. If it does, the holder says so at its end, with a button that tries again.
 * @param {HTMLElement} holder
 * @param {() => Promise<void>} action
 */
export async function attempted(holder, action) {
    try {
        await action();
    } catch (error) {
        const told = troubleShown(error, button(say('trouble.again'), () => {
            told.remove();
            attempted(holder, action);
        }));
        holder.append(told);
    }
}

/** An error of the page, or that what was asked was cancelled, in a sentence. */
export function troubleShown(error, ...more) {
    const sentence = error instanceof Cancelled ? say('trouble.cancelled') : saidWith('trouble.failed', { error: theirs(String(error?.message ?? error)) });
    return element('p', { class: 'message trouble', role: 'alert' }, sentence, ' ', ...more);
}

/** Shows each error that nobody else has taken, in this holder. */
export function showTroubles(holder) {
    const show = (error) => {
        if (!(error instanceof Cancelled)) {
            holder.replaceChildren(troubleShown(error));
        }
    };
    addEventListener('unhandledrejection', ({ reason }) => show(reason));
    addEventListener('error', ({ error, message }) => show(error ?? new Error(message)));
}
