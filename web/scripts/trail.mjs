// The way to a place, with what each object on it is called: Election › Contest 3 “Governor” › selection 2.

/**
 * The steps of a trail. A step goes to a member, or to an entry of a member, or to an entry of an array in an array.
 * @param {import('./places.mjs').Found | null} found
 * @param {(string | number)[]} place
 * @returns {{name: string | null, number: number | null, title: string | null}[]} `number` counts entries from 1, and
 * `title` is what the file calls the object
 */
export function trailOf(found, place) {
    const trail = [];
    for (let at = 0; at < place.length; at++) {
        const name = typeof place[at] === 'string' ? place[at] : null;
        const goesToEntry = name === null || typeof place[at + 1] === 'number';
        at += goesToEntry && name !== null ? 1 : 0;
        const title = found === null || !goesToEntry ? null : titleAt(found, at + 1);
        trail.push({ name, number: goesToEntry ? place[at] + 1 : null, title });
    }
    return trail;
}

function titleAt(found, steps) {
    for (const name of ['Name', 'BallotName', 'FullName', 'LastName', 'Selection', 'Language']) {
        const title = textOfLabel(found.title(steps, name));
        if (title !== null) {
            return title;
        }
    }
    const value = found.title(steps, 'Value');
    return isText(value) ? [found.title(steps, 'Type'), value].filter(isText).join(' ') : null;
}

/** What an object with these members is called; null if it has no name. */
export function titleOf({ Name, BallotName, FullName, FirstName, LastName }) {
    const title = [Name, BallotName, FullName].map(textOfLabel).find((text) => text !== null);
    return title ?? ([FirstName, LastName].filter(Boolean).join(' ') || null);
}

/** The text of a label: the label itself, or its first text, an English one if there is one. */
export function textOfLabel(label) {
    if (isText(label)) {
        return label;
    }
    const texts = Array.isArray(label?.Text) ? label.Text.filter((text) => isText(text?.Content)) : [];
    const english = texts.find((text) => isText(text.Language) && /^en\b/i.test(text.Language));
    return (english ?? texts[0])?.Content ?? null;
}

function isText(value) {
    return typeof value === 'string' && value !== '';
}
