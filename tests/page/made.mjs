// Makes objects of reports for the tests of the page in Node.

/** An object of a class. */
export const typed = (name, members) => ({ '@type': `ElectionResults.${name}`, ...members });

/** A list with one identifier. */
export const identified = (value, type = 'local-level', more = {}) => [typed('ExternalIdentifier', { Type: type, ...more, Value: value })];

/** A label in several languages. */
export const label = (...texts) => typed('InternationalizedText', { Text: texts.map(([Language, Content]) => typed('LanguageString', { Content, Language })) });
