// XML, which this package does not read: it has no dependencies, and Node has no reader of XML. The commands say where it is converted.
import { STANDARD_ERROR, write } from './files.mjs';

/** What is said of XML. */
export const WHERE_CONVERTED = 'this is XML: the page erd.html and `python -m erd.from_xml` convert it to JSON, which no proof covers';

const MOST_OF_BEGINNING = 1024;
// The letters of UTF-16, and the mark of UTF-8.
const BEGINNING = /^(?:\xef\xbb\xbf|\xff\xfe|\xfe\xff)?[\0 \t\r\n]*</;

/** Whether bytes begin as XML does, in UTF-8 or UTF-16. */
export function isXml(bytes) {
    return BEGINNING.test(String.fromCharCode(...bytes.subarray(0, MOST_OF_BEGINNING)));
}

/** Says so where one of these files is XML. */
export function tellOfXml(reports) {
    if (reports.some(isXml)) {
        write(STANDARD_ERROR, `${WHERE_CONVERTED}\n`);
    }
}
