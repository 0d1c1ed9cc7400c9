// The versions of the standard whose XML is converted.
const STANDARD = 'http://itl.nist.gov/ns/voting/1500-100/v';

/** The version of each namespace. */
export const VERSIONS = new Map([1, 2].map((version) => [`${STANDARD}${version}`, version]));
