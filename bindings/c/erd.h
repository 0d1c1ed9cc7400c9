/* erd: canonical form, check and comparison of pre-election ballot definitions.
 *
 * Each call but erd_command_line takes the bytes of one report, or of two, and all but it, erd_ballot, erd_words and erd_prepare
 * do what a command of `erd` does. The manual page erd(1) describes the commands, their texts and the preferred type of identifier.
 * A call keeps no state but that of the list that it is given: its result does not depend on other calls, and several threads may
 * call at once, each with lists of its own. It reads only the bytes that it is given, and never ends the program. */
#ifndef ERD_H
#define ERD_H

#include <stddef.h>

/* The version of this header. A program may compare it with erd_version. */
#define ERD_VERSION "0.2.0"

#ifdef __cplusplus
extern "C" {
#endif

/* The result of a call: the exit status of the command. */
enum erd_outcome {
    ERD_GOOD = 0,      /* the report is accepted; or the two mean the same */
    ERD_BAD = 1,       /* a report is refused; or the two differ */
    ERD_NOT_JSON = 2,  /* the bytes of a report are not JSON */
    ERD_WRONG = 3,     /* a report has more than 67,108,864 bytes, or `prefer` is not UTF-8; there is no text */
    ERD_NO_MEMORY = 4  /* out of memory; there is no text */
};

/* In each call:
 *
 * - `bytes` points to `size` bytes. It may be null if `size` is 0. The same holds for `left` and `right` with their sizes.
 * - `prefer` is the type of identifier that the keys of objects follow: a string in UTF-8, ended by a zero byte. Null means
 *   no preference.
 * - `*text` is set to the text. The caller owns it and frees it with erd_free. `*length` is set to its length in bytes,
 *   without the zero byte that follows it. If there is no text, `*text` is set to null and `*length` to 0. `text` may be
 *   null, and so may `length`.
 *
 * A text has no limit of its own. A report may have very many faults, and the place of each is written in full, so that a text
 * can be many times as long as the report. Take such a list piece by piece (below). If a text is longer than 4,096 bytes, or a
 * canonical form than twice its report and 4,096 bytes, the call does its work twice: once to learn the length, and once more
 * into a text of that length. A call for a piece of a list does so if the text is longer than `enough_bytes`, or than a
 * mebibyte, and 4,096 bytes.
 *
 * A name in a text that is not JSON is written as it is in the report, and may have a line feed or any other character. So
 * take a text of lines apart by hand only if you trust the report; the calls that answer with data have no such limit. */

/* Checks a report. The text is `accepted`, or one line for each fault, or `not JSON`. Each line is ended by one line
 * feed. */
enum erd_outcome erd_check(const void *bytes, size_t size, const char *prefer, char **text, size_t *length);

/* Canonicalises a report. The text is the canonical form, with no line end; or one line for each fault, or `not JSON`, each
 * line ended by one line feed. */
enum erd_outcome erd_canonical(const void *bytes, size_t size, const char *prefer, char **text, size_t *length);

/* Compares two reports. The text is `same`, or the line of the first difference. If the left report is refused, or else if
 * the right one is, the text is that of erd_check for that report, with `left: ` or `right: ` before each line. Each line is
 * ended by one line feed. */
enum erd_outcome erd_compare(const void *left, size_t left_size, const void *right, size_t right_size, const char *prefer,
                             char **text, size_t *length);

/* Checks a report, as erd_check does, and answers with data. The text is compact JSON in UTF-8, with no line end: an array
 * with an object for each fault, in the order of the lines of erd_check; the empty array if the report is accepted; or the
 * string "not JSON". An object looks like
 *
 *     {"name":"Name","place":["Election",0,"Contest",2],"reason":2}
 *
 * `place` has the names of members as strings and positions in arrays, counted from 0, as numbers. `reason` is the number of
 * the reason in docs/PROFILE.md. `name` is the name of the missing member; only reason 2 has it.
 * docs/API.md describes this text and those of the other calls that answer with data. */
enum erd_outcome erd_check_data(const void *bytes, size_t size, const char *prefer, char **text, size_t *length);

/* Compares two reports, as erd_compare does, and answers with data. The text is compact JSON in UTF-8, with no line end:
 * `null` if the two mean the same, or an object for their first difference, which looks like
 *
 *     {"how":"member","key":["local-level","","C1"],"member":"Name","part":"contest"}
 *
 * `part` is the first word of the difference line. `key` is null if the line has none. `how` is "only left",
 * "only right", "other class" or "member"; only the last has `member`. If the left report is refused, or else if the
 * right one is, the text is
 *
 *     {"faults":[..],"refused":"left"}
 *
 * in which `faults` is what erd_check_data answers for that report. */
enum erd_outcome erd_compare_data(const void *left, size_t left_size, const void *right, size_t right_size,
                                  const char *prefer, char **text, size_t *length);

/* Which entries of a list an answer is to have, and what it tells of the list. The list of the faults of a report can grow
 * with the square of its size. So a caller that does not trust a report asks for a piece of the list: of the entries behind
 * `first`, those that come first, until they are `most` or have `enough_bytes` bytes. The next piece begins at `first` + `told`.
 *
 * A call leaves `first`, `most` and `enough_bytes` as they are, and sets the others, which are 0 if the answer has no list. */
struct erd_piece {
    size_t first;        /* how many entries are left out at the front of the list */
    size_t most;         /* the most entries that the text may have */
    size_t enough_bytes; /* no entry begins once those before it in the text have that many bytes */
    size_t told;         /* set: how many entries the text has */
    size_t all;          /* set: how many entries the list has */
};

/* In each call that follows, `piece` may be null: the answer then has the whole list. */

/* Checks a report, as erd_check does, and answers with the lines of a piece of the list of faults. */
enum erd_outcome erd_check_piece(const void *bytes, size_t size, const char *prefer, struct erd_piece *piece,
                                 char **text, size_t *length);

/* Canonicalises a report, as erd_canonical does. If the report is refused, the text is that of erd_check_piece. */
enum erd_outcome erd_canonical_piece(const void *bytes, size_t size, const char *prefer, struct erd_piece *piece,
                                     char **text, size_t *length);

/* Compares two reports, as erd_compare does. If a report is refused, the text has the lines of a piece of its faults. */
enum erd_outcome erd_compare_piece(const void *left, size_t left_size, const void *right, size_t right_size,
                                   const char *prefer, struct erd_piece *piece, char **text, size_t *length);

/* Lists all differences of two reports. The text has a line for each difference in the piece, in rising order by part, key and
 * member; the first of the list is that of erd_compare. It is the line `same` if the two mean the same, and the outcome is then
 * ERD_GOOD. If a report is refused, the text is that of erd_compare_piece. Each line is ended by one line feed. */
enum erd_outcome erd_differences(const void *left, size_t left_size, const void *right, size_t right_size,
                                 const char *prefer, struct erd_piece *piece, char **text, size_t *length);

/* Checks a report, as erd_check_data does, and answers with a piece of the list of faults. */
enum erd_outcome erd_check_data_piece(const void *bytes, size_t size, const char *prefer, struct erd_piece *piece,
                                      char **text, size_t *length);

/* Canonicalises a report, as erd_canonical does. If the report is refused, the text is that of erd_check_data_piece. */
enum erd_outcome erd_canonical_data_piece(const void *bytes, size_t size, const char *prefer, struct erd_piece *piece,
                                          char **text, size_t *length);

/* Compares two reports, as erd_compare_data does. If a report is refused, `faults` is what erd_check_data_piece answers for
 * it. */
enum erd_outcome erd_compare_data_piece(const void *left, size_t left_size, const void *right, size_t right_size,
                                        const char *prefer, struct erd_piece *piece, char **text, size_t *length);

/* Lists all differences of two reports, as erd_differences does. The text is compact JSON in UTF-8, with no line end: an array
 * with an object for each difference in the piece. The objects are those of erd_compare_data. The array is empty if the two mean
 * the same. If a report is refused, the text is that of erd_compare_data_piece.
 *
 * An object for the member `ContestSelection` of a contest has a member `selections` too, with what differs inside. A name of a
 * selection has its keys in full, so this can grow with the square of their sizes. Where the text of its value, with those of the
 * objects before it in the piece, has more than `enough_bytes` bytes, that object and all behind it in the piece have no such
 * member. */
enum erd_outcome erd_differences_data(const void *left, size_t left_size, const void *right, size_t right_size,
                                      const char *prefer, struct erd_piece *piece, char **text, size_t *length);

/* Lists all differences of two reports, as erd_differences_data does, with what each report has there. An object looks like
 *
 *     {"how":"member",..,"values":{"left":"Mayor","right":"Mayor of Ames"}}
 *
 * in which `values` has the value of the member, or the record of the object if `how` is not "member". A report that has
 * nothing there is left out. The member `ContestSelection` and the content of ballots have no `values`.
 *
 * An object inside `selections` has such a member `values` too: what the two contests have at the name of the selection. Where the
 * texts of its values, with those of the objects before it in the same array, have more than `enough_bytes` bytes, `values` is null
 * in that object and in all behind it. */
enum erd_outcome erd_differences_values(const void *left, size_t left_size, const void *right, size_t right_size,
                                        const char *prefer, struct erd_piece *piece, char **text, size_t *length);

/* Lists what ballots print of the objects of a report, each object once: units, parties, persons, offices, headers, elections,
 * candidates and contests, in this order and by rising keys. The text is compact JSON in UTF-8, with no line end: an array with an
 * entry for each object in the piece. Entries look like
 *
 *     {"class":"ElectionResults.Candidate","key":["local-level","","K2"],"part":"candidate","words":{"BallotName":"Bo"}}
 *     {"class":"ElectionResults.CandidateContest","key":[..],"part":"contest","selections":[{"name":[..],"words":{..}}],"words":{..}}
 *
 * in which `words` has the members that ballots print, or may print, with keys in place of references: the table "What a voter sees"
 * of docs/PROFILE.md. A contest has all of its `selections`, by the names that erd_ballot tells, in rising order. So an entry can
 * grow with the square of the size of the report, and a piece ends behind the entry that reaches `enough_bytes`. If the report is
 * refused, the text is that of erd_check_data_piece. */
enum erd_outcome erd_words(const void *bytes, size_t size, const char *prefer, struct erd_piece *piece, char **text,
                           size_t *length);

/* What a list has: the pieces that the call of this name answers with, one behind the other. The numbers begin with 0. */
enum erd_listing {
    ERD_LIST_CHECK,              /* erd_check_piece */
    ERD_LIST_CANONICAL,          /* erd_canonical_piece */
    ERD_LIST_COMPARE,            /* erd_compare_piece */
    ERD_LIST_DIFFERENCES,        /* erd_differences */
    ERD_LIST_CHECK_DATA,         /* erd_check_data_piece */
    ERD_LIST_CANONICAL_DATA,     /* erd_canonical_data_piece */
    ERD_LIST_COMPARE_DATA,       /* erd_compare_data_piece */
    ERD_LIST_DIFFERENCES_DATA,   /* erd_differences_data */
    ERD_LIST_DIFFERENCES_VALUES, /* erd_differences_values */
    ERD_LIST_WORDS               /* erd_words */
};

/* A list that erd_open opens, erd_next hands out piece by piece, and erd_close frees. A call for a piece judges its reports each
 * time. A list keeps what was judged: up to `room` bytes of its text and one entry more. So it is judged once for each `room`
 * bytes. Where a name in a line has a line feed, these entries are judged as data too, which tells where the lines end; this takes
 * up to as much memory again for as long. */
struct erd_list;

/* Opens a list. It is judged when its first piece is taken. `left` is the report, or the left one of two; of one report `right` is
 * not read. If `room` is 0, it is 16 mebibytes. The bytes of the reports and of `prefer` must stay as they are until the
 * list is closed. The result is null if out of memory, and for a number that no listing has. */
struct erd_list *erd_open(enum erd_listing listing, const void *left, size_t left_size, const void *right, size_t right_size,
                          const char *prefer, size_t room);

/* Hands out the next piece of a list: of the entries that are kept, those that come first, until they are `most` or have
 * `enough_bytes` bytes; all of them if `piece` is null. It sets `first` to how many entries came before, and `told` and `all`
 * as the call for a piece does. The text is the one that this call answers with; but of differences as data, an object has its
 * member `selections` as it has it in a piece of `room` bytes. An answer that is no list is the only piece.
 *
 * Behind the last piece `*text` is null and the outcome stays. If out of memory, the same piece comes with the next call. */
enum erd_outcome erd_next(struct erd_list *list, struct erd_piece *piece, char **text, size_t *length);

/* Closes a list, and frees what it keeps, but no text that was handed out. Null is allowed, and does nothing. */
void erd_close(struct erd_list *list);

/* What the words of a command line are: with ERD_LINE_HELP and ERD_LINE_WRONG, the exit status of the program. */
enum erd_line {
    ERD_LINE_HELP = 0,      /* the program writes the text to standard output */
    ERD_LINE_REQUEST = 1,   /* the text is JSON, and says what the program is asked for */
    ERD_LINE_WRONG = 3,     /* the program writes the text to standard error */
    ERD_LINE_NO_MEMORY = 4  /* out of memory; there is no text */
};

/* Parses the words of a command line, as the program does. `words` points to `size` bytes: the program's name and then the other
 * words, each ended by a zero byte. It may be null if `size` is 0. `text` and `length` are those of the other calls.
 *
 * With ERD_LINE_REQUEST the text is compact JSON in UTF-8, with no line end. It looks like
 *
 *     {"command":"check","files":["county.json"],"json":false,"prefer":"fips"}
 *
 * `command` is "check", "canon", "compare", "differences", "ballots" or "prepare", or "filter" if there is no word behind the name.
 * `files` has the names of the files, of two the left one first. `prefer` is null if the words state no preference. With "prepare"
 * the object has three more members: whether a `list` or a `report` is asked for, and the `steps` as in the words, or null. Words
 * that are not UTF-8 are wrong. */
enum erd_line erd_command_line(const void *words, size_t size, char **text, size_t *length);

/* Prepares a report that is refused: does steps that fix what exports often have, each of which changes only what it tells.
 * `steps` has the names of steps and of their groups with commas between them, and is ended by a zero byte; null and "" ask for
 * none. The steps are done in an order of their own. docs/FIXES.md says what each of them does. With `others` other than 0, it is
 * told too what each step that is not asked for would do at its turn.
 *
 * With ERD_GOOD the text has two lines, with a line feed between them and none behind: what was done, as a JSON array, and then the
 * prepared report as compact JSON, the members of each object in the order of their names. The array has an object for each step
 * that changes or leaves something, which looks like
 *
 *     {"changes":[..],"count":1,"done":true,"left":[],"left_count":0,"more":false,"step":"nulls"}
 *
 * in which a change is as {"before":null,"place":["Notes"]}. Places are those of the report that was given. `before` is missing
 * where nothing stood, and `after` where nothing stands. `left` has the places that the step leaves, with the reason. At most 1,000
 * changes of a step, or about a megabyte of them, are told, and as many places that it leaves; `count` and `left_count` say how
 * many there are, and `more` whether some are not told. `done` is false for what a step would do.
 *
 * Numbers are read as serde_json holds them: 1.50 becomes 1.5, and a whole number beyond 64 bits loses digits. The numbers whose
 * texts change so are told first, as the changes of a step "numbers", which no caller chooses and which is missing if there are none:
 *
 *     {"after":"1.5","before":"1.50","column":12,"line":3}
 *
 * Lines end by a line feed, and columns count bytes, both from 1.
 *
 * The outcome is ERD_NOT_JSON if the bytes are not JSON, and ERD_WRONG if the report is too long or `steps` has a name that no
 * step and no group has; there is then no text. A prepared report may still be refused: check it. */
enum erd_outcome erd_prepare(const void *bytes, size_t size, const char *steps, int others, char **text, size_t *length);

/* Lists the ballots of a report. The text is compact JSON in UTF-8, with no line end: an array with an object for each BallotStyle,
 * in the rising order of their keys. It looks like
 *
 *     {"at":0,"key":["local-level","","B1"],"lines":12,"parties":[],"units":[["fips","","20"]]}
 *
 * `at` is the position of the style in the report, counted from 0, `lines` says how many headers and contests the ballot has, and
 * `parties` and `units` have the keys of those whose voters get it. If the report is refused, the text is that of
 * erd_check_data. */
enum erd_outcome erd_ballots(const void *bytes, size_t size, const char *prefer, char **text, size_t *length);

/* Tells one ballot of a report: that of the style at this position, as erd_ballots tells it. The text is compact JSON in UTF-8, with
 * no line end: `null` if there is no such style, or an object with `key`, `parties` and `units`, in `election` the key of the
 * Election that holds the style, or null if that has none, and in `lines` the headers and contests in the order of the ballot. A
 * line looks like
 *
 *     {"depth":1,"listed":true,"selections":[..],"what":["contest",["local-level","","C1"]]}
 *
 * `depth` says how many headers stand around it, `what` is the word "contest" or "header" with the key, and `selections` has the
 * names of the selections: as the ballot lists them, or in rising order, with `listed` false, if it lists none. If the report is
 * refused, the text is that of erd_check_data. */
enum erd_outcome erd_ballot(const void *bytes, size_t size, const char *prefer, size_t position, char **text,
                            size_t *length);

/* Tells which ballots are not the same in two reports. The text is compact JSON in UTF-8, with no line end: an array with an object
 * for each BallotStyle whose ballots are not the same, or which only one report has. It looks like
 *
 *     {"below":"  changed units\n","key":["local-level","","B1"],"left":0,"right":0}
 *
 * `left` and `right` are the positions of the style, or null. `below` has the lines that say what differs on its ballots, each ended by
 * one line feed: none if only one report has the style. The outcome is ERD_GOOD if the array is empty, and ERD_BAD if it is
 * not. If a report is refused, the text is that of erd_compare_data. Ballots are the same if their texts of erd_ballot are, whichever
 * elections hold them, and they print the same words of contests, headers, selections, candidates, persons, parties and units:
 * erd_differences tells what differs. */
enum erd_outcome erd_ballot_differences(const void *left, size_t left_size, const void *right, size_t right_size,
                                        const char *prefer, char **text, size_t *length);

/* Tells two ballots beside each other: those of the styles at these positions, as erd_ballot_differences tells them. The text is
 * compact JSON in UTF-8, with no line end: `null` if a report has no such style, or an object with the lines of both ballots, `left`
 * and `right`, as erd_ballot tells them, and with `rows`. A row looks like
 *
 *     {"how":"both","left":2,"right":3,"selections":[{"how":"removed","name":[..]}]}
 *
 * `left` and `right` are positions of lines, or null. `how` is "both"; "removed" or "added" for a line of one ballot; or "moved
 * away" and "moved here" for a line that has another place: the first row stands where the left ballot has it, the second one where
 * the right one has it. Each line stands in one row otherwise. A line that a ballot has several times is told apart by the number of
 * the occurrence. `selections` has the rows of its selections, by their names, in the row of a contest of both that has not moved away;
 * ballots that list none tell no moves. The outcome is ERD_GOOD; if a report is refused, it and the text are those of
 * erd_compare_data. To see the first ballots of two reports:
 *
 *     erd_ballots_beside(left, left_size, right, right_size, NULL, 0, 0, &text, NULL); */
enum erd_outcome erd_ballots_beside(const void *left, size_t left_size, const void *right, size_t right_size,
                                    const char *prefer, size_t left_position, size_t right_position, char **text,
                                    size_t *length);

/* Frees a text that one of these calls returned. Null is allowed, and does nothing. */
void erd_free(char *text);

/* Returns the version of the library, ERD_VERSION. It is not freed. */
const char *erd_version(void);

#ifdef __cplusplus
}
#endif

#endif
