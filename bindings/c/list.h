/* What a list keeps, and how pieces are cut out of it. erd.c has the calls. */
/* What is kept of a list: a text in which the entries from `next` to `kept` stand from `at` to `end`. What is in front of `front`
 * and behind `end` is in each piece. */
struct erd_list {
    struct question it;
    size_t room, front, at, end, length, next, kept, all;
    char *text;
    enum erd_outcome outcome;
    bool is_data, is_marked, is_over;
};

/* In a line, a name may have a line feed. Where one has, it is kept as this byte, which no text in UTF-8 has: so each line feed that is
 * kept ends an entry. A piece has it as it was. */
enum { FEED_IN_NAME = 0xff };

/* Where the text of entries begins: where a side is refused, the array of its faults is a member of an object. */
static size_t front_of(const char *data) {
    return data[0] == '[' ? 1 : strlen("{\"faults\":[");
}

/* Finds the entries in the text that was judged. */
static void find_entries(struct erd_list *list) {
    bool has_array = list->is_data && list->kept > list->next;
    list->front = has_array ? front_of(list->text) : 0;
    list->at = list->front;
    list->end = list->length;
    while (has_array && list->text[--list->end] != ']')
        continue;
}

/* The length of the object that begins here. Counts the line feeds in its texts. */
static size_t object_length(const char *entry, size_t *feeds) {
    size_t i = 0, depth = 0;
    bool is_text = false;
    do {
        is_text ^= entry[i] == '"';
        depth += !is_text && (entry[i] == '{' || entry[i] == '[');
        depth -= !is_text && (entry[i] == '}' || entry[i] == ']');
        *feeds += is_text && entry[i] == '\\' && entry[i + 1] == 'n';
        i += is_text && entry[i] == '\\' ? 2 : 1;
    } while (depth > 0);
    return i;
}

/* The length of the line that begins here, with its line feed: of all the rest where there is none. */
static size_t line_length(const char *line, size_t rest) {
    const char *feed = memchr(line, '\n', rest);
    return feed == NULL ? rest : (size_t)(feed - line) + 1;
}

/* The length of the next entry behind these bytes of the text that is kept. */
static size_t entry_length(const struct erd_list *list, size_t at) {
    size_t feeds = 0;
    return list->is_data ? object_length(list->text + at, &feeds) : line_length(list->text + at, list->length - at);
}

/* Whether each line feed ends a line. */
static bool are_apart(const struct erd_list *list) {
    size_t lines = 0;
    for (size_t at = 0; at < list->length; lines++)
        at += line_length(list->text + at, list->length - at);
    return lines == list->kept - list->next;
}

enum { MOST_AT_ONCE = 64 * ROOM_FOR_LIST };

/* Room for what is kept, so that a judging need hardly ever be done again: with the commas between entries of 16 bytes or more, and
 * with the last entry, which is seldom longer than the reports. */
static size_t room_at_once(const struct erd_list *list) {
    size_t of_reports = list->it.left.size + list->it.right.size;
    size_t enough = list->room < MOST_AT_ONCE ? list->room : MOST_AT_ONCE;
    size_t of_list = enough + enough / 16 + of_reports + ROOM_FOR_LINES, of_form = 2 * of_reports + ROOM_FOR_LINES;
    bool is_form = list->it.call == CANONICAL_PIECE || list->it.call == CANONICAL_DATA_PIECE;
    return is_form && of_form > of_list ? of_form : of_list;
}

/* Marks the line feeds in the names of the first lines that are kept: an object of data has as many as its line. Keeps these lines. */
static void mark_feeds(struct erd_list *list, const char *entry, size_t told) {
    size_t at = 0;
    for (list->kept = list->next; told > 0 && at < list->length; told--, list->kept++) {
        size_t feeds = 0;
        entry += object_length(entry, &feeds) + 1;
        for (; feeds > 0 && at < list->length; feeds--) {
            at += line_length(list->text + at, list->length - at);
            list->text[at - 1] = (char)FEED_IN_NAME;
        }
        at += line_length(list->text + at, list->length - at);
    }
    list->length = at;
    list->is_marked = true;
}

/* Judges as data the entries whose lines are kept, and tells by it where they end. Of entries that are too long as data, none is kept. */
static enum erd_outcome tell_apart(struct erd_list *list) {
    struct question data = list->it;
    struct erd_piece wanted = {list->next, list->kept - list->next, list->room, 0, 0};
    char *text;
    size_t length;
    data.call = (enum call)(data.call + CHECK_DATA_PIECE - CHECK_PIECE);
    enum erd_outcome outcome = call_for_piece(&data, room_at_once(list), &wanted, &text, &length);
    if (text != NULL)
        mark_feeds(list, text + front_of(text), wanted.told);
    free(text);
    return outcome;
}

/* Judges, and keeps the entries that come next: those that have room. */
static enum erd_outcome keep_entries(struct erd_list *list) {
    struct erd_piece wanted = {list->next, SIZE_MAX, list->room, 0, 0};
    free(list->text);
    list->is_marked = false;
    list->outcome = call_for_piece(&list->it, room_at_once(list), &wanted, &list->text, &list->length);
    list->kept = list->next + wanted.told;
    list->all = wanted.all;
    if (!list->is_data && wanted.told > 0 && !are_apart(list))
        list->outcome = tell_apart(list);
    if (list->outcome <= ERD_NOT_JSON)
        find_entries(list);
    else
        list->kept = list->next;
    return list->outcome;
}

/* How many of the entries that are kept are in the piece. Sets where these end. */
static size_t told_in(const struct erd_list *list, const struct erd_piece *piece, size_t *stop) {
    size_t told = 0, bytes = 0, kept = list->kept - list->next;
    *stop = list->end;
    if (kept == 0)
        return 0;
    for (*stop = list->at; told < kept && told < piece->most && bytes < piece->enough_bytes; told++) {
        *stop += list->is_data && told > 0;
        size_t size = entry_length(list, *stop);
        *stop += size;
        bytes += size;
    }
    return told;
}

/* The text of a piece whose entries end here, with a zero byte behind it, or null if out of memory. */
static char *text_up_to(const struct erd_list *list, size_t stop, size_t *length) {
    size_t entries = stop - list->at, behind = list->length - list->end;
    *length = list->front + entries + behind;
    char *text = malloc(*length + 1);
    if (text == NULL)
        return NULL;
    memcpy(text, list->text, list->front);
    memcpy(text + list->front, list->text + list->at, entries);
    memcpy(text + list->front + entries, list->text + list->end, behind);
    text[*length] = 0;
    for (char *feed = text; list->is_marked && (feed = memchr(feed, FEED_IN_NAME, (size_t)(text + *length - feed))) != NULL;)
        *feed = '\n';
    return text;
}
