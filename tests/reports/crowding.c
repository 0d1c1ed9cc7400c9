/* Finds texts that an index would put into one place if it hashed them under two words of salt, or under none: what an attacker can do
   who knows the salt of an index before he has made its texts. Each text is tried, so COUNT texts for one of PLACES places take
   COUNT * PLACES trials, and 128 times as many if they are to have one tag too.

   crowding COUNT PLACES IS_TAGGED DIGITS BEGINNING BETWEEN ENDING PIECE ..

   A text is what is written before it (BEGINNING, with the words of the salt), DIGITS pieces with BETWEEN between them, and what is
   written after it (ENDING). These and the pieces are in hexadecimal digits. Prints one line for each text that is found: the numbers
   of its pieces, a digit each. The hasher is SipHash-1-3 with the key 0; its number goes through the hasher of the index, of whose
   result the low bits are the place, and the high byte is the tag. */
#include <stdint.h>
#include <stdio.h>
#include <stdlib.h>
#include <string.h>

enum { MOST_DIGITS = 64, MOST_PIECES = 10 };

typedef struct {
    uint64_t v0, v1, v2, v3, tail, length;
} Sip;

typedef struct {
    size_t length;
    uint8_t *bytes;
} Text;

static struct {
    uint64_t wanted, places;
    int is_tagged, digits, count;
    Text between, ending, pieces[MOST_PIECES];
} given;

static char found[MOST_DIGITS + 1];

static uint64_t turned(uint64_t word, int bits) {
    return word << bits | word >> (64 - bits);
}

static void turn(Sip *s) {
    s->v0 += s->v1;
    s->v2 += s->v3;
    s->v1 = turned(s->v1, 13) ^ s->v0;
    s->v3 = turned(s->v3, 16) ^ s->v2;
    s->v0 = turned(s->v0, 32);
    s->v2 += s->v1;
    s->v0 += s->v3;
    s->v1 = turned(s->v1, 17) ^ s->v2;
    s->v3 = turned(s->v3, 21) ^ s->v0;
    s->v2 = turned(s->v2, 32);
}

static void write_word(Sip *s, uint64_t word) {
    s->v3 ^= word;
    turn(s);
    s->v0 ^= word;
}

static void write_text(Sip *s, const Text *text) {
    for (size_t at = 0; at < text->length; at++) {
        s->tail |= (uint64_t)text->bytes[at] << 8 * (s->length % 8);
        s->length++;
        if (s->length % 8 == 0) {
            write_word(s, s->tail);
            s->tail = 0;
        }
    }
}

static uint64_t finished(Sip s) {
    write_word(&s, s.length << 56 | s.tail);
    s.v2 ^= 0xff;
    turn(&s);
    turn(&s);
    turn(&s);
    return s.v0 ^ s.v1 ^ s.v2 ^ s.v3;
}

static uint32_t hash_of(uint64_t number) {
    unsigned __int128 product = (unsigned __int128)(number ^ 0x243f6a8885a308d3) * (0x9e3779b97f4a7c15 ^ 16);
    uint64_t folded = (uint64_t)product ^ (uint64_t)(product >> 64);
    return (uint32_t)(folded ^ folded >> 32);
}

/* Tries all texts that go on from here. */
static void search(Sip s, int at) {
    if (at == given.digits) {
        write_text(&s, &given.ending);
        uint32_t hash = hash_of(finished(s));
        if (hash % given.places == 0 && (!given.is_tagged || hash >> 24 < 2)) {
            puts(found);
            given.wanted--;
        }
        return;
    }
    if (at > 0)
        write_text(&s, &given.between);
    for (int piece = 0; piece < given.count && given.wanted > 0; piece++) {
        Sip next = s;
        write_text(&next, &given.pieces[piece]);
        found[at] = '0' + piece;
        search(next, at + 1);
    }
}

static Text text_of(const char *digits) {
    Text text = {strlen(digits) / 2, malloc(strlen(digits) / 2 + 1)};
    if (text.bytes == NULL)
        exit(4);
    for (size_t at = 0; at < text.length; at++) {
        char byte[3] = {digits[2 * at], digits[2 * at + 1], 0};
        text.bytes[at] = strtoul(byte, NULL, 16);
    }
    return text;
}

int main(int count, char **words) {
    if (count < 9 || count > 8 + MOST_PIECES || atoi(words[4]) > MOST_DIGITS)
        return 2;
    given.wanted = strtoull(words[1], NULL, 10);
    given.places = strtoull(words[2], NULL, 10);
    given.is_tagged = atoi(words[3]);
    given.digits = atoi(words[4]);
    given.between = text_of(words[6]);
    given.ending = text_of(words[7]);
    given.count = count - 8;
    for (int piece = 0; piece < given.count; piece++)
        given.pieces[piece] = text_of(words[8 + piece]);
    Sip start = {0x736f6d6570736575, 0x646f72616e646f6d, 0x6c7967656e657261, 0x7465646279746573, 0, 0};
    Text beginning = text_of(words[5]);
    write_text(&start, &beginning);
    search(start, 0);
    return given.wanted > 0;
}
