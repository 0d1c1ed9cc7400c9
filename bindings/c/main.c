/* The program on a machine for which the kit compiles none: what its proved code asks of the system.
 *
 * The proved code is all of the program, from its words to its exit status (`run_program`). The kit compiles it for x86-64
 * Linux, and packaging/portable/program.sh compiles the same module of LLVM for another machine. There it calls what stands
 * here, in place of the kit's own C files: for the words of the command line, and on Windows for files and streams too. */
#ifdef _WIN32
#define _WIN32_WINNT 0x0600
#include <windows.h>
#include <fcntl.h>
#include <io.h>
#else
#include <signal.h>
#endif
#include <errno.h>
#include <stdint.h>
#include <stdlib.h>
#include <string.h>

/* The proved code. It returns the exit status. */
int32_t erd_start(void);

static char **words;
static size_t number_of_words;

/* Puts a word at the start of the room. Returns its length; or -1 if there is no such word, or -2 if it does not fit, and then
 * the room is full. */
int64_t rattle_arg(uint64_t at, char *room, uint64_t size) {
    if (at >= number_of_words || words[at] == NULL)
        return -1;
    size_t length = strlen(words[at]);
    memcpy(room, words[at], length < size ? length : size);
    return length <= size ? (int64_t)length : -2;
}

/* Why the last call failed. The proved code tells two of these numbers from the others, and they are the same on each system:
 * 4 for a call that was interrupted, and 12 for no memory. */
int32_t rattle_errno(void) {
    return errno;
}

void rattle_set_errno(int32_t number) {
    errno = number;
}

#ifdef _WIN32

enum { LONGEST_NAME = 4096, MOST_AT_ONCE = 1 << 30, MOST_ON_SCREEN = 1 << 14 };

/* A word with a star in it is no pattern: it stays as it is. */
int _dowildcard = 0;

/* Opens a file for reading, and a folder too, whose reading then fails, as on Linux. */
int32_t system_open(const char *name, int32_t flags, ...) {
    wchar_t wide[LONGEST_NAME];
    (void)flags;
    HANDLE file = INVALID_HANDLE_VALUE;
    if (MultiByteToWideChar(CP_UTF8, MB_ERR_INVALID_CHARS, name, -1, wide, LONGEST_NAME) != 0)
        file = CreateFileW(wide, GENERIC_READ, FILE_SHARE_READ | FILE_SHARE_WRITE | FILE_SHARE_DELETE, NULL, OPEN_EXISTING,
                           FILE_FLAG_BACKUP_SEMANTICS, NULL);
    if (file == INVALID_HANDLE_VALUE) {
        errno = GetLastError() == ERROR_NOT_ENOUGH_MEMORY || GetLastError() == ERROR_OUTOFMEMORY ? ENOMEM : ENOENT;
        return -1;
    }
    return _open_osfhandle((intptr_t)file, _O_RDONLY | _O_BINARY);
}

int64_t system_read(int32_t file, void *room, uint64_t size) {
    return _read(file, room, size < MOST_AT_ONCE ? (unsigned)size : MOST_AT_ONCE);
}

/* A console of an older Windows takes no long text at once. */
int64_t system_write(int32_t file, const void *bytes, uint64_t size) {
    uint64_t most = _isatty(file) ? MOST_ON_SCREEN : MOST_AT_ONCE;
    return _write(file, bytes, (unsigned)(size < most ? size : most));
}

int32_t system_close(int32_t file) {
    return _close(file);
}

/* A word in UTF-8. Half a surrogate pair has no form there: the word is then a byte that the proved code refuses, as it refuses
 * each word that is no text. */
static char *word_of(const wchar_t *wide) {
    int size = WideCharToMultiByte(CP_UTF8, WC_ERR_INVALID_CHARS, wide, -1, NULL, 0, NULL, NULL);
    char *word = calloc(size > 0 ? (size_t)size : 2, 1);
    if (word == NULL)
        return NULL;
    if (size > 0)
        WideCharToMultiByte(CP_UTF8, WC_ERR_INVALID_CHARS, wide, -1, word, size, NULL, NULL);
    else
        word[0] = (char)0xff;
    return word;
}

/* All words, or null if there is no memory. The first one is the name of the program without its folder and its `.exe`. */
static char **words_of(int count, wchar_t **wide) {
    char **all = calloc((size_t)count + 1, sizeof *all);
    for (int i = 0; all != NULL && i < count; i++)
        if ((all[i] = i == 0 ? _strdup("erd") : word_of(wide[i])) == NULL)
            return NULL;
    return all;
}

int wmain(int count, wchar_t **wide) {
    static const char no_memory[] = "no memory\n";
    UINT code_page = GetConsoleOutputCP();
    for (int stream = 0; stream <= 2; stream++)
        _setmode(stream, _O_BINARY);
    words = words_of(count, wide);
    if (words == NULL) {
        _write(2, no_memory, sizeof no_memory - 1);
        return 4;
    }
    number_of_words = (size_t)count;
    SetConsoleOutputCP(CP_UTF8);
    int32_t status = erd_start();
    if (code_page != 0)
        SetConsoleOutputCP(code_page);
    return status;
}

#else

int main(int count, char **given) {
    words = given;
    number_of_words = count > 0 ? (size_t)count : 0;
    /* A pipe that nobody reads is a write that fails. */
    signal(SIGPIPE, SIG_IGN);
    return erd_start();
}

#endif
