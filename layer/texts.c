/* texts.c: texts that grow, and files. */
#include "layer.h"
#include <errno.h>
#include <fcntl.h>
#include <stdarg.h>
#include <sys/stat.h>
#include <unistd.h>

/* The largest file that is read: a certificate's limit (docs/FORMATS.md). */
#define FILE_MOST 16777216u

static bool text_has_room(struct text *text, size_t more) {
    size_t room = text->room ? text->room : 256;
    char *bytes;
    while (room - text->n <= more) room *= 2;
    if (room == text->room) return true;
    bytes = realloc(text->bytes, room);
    if (!bytes) return false;
    text->bytes = bytes;
    text->room = room;
    return true;
}

void text_add_bytes(struct text *text, const char *bytes, size_t n) {
    if (text->is_short || !text_has_room(text, n)) {
        text->is_short = true;
        return;
    }
    memcpy(text->bytes + text->n, bytes, n);
    text->n += n;
    text->bytes[text->n] = 0;
}

void text_add(struct text *text, const char *format, ...) {
    va_list words, again;
    int n;
    va_start(words, format);
    va_copy(again, words);
    n = vsnprintf(NULL, 0, format, words);
    if (n < 0 || text->is_short || !text_has_room(text, (size_t)n)) text->is_short = true;
    else text->n += (size_t)vsnprintf(text->bytes + text->n, (size_t)n + 1, format, again);
    va_end(again);
    va_end(words);
}

void text_free(struct text *text) {
    free(text->bytes);
    *text = (struct text){0};
}

const char *words_of(const struct text *text) {
    return text->bytes ? text->bytes : "";
}

/* Puts what a file has behind the text. */
bool text_read_file(struct text *text, int file) {
    struct stat state;
    size_t left, at = 0;
    ssize_t got = 1;
    if (fstat(file, &state) || state.st_size < 0 || state.st_size > (off_t)FILE_MOST) return false;
    left = (size_t)state.st_size;
    if (!text_has_room(text, left)) return false;
    while (left && (got > 0 || (got < 0 && errno == EINTR))) {
        got = pread(file, text->bytes + text->n, left, (off_t)at);
        if (got > 0) text->n += (size_t)got, at += (size_t)got, left -= (size_t)got;
    }
    text->bytes[text->n] = 0;
    return !left;
}

bool text_read(struct text *text, const char *path) {
    int file = open(path, O_RDONLY | O_CLOEXEC);
    bool is_read = file >= 0 && text_read_file(text, file);
    if (file >= 0) close(file);
    return is_read;
}

static bool write_all(int file, const char *bytes, size_t n) {
    while (n) {
        ssize_t put = write(file, bytes, n);
        if (put < 0 && errno != EINTR) return false;
        if (put > 0) bytes += put, n -= (size_t)put;
    }
    return true;
}

bool text_write(const char *bytes, size_t n, const char *path) {
    char part[4096];
    int file;
    bool is_whole;
    if (snprintf(part, sizeof part, "%s.XXXXXX", path) >= (int)sizeof part) return false;
    file = mkstemp(part);
    if (file < 0) return false;
    is_whole = write_all(file, bytes, n) && !fchmod(file, 0644);
    if (close(file)) is_whole = false;
    if (is_whole && !rename(part, path)) return true;
    unlink(part);
    return false;
}

/* The sum FNV-1a of 64 bits. */
uint64_t text_sum(uint64_t sum, const char *bytes, size_t n) {
    size_t at;
    if (!sum) sum = 14695981039346656037u;
    for (at = 0; at < n; at++) sum = (sum ^ (unsigned char)bytes[at]) * 1099511628211u;
    return sum;
}
