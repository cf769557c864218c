#define _GNU_SOURCE
#include "gateway.h"

#include "files.h"

#include <errno.h>
#include <fcntl.h>
#include <stdarg.h>
#include <stdbool.h>
#include <sys/file.h>
#include <time.h>
#include <unistd.h>

#define LOG_SHOWN (512 << 10) /* the last bytes of each file of lines that are shown */
#define LOG_KEPT (4 << 20)    /* one of this size becomes the old one: whoever makes lines does not fill the disk */
#define TIME 20               /* the length of a line's time */
#define TICK_MS 100           /* above a tick of the clock by which a file's changes are known */

/* ---- files */

static int open_lines(int folder, const char *name) {
    return openat(folder, name, O_CREAT | O_RDWR | O_APPEND | O_CLOEXEC, 0644);
}

static void close_all(struct gateway *g) {
    close(g->log.file);
    close(g->refused.file);
    close(g->folder); /* and with it goes the lock */
}

/* Opens what is at the path and locks it against another gateway. */
static int open_all(struct gateway *g) {
    struct gateway fresh = {.path = g->path, .measure = g->measure, .settings = g->settings, .lines = g->lines, .log = {"log", "log.old", -1}, .refused = {"refused", "refused.old", -1}};
    fresh.folder = open(g->path, O_RDONLY | O_DIRECTORY | O_CLOEXEC);
    if (fresh.folder < 0) return -1;
    if (!flock(fresh.folder, LOCK_EX | LOCK_NB)) {
        fresh.log.file = open_lines(fresh.folder, "log");
        fresh.refused.file = open_lines(fresh.folder, "refused");
    }
    if (fresh.log.file >= 0 && fresh.refused.file >= 0) {
        *g = fresh;
        return 0;
    }
    int why = errno;
    close_all(&fresh);
    errno = why;
    return -1;
}

int gateway_open(struct gateway *g, const char *folder) {
    *g = (struct gateway){.path = folder};
    if (mkdir(folder, 0755) && errno != EEXIST) return -1;
    return open_all(g);
}

void gateway_close(struct gateway *g) {
    close_all(g);
    if (g->settings.content) content_leave(g->settings.content);
    if (g->lines.content) content_leave(g->lines.content);
}

/* The folder at the path is the one at hand. Another that is there now, as after a disk was away, is taken in its place; none is made. */
static bool is_at_home(struct gateway *g) {
    struct stat there, here;
    if (stat(g->path, &there)) return false;
    if (!fstat(g->folder, &here) && here.st_dev == there.st_dev && here.st_ino == there.st_ino) return true;
    struct gateway gone = *g;
    if (open_all(g)) return false;
    close_all(&gone);
    return true;
}

/* Where that fails, the file at hand goes on. */
static void turn_lines(struct gateway *g, struct lines *l) {
    struct stat about;
    if (fstat(l->file, &about) || about.st_size < LOG_KEPT) return;
    if (renameat(g->folder, l->name, g->folder, l->old) && errno != ENOENT) return;
    int fresh = open_lines(g->folder, l->name);
    if (fresh < 0) return;
    close(l->file);
    l->file = fresh;
}

static int write_all(int file, const uint8_t *from, size_t count) {
    while (count) {
        ssize_t n = write(file, from, count);
        if (n < 0 && errno == EINTR) continue;
        if (n <= 0) return -1;
        from += n;
        count -= (size_t)n;
    }
    return 0;
}

/* Written beside the old file, forced to the disk, then put in its place at once: a crash leaves the old settings or the new ones. */
static int keep_settings(struct gateway *g, const uint8_t *from, size_t count) {
    int file = openat(g->folder, "settings.new", O_CREAT | O_WRONLY | O_TRUNC | O_CLOEXEC, 0644);
    if (file < 0) return -1;
    int failed = write_all(file, from, count) || fsync(file);
    failed = close(file) || failed;
    if (failed || renameat(g->folder, "settings.new", g->folder, "settings")) {
        int why = errno;
        unlinkat(g->folder, "settings.new", 0); /* on a full disk, its room is wanted */
        errno = why;
        return -1;
    }
    return fsync(g->folder);
}

/* The last `most` bytes of a file, from the beginning of a line where some are left out. 0, or -1 with errno. */
static int read_end(int file, size_t most, struct bytes *to) {
    struct stat about;
    if (fstat(file, &about)) return -1;
    off_t from = about.st_size > (off_t)most ? about.st_size - (off_t)most : 0;
    size_t due = (size_t)(about.st_size - from);
    uint8_t *room = bytes_room(to, due);
    size_t count = 0;
    while (count < due) {
        ssize_t n = pread(file, room + count, due - count, from + (off_t)count);
        if (n < 0 && errno == EINTR) continue;
        if (n < 0) return -1;
        if (n == 0) break;
        count += (size_t)n;
    }
    uint8_t *line = from ? memchr(room, '\n', count) : NULL;
    if (line) {
        count -= (size_t)(line + 1 - room);
        memmove(room, line + 1, count);
    }
    to->count += count;
    return 0;
}

__attribute__((format(printf, 3, 0))) static void add_line(struct gateway *g, struct lines *l, const char *form, va_list rest) {
    char line[512];
    time_t t = time(NULL);
    struct tm utc;
    size_t n = strftime(line, sizeof line, "%Y-%m-%dT%H:%M:%SZ", gmtime_r(&t, &utc));
    line[n++] = ' ';
    int k = vsnprintf(line + n, sizeof line - n - 1, form, rest);
    if (k < 0) return;
    n += (size_t)k < sizeof line - n - 1 ? (size_t)k : sizeof line - n - 2;
    line[n++] = '\n';
    turn_lines(g, l);
    if (write_all(l->file, (const uint8_t *)line, n)) say("%s: %s", l->name, strerror(errno));
}

__attribute__((format(printf, 3, 4))) static void note(struct gateway *g, struct lines *l, const char *form, ...) {
    va_list rest;
    va_start(rest, form);
    add_line(g, l, form, rest);
    va_end(rest);
}

void gateway_note(struct gateway *g, const char *form, ...) {
    if (!measure_allows(&g->measure)) return;
    if (g->measure.left_out) note(g, &g->refused, "%lu lines left out", g->measure.left_out);
    g->measure.left_out = 0;
    va_list rest;
    va_start(rest, form);
    add_line(g, &g->refused, form, rest);
    va_end(rest);
}

/* ---- requests */

static void tell(struct answer *a, int status, const char *text) {
    struct bytes bytes = {0};
    bytes_add(&bytes, text, strlen(text));
    a->status = status;
    a->content = content_of(bytes);
}

/* One that was changed in this very tick of the clock may be changed in it again, and look the same. */
static bool is_settled(const struct stat *file) {
    struct timespec t;
    clock_gettime(CLOCK_REALTIME, &t);
    return (t.tv_sec - file->st_ctim.tv_sec) * 1000 + (t.tv_nsec - file->st_ctim.tv_nsec) / 1000000 > TICK_MS;
}

static bool is_made_of(const struct made *m, const struct stat is[2]) {
    return m->content && m->settled && is_same_file(is, m->of) && is_same_file(is + 1, m->of + 1);
}

/* The bytes, which are taken over, are of files that were so: one copy of them for all who ask. */
static void remake(struct made *m, struct bytes bytes, const struct stat of[2]) {
    struct content *before = m->content;
    memcpy(m->of, of, sizeof m->of);
    if (before && before->is.count == bytes.count && !memcmp(before->is.at, bytes.at, bytes.count)) return bytes_free(&bytes);
    if (before) {
        content_set_latest(before, false);
        content_leave(before);
    }
    m->content = content_of(bytes);
    content_set_latest(m->content, true);
}

static void put_settings(struct gateway *g, const struct asked *q, struct answer *a) {
    if (q->fields & ASKED_PART) return tell(a, 400, "a part is not taken for a whole\n");
    if (keep_settings(g, q->content, q->count)) {
        note(g, &g->log, "settings of %zu bytes not kept: %s", q->count, strerror(errno));
        return tell(a, 500, "the settings could not be kept\n");
    }
    note(g, &g->log, "settings of %zu bytes kept", q->count);
    tell(a, 200, "settings kept\n");
}

static void get_settings(struct gateway *g, struct answer *a) {
    int file = openat(g->folder, "settings", O_RDONLY | O_CLOEXEC);
    if (file < 0 && errno == ENOENT) return tell(a, 404, "no settings yet\n");
    struct stat is[2] = {0};
    struct bytes bytes = {0};
    struct made *m = &g->settings;
    bool readable = file >= 0 && !fstat(file, is), made = readable && is_made_of(m, is), settled = readable && is_settled(is);
    readable = readable && (made || !read_end(file, SIZE_MAX >> 1, &bytes));
    if (file >= 0) close(file);
    if (!readable) {
        bytes_free(&bytes);
        return tell(a, 500, "the settings could not be read\n");
    }
    if (!made) remake(m, bytes, is);
    m->settled = made || settled;
    *a = (struct answer){200, NULL, content_use(m->content)};
}

/* Takes the first line of the bytes away, to the end of another's. */
static void move_line(struct bytes *from, struct bytes *to) {
    uint8_t *end = memchr(from->at, '\n', from->count);
    size_t n = end ? (size_t)(end + 1 - from->at) : from->count;
    bytes_add(to, from->at, n);
    from->at += n;
    from->count -= n;
}

/* Both files of lines as one, by their times. */
static void merge(struct bytes a, struct bytes b, struct bytes *to) {
    while (a.count || b.count) {
        bool first = b.count < TIME || (a.count >= TIME && memcmp(a.at, b.at, TIME) <= 0);
        move_line(a.count && (first || !b.count) ? &a : &b, to);
    }
}

static void get_log(struct gateway *g, struct answer *a) {
    struct bytes uploads = {0}, refused = {0}, all = {0};
    struct stat is[2];
    struct made *m = &g->lines;
    bool readable = !fstat(g->log.file, is) && !fstat(g->refused.file, is + 1), made = readable && is_made_of(m, is);
    readable = readable && (made || (!read_end(g->log.file, LOG_SHOWN, &uploads) && !read_end(g->refused.file, LOG_SHOWN, &refused)));
    if (readable && !made) {
        bytes_room(&all, uploads.count + refused.count);
        merge(uploads, refused, &all);
        remake(m, all, is);
        m->settled = true; /* lines are added by us alone, and make the file larger */
    }
    bytes_free(&uploads);
    bytes_free(&refused);
    if (!readable) return tell(a, 500, "the log could not be read\n");
    *a = (struct answer){200, NULL, content_use(m->content)};
}

/* Whether the condition that the request makes holds. No settings have a tag or a date that a client could know of. */
static bool is_wanted(struct gateway *g, const struct asked *q) {
    bool there = !faccessat(g->folder, "settings", F_OK, 0);
    if (q->fields & (ASKED_IF_TAG | ASKED_IF_OLD)) return false;
    return !(q->fields & ASKED_IF_ANY && !there) && !(q->fields & ASKED_IF_NONE && there);
}

void gateway_answer(struct gateway *g, const struct asked *q, struct answer *a) {
    bool get = !strcmp(q->method, "GET"), put = !strcmp(q->method, "PUT");
    bool log = !strcmp(q->path, "/log"), settings = !strcmp(q->path, "/settings");
    if (!log && !settings) return tell(a, 404, "no such thing here\n");
    if (!get && !(put && settings)) {
        a->allow = log ? "GET" : "GET, PUT";
        return tell(a, 405, "not with this method\n");
    }
    if (!is_at_home(g)) return tell(a, 500, "the folder is not there\n");
    if (log) return get_log(g, a);
    if (!is_wanted(g, q)) return tell(a, get && q->fields == ASKED_IF_NONE ? 304 : 412, "the condition does not hold\n");
    if (put) return put_settings(g, q, a);
    get_settings(g, a);
}
