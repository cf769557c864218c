/* The gateway itself: the dryer's settings file and its log. It sees whole requests only. */
#ifndef GATEWAY_H
#define GATEWAY_H

#include "content.h"
#include "say.h"

#include <sys/stat.h>

/* A file of lines, with the time before each; `old` is what went before it. */
struct lines {
    const char *name, *old;
    int file;
};

/* The last answer that was made of files, for whoever asks while they are the same. */
struct made {
    struct content *content; /* null where there is none */
    struct stat of[2];
    bool settled; /* the files have not changed since without looking otherwise */
};

/* A folder with `settings`, the settings in force; `log`, a line for each upload; and `refused`, a line for what was refused, closed or lost. The two
   are apart, so that no refusals ever wash an upload's line away. */
struct gateway {
    const char *path;
    int folder;
    struct lines log, refused;
    struct measure measure; /* of the lines in `refused` */
    struct made settings, lines;
};

/* What a request asks for. The content is that of a whole request. */
struct asked {
    const char *method, *path;
    unsigned fields; /* of these: */
    const uint8_t *content;
    size_t count;
};

enum {
    ASKED_PART = 1,    /* Content-Range */
    ASKED_IF_ANY = 2,  /* If-Match: * */
    ASKED_IF_TAG = 4,  /* If-Match with tags */
    ASKED_IF_NONE = 8, /* If-None-Match: * */
    ASKED_IF_OLD = 16  /* If-Unmodified-Since */
};

struct answer {
    int status;
    const char *allow; /* the methods that the path knows, where the status is 405; else null */
    struct content *content;
};

/* 0, or -1 with errno: EWOULDBLOCK where another gateway has the folder. The path is kept, not copied. */
int gateway_open(struct gateway *g, const char *folder);
void gateway_close(struct gateway *g);

/* `a` begins empty and is filled; the caller is a user of its content. */
void gateway_answer(struct gateway *g, const struct asked *q, struct answer *a);

/* A line of what was refused, closed or lost; beyond some a second they are counted. */
void gateway_note(struct gateway *g, const char *form, ...) __attribute__((format(printf, 2, 3)));

#endif
