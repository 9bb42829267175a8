/* What a script of `script.c` asks of a library. Each library has a file that does it; what fails there ends the program by `fail`. */
#ifndef PEER_H
#define PEER_H

#include <stddef.h>

/* Bytes that somebody else owns. */
struct bytes {
    const void *at;
    size_t length;
};

/* Opens the table of the folder, or makes it, with so much memory for its pages. What a crash left is repaired here. */
void peer_open(const char *folder, long cache_bytes);
void peer_begin(void);
void peer_commit(void);
void peer_abort(void);
void peer_put(struct bytes key, struct bytes value);
/* Whether the key is there. Its value stands until the next call. */
int peer_find(struct bytes key, struct bytes *value);
int peer_delete(struct bytes key);
void peer_checkpoint(void);
void peer_close(void);

/* Says what failed, and ends the program. */
_Noreturn void fail(const char *what, const char *why);

#endif
