/* Runs a script of the form that `stasis run` reads, with one table and one transaction at a time, over another library, and answers as
 * Stasis does: `PROGRAM FOLDER CACHE_BYTES < SCRIPT`. A put is answered `ok` alone, so that no library has to look first. A line of one word,
 * `flush` or `checkpoint`, is a checkpoint. Each reply is written by itself. */
#include "peer.h"

#include <stdio.h>
#include <stdlib.h>
#include <string.h>

enum { MOST_WORDS = 6 };

_Noreturn void fail(const char *what, const char *why) {
    fprintf(stderr, "%s: %s\n", what, why);
    exit(1);
}

static int split(char *line, char *words[MOST_WORDS]) {
    int count = 0;
    for (char *word = strtok(line, " \n"); word && count < MOST_WORDS; word = strtok(NULL, " \n")) words[count++] = word;
    return count;
}

static struct bytes text(const char *word) {
    return (struct bytes){word, strlen(word)};
}

static void reply_value(struct bytes value) {
    fwrite("ok ", 1, 3, stdout);
    fwrite(value.at, 1, value.length, stdout);
    fputc('\n', stdout);
}

/* Does what the words behind a transaction's name ask for, and replies. */
static void run_words(char **words, int count) {
    struct bytes value;
    if (strcmp(words[0], "begin") == 0) peer_begin();
    else if (strcmp(words[0], "commit") == 0) peer_commit();
    else if (strcmp(words[0], "abort") == 0) peer_abort();
    else if (strcmp(words[0], "make") == 0) { /* the table is made with the store */ }
    else if (strcmp(words[0], "put") == 0 && count == 4) peer_put(text(words[2]), text(words[3]));
    else if (strcmp(words[0], "find") == 0 && count == 3) {
        if (peer_find(text(words[2]), &value)) reply_value(value);
        else puts("none");
        return;
    } else if (strcmp(words[0], "del") == 0 && count == 3) {
        puts(peer_delete(text(words[2])) ? "ok" : "none");
        return;
    } else fail("script", words[0]);
    puts("ok");
}

int main(int count, char **arguments) {
    char *line = NULL, *words[MOST_WORDS];
    size_t room = 0;
    if (count != 3) fail("usage", "PROGRAM FOLDER CACHE_BYTES");
    setvbuf(stdout, NULL, _IOLBF, 1 << 16);
    peer_open(arguments[1], atol(arguments[2]));
    while (getline(&line, &room, stdin) > 0) {
        int found = split(line, words);
        if (found == 1) {
            peer_checkpoint();
            puts("ok");
        } else if (found > 1) run_words(words + 1, found - 1);
    }
    peer_close();
    free(line);
    return 0;
}
