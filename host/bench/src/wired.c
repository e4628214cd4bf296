/* WiredTiger as a peer: in memory, one thread, a session with snapshot isolation for each place. The isolation is named
 * once, when a session is opened, or again at each start, which makes WiredTiger read a configuration word each time. */
#include <stdint.h>
#include <stdio.h>
#include <stdlib.h>
#include <wiredtiger.h>

struct wired {
    WT_CONNECTION *connection;
    int places;
    const char *begin;
    WT_SESSION *session[16];
    WT_CURSOR *cursor[16];
};

static int told(int error, const char *what) {
    if (error) fprintf(stderr, "WiredTiger: %s: %s\n", what, wiredtiger_strerror(error));
    return error;
}

/* A fresh table of 32-bit keys and values, with a session for each place; NULL if it cannot be had. */
struct wired *wired_open(const char *home, int places, int at_each_start) {
    struct wired *w = calloc(1, sizeof *w);
    if (!w || places > 16) return NULL;
    w->places = places;
    w->begin = at_each_start ? "isolation=snapshot" : NULL;
    if (told(wiredtiger_open(home, NULL, "create,in_memory=true,cache_size=256MB", &w->connection), "open")) return NULL;
    for (int i = 0; i < places; i++) {
        if (told(w->connection->open_session(w->connection, NULL, "isolation=snapshot", &w->session[i]), "session")) return NULL;
        if (i == 0 && told(w->session[0]->create(w->session[0], "table:board", "key_format=I,value_format=I"), "create")) return NULL;
        if (told(w->session[i]->open_cursor(w->session[i], "table:board", NULL, NULL, &w->cursor[i]), "cursor")) return NULL;
    }
    return w;
}

void wired_close(struct wired *w) {
    told(w->connection->close(w->connection, NULL), "close");
    free(w);
}

/* Each gives 0, 1 for a conflict, or 2 for anything else. */
static int gave(int error) { return error == 0 ? 0 : error == WT_ROLLBACK ? 1 : 2; }

int wired_start(struct wired *w, int place) { return gave(w->session[place]->begin_transaction(w->session[place], w->begin)); }
int wired_commit(struct wired *w, int place) { return gave(w->session[place]->commit_transaction(w->session[place], NULL)); }
int wired_rollback(struct wired *w, int place) { return gave(w->session[place]->rollback_transaction(w->session[place], NULL)); }

/* A key never written reads as 0. */
int wired_read(struct wired *w, int place, uint32_t key, uint32_t *value) {
    WT_CURSOR *c = w->cursor[place];
    c->set_key(c, key);
    int error = c->search(c);
    *value = 0;
    if (error == WT_NOTFOUND) return 0;
    return error ? gave(error) : gave(c->get_value(c, value));
}

int wired_update(struct wired *w, int place, uint32_t key, uint32_t value) {
    WT_CURSOR *c = w->cursor[place];
    c->set_key(c, key);
    c->set_value(c, value);
    return gave(c->insert(c));
}
