// The store, kept in a file across runs.
#define _XOPEN_SOURCE 700

#include "simulator.h"

#include <errno.h>
#include <stdlib.h>
#include <string.h>

// Where the path leads to: a link to a store stays a link.
static int find(StoreFile *store, const char *path)
{
    store->path = realpath(path, NULL);
    if (store->path == NULL && errno == ENOENT)
        store->path = strdup(path);
    if (store->path != NULL)
        return 0;
    report("cannot read %s: %s", path, strerror(errno));
    return -1;
}

int store_open(StoreFile *store, const char *path)
{
    int found;
    memset(store, 0, sizeof *store);
    store->length = DISPLAY_STORE_MOST;
    if (path == NULL)
        return 0;
    if (find(store, path) < 0)
        return -1;
    found = file_read(store->path, store->bytes, sizeof store->bytes, &store->length);
    if (found > 0) {
        if (file_save(store->path, store->bytes, store->length) < 0)
            return -1;
        report("%s did not exist; made it as an empty store of %u bytes", path, DISPLAY_STORE_MOST);
    }
    memcpy(store->saved, store->bytes, sizeof store->saved);
    memcpy(store->directory, store->bytes, sizeof store->directory);
    return found < 0 ? -1 : 0;
}

int store_directory_changed(const StoreFile *store)
{
    return memcmp(store->directory, store->bytes, sizeof store->directory) != 0;
}

int store_save(StoreFile *store)
{
    memcpy(store->directory, store->bytes, sizeof store->directory);
    if (store->path != NULL && memcmp(store->saved, store->bytes, store->length) != 0 &&
        file_save(store->path, store->bytes, store->length) < 0)
        return -1;
    memcpy(store->saved, store->bytes, sizeof store->saved);
    return 0;
}
