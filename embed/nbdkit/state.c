/* What a later start has to know: the shape, and of each slot its file and whether it is lost. It stands in a text file,
 * which is written anew and renamed, so that it is whole at all times:
 *
 *     slots 6 chunk 16 rows 16384
 *     in /where/m0
 *     lost /where/m1
 */
#include "plugin.h"

#include <errno.h>
#include <fcntl.h>
#include <libgen.h>
#include <stdio.h>
#include <stdlib.h>
#include <string.h>
#include <sys/file.h>
#include <unistd.h>

const char *state_path;
static int lock_file;

const char *state_lock(void)
{
    char path[MOST_PATH + 8];
    snprintf(path, sizeof path, "%s.lock", state_path);
    lock_file = open(path, O_RDWR | O_CREAT | O_CLOEXEC, 0600);
    if (lock_file < 0)
        return strerror(errno);
    return flock(lock_file, LOCK_EX | LOCK_NB) ? "in use, by another server" : NULL;
}

/* A process that can't end, since a member's call never returns, has the lock no more. */
void state_unlock(void)
{
    close(lock_file);
}

const char *state_load(bool *is_there)
{
    FILE *file = fopen(state_path, "r");
    *is_there = file != NULL;
    if (!file)
        return errno == ENOENT ? NULL : strerror(errno);
    unsigned long long slots = 0, chunk = 0, rows = 0;
    const char *why = NULL;
    if (fscanf(file, "slots %llu chunk %llu rows %llu\n", &slots, &chunk, &rows) != 3)
        why = "it is no state file";
    else if (slots != shape.slots || chunk != shape.chunk)
        why = "it is of an array with another number of slots, or another chunk";
    shape.rows = rows;
    for (unsigned s = 0; s < shape.slots && !why; s++) {
        char word[8], path[MOST_PATH];
        if (fscanf(file, "%7s %4095[^\n]\n", word, path) != 2 || (strcmp(word, "in") && strcmp(word, "lost")))
            why = "it is no state file";
        else if (!strcmp(word, "lost"))
            members[s]->is_lost = true;
        else if (!members[s]->is_lost && strcmp(path, members[s]->path))
            why = "a slot has another member there than the one that is named";
    }
    fclose(file);
    return why;
}

static bool save(FILE *file)
{
    fprintf(file, "slots %llu chunk %llu rows %llu\n", (unsigned long long)shape.slots, (unsigned long long)shape.chunk,
            (unsigned long long)shape.rows);
    for (unsigned s = 0; s < shape.slots; s++)
        fprintf(file, "%s %s\n", members[s]->is_lost ? "lost" : "in", members[s]->path);
    return !fflush(file) && !ferror(file) && !fsync(fileno(file));
}

/* A rename is on disk when its folder is. */
static bool sync_folder(void)
{
    char path[4096];
    snprintf(path, sizeof path, "%s", state_path);
    int folder = open(dirname(path), O_RDONLY | O_DIRECTORY | O_CLOEXEC);
    bool is_synced = folder >= 0 && !fsync(folder);
    if (folder >= 0)
        close(folder);
    return is_synced;
}

bool state_save(void)
{
    char path[4096];
    snprintf(path, sizeof path, "%s.new", state_path);
    FILE *file = fopen(path, "w");
    if (!file)
        return false;
    bool is_saved = save(file);
    return !fclose(file) && is_saved && !rename(path, state_path) && sync_folder();
}

void write_down(struct member *m, bool is_lost)
{
    if (members[m->slot] == m && m->is_lost == is_lost)
        return;
    members[m->slot] = m;
    m->is_lost = is_lost;
    if (!state_save()) {
        tell("%s: %s: nobody may be answered from here on, so the server ends", state_path, strerror(errno));
        abort();
    }
    tell("slot %u: %s", m->slot, is_lost ? "lost" : "in sync");
}
