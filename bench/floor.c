/* What a merge cannot do without, as C does it that checks nothing: gives the names of hosts' users one index each, by a table of
 * hashes, notes for each name its hosts and its numbers there, and writes each host's passwd with the indices as new numbers.
 * Prints the processor seconds of that, without those of reading the files and of finding the fields in them.
 *
 *     cc -O2 -o floor bench/floor.c && ./floor OUT DIRECTORY..
 *
 * Each DIRECTORY has a passwd without a fault, and there are at most 64 of them, with 131,072 names. OUT is a directory, for the
 * files passwd.0 and so on.
 */
#define _GNU_SOURCE
#include <stdint.h>
#include <stdio.h>
#include <stdlib.h>
#include <string.h>
#include <time.h>

enum { PLACES = 1 << 18, MOST_NAMES = 1 << 17, MOST_HOSTS = 64 };

/* A user of a host: where its line, its uid and what is behind that begin. */
struct row {
    const char *line, *uid, *behind;
    uint32_t name_length, number, index;
};

struct host {
    char *text;
    size_t length, count;
    struct row *rows;
};

/* A name, and the number that it has on each of its hosts. */
struct name {
    const struct row *first;
    struct { uint32_t host, number; } *spots;
    uint32_t count;
};

static struct name names[MOST_NAMES];
static uint32_t places[PLACES], name_count;

static void *wanted(void *memory) {
    if (!memory) {
        perror("floor");
        exit(1);
    }
    return memory;
}

static FILE *opened(const char *directory, const char *file, const char *mode) {
    char path[4096];
    snprintf(path, sizeof path, "%s/%s", directory, file);
    return wanted(fopen(path, mode));
}

static struct row row_at(const char *line) {
    struct row row = {.line = line, .name_length = strchr(line, ':') - line};
    row.uid = strchr(line + row.name_length + 1, ':') + 1;
    row.number = strtoul(row.uid, (char **)&row.behind, 10);
    return row;
}

static struct host host_in(const char *directory) {
    FILE *file = opened(directory, "passwd", "r");
    fseek(file, 0, SEEK_END);
    struct host host = {.length = ftell(file)};
    rewind(file);
    host.text = wanted(calloc(host.length + 1, 1));
    if (fread(host.text, 1, host.length, file) != host.length) {
        wanted(NULL);
    }
    fclose(file);
    host.rows = wanted(malloc((host.length / 8 + 1) * sizeof *host.rows));
    for (char *line = host.text; *line; line = strchr(line, '\n') + 1) {
        host.rows[host.count++] = row_at(line);
    }
    return host;
}

static uint32_t hash_of(const struct row *row) {
    uint64_t hash = 0xcbf29ce484222325;
    for (uint32_t i = 0; i < row->name_length; i++) {
        hash = (hash ^ (unsigned char)row->line[i]) * 0x100000001b3;
    }
    return (hash ^ hash >> 29) % PLACES;
}

static int is_of(const struct name *name, const struct row *row) {
    return name->first->name_length == row->name_length && !memcmp(name->first->line, row->line, row->name_length);
}

static void join(struct row *row, uint32_t host) {
    uint32_t place = hash_of(row);
    while (places[place] && !is_of(&names[places[place] - 1], row)) {
        place = (place + 1) % PLACES;
    }
    if (!places[place]) {
        names[name_count].first = row;
        places[place] = ++name_count;
    }
    row->index = places[place] - 1;
    struct name *name = &names[row->index];
    if ((name->count & (name->count - 1)) == 0) {
        name->spots = wanted(realloc(name->spots, (name->count ? 2 * name->count : 1) * sizeof *name->spots));
    }
    name->spots[name->count].host = host;
    name->spots[name->count++].number = row->number;
}

static void write_to(const char *directory, const struct host *host, int index) {
    char file[32];
    snprintf(file, sizeof file, "passwd.%d", index);
    char *text = wanted(malloc(host->length + 10 * host->count + 1)), *end = text;
    for (size_t i = 0; i < host->count; i++) {
        const struct row *row = &host->rows[i];
        end = mempcpy(end, row->line, row->uid - row->line);
        char digits[10];
        int first = sizeof digits;
        for (uint32_t left = row->index; first == sizeof digits || left; left /= 10) {
            digits[--first] = '0' + left % 10;
        }
        end = mempcpy(end, digits + first, sizeof digits - first);
        end = mempcpy(end, row->behind, strchr(row->behind, '\n') + 1 - row->behind);
    }
    FILE *to = opened(directory, file, "w");
    setbuf(to, NULL);
    if (fwrite(text, 1, end - text, to) != (size_t)(end - text)) {
        wanted(NULL);
    }
    fclose(to);
    free(text);
}

int main(int count, char **words) {
    static struct host hosts[MOST_HOSTS];
    for (int i = 2; i < count; i++) {
        hosts[i - 2] = host_in(words[i]);
    }
    clock_t begun = clock();
    for (int i = 0; i < count - 2; i++) {
        for (size_t row = 0; row < hosts[i].count; row++) {
            join(&hosts[i].rows[row], i);
        }
    }
    for (int i = 0; i < count - 2; i++) {
        write_to(words[1], &hosts[i], i);
    }
    printf("%.3f\n", (double)(clock() - begun) / CLOCKS_PER_SEC);
}
