/* What it costs at least to canonicalise a frozen file whose strings are kept: reads the
   directives, keeps each string in memory of its own, sorts by name, and writes them. It checks
   nothing and gives nothing back, so it is no second m4r: bench/run takes it as a yardstick.

   usage: floor FILE > OUT

   And what it costs at least to load one: `floor --reload FILE` reads the file whole, checks each
   directive, hashes each name once, and keeps entries that point into what was read. */
#include <fcntl.h>
#include <stdio.h>
#include <stdlib.h>
#include <string.h>
#include <sys/stat.h>
#include <unistd.h>

enum { BLOCK = 65536 };

struct directive {
    int letter;
    size_t name_len, text_len;
    char *name, *text;
};

static int file;
static char in[BLOCK], out[BLOCK];
static size_t at, end, held;

static int next_byte(void) {
    if (at == end) {
        ssize_t n = read(file, in, BLOCK);
        if (n <= 0) return EOF;
        at = 0;
        end = (size_t)n;
    }
    return (unsigned char)in[at++];
}

static void skip_line(int c) {
    while (c != '\n' && c != EOF) c = next_byte();
}

/* A number, and the byte behind it. */
static size_t number(void) {
    size_t n = 0;
    for (int c = next_byte(); c >= '0' && c <= '9'; c = next_byte()) n = n * 10 + (size_t)(c - '0');
    return n;
}

static char *string(size_t len) {
    char *kept = malloc(len + 1);
    for (size_t had = 0; kept && had < len;) {
        int c = next_byte();
        if (c == EOF) exit(1);
        at--;
        size_t n = end - at < len - had ? end - at : len - had;
        memcpy(kept + had, in + at, n);
        at += n;
        had += n;
    }
    return kept;
}

static void write_whole(const char *bytes, size_t len) {
    while (len > 0) {
        ssize_t n = write(STDOUT_FILENO, bytes, len);
        if (n <= 0) exit(1);
        bytes += n;
        len -= (size_t)n;
    }
}

static void put(const char *bytes, size_t len) {
    if (held + len > BLOCK) {
        write_whole(out, held);
        held = 0;
    }
    if (len >= BLOCK) {
        write_whole(bytes, len);
        return;
    }
    memcpy(out + held, bytes, len);
    held += len;
}

static int by_name(const void *one, const void *other) {
    const struct directive *a = one, *b = other;
    size_t len = a->name_len < b->name_len ? a->name_len : b->name_len;
    int order = memcmp(a->name, b->name, len);
    return order ? order : (a->name_len > b->name_len) - (a->name_len < b->name_len);
}

/* The strings of a directive behind its letter; the number of a diversion is taken as its name's length. */
static struct directive directive(int letter) {
    struct directive d = {.letter = letter};
    size_t first = number();
    d.text_len = number();
    d.name_len = letter == 'D' ? 0 : first;
    d.name = string(d.name_len);
    d.text = string(d.text_len);
    next_byte();
    return d;
}

static void put_directive(const struct directive *d) {
    char head[64];
    size_t first = d->letter == 'D' ? 1 : d->name_len;
    put(head, (size_t)sprintf(head, "%c%zu,%zu\n", d->letter, first, d->text_len));
    put(d->name, d->name_len);
    put(d->text, d->text_len);
    put("\n", 1);
}

/* A name with its last definition, in a table with open addresses. */
struct entry {
    const char *name, *text;
    size_t name_len, text_len;
    unsigned long hash;
};

static struct entry *table;
static size_t names, places;

static unsigned long with_piece(unsigned long hash, const char *bytes, size_t len) {
    unsigned long piece = 0;
    memcpy(&piece, bytes, len);
    unsigned __int128 product = (unsigned __int128)(hash ^ piece) * 0x9e3779b97f4a7c15;
    return (unsigned long)product ^ (unsigned long)(product >> 64);
}

/* By pieces of eight bytes, the last of which overlaps the one before it. */
static unsigned long hash_of(const char *name, size_t len) {
    unsigned long hash = len;
    if (len < 8) {
        for (size_t i = 0; i < len; i++) hash = hash * 31 + (unsigned char)name[i];
        return with_piece(hash, "", 0);
    }
    for (size_t at = 0; at + 8 < len; at += 8) hash = with_piece(hash, name + at, 8);
    return with_piece(hash, name + len - 8, 8);
}

static struct entry *place_of(const char *name, size_t len, unsigned long hash) {
    size_t i = hash & (places - 1);
    while (table[i].name && (table[i].hash != hash || table[i].name_len != len || memcmp(table[i].name, name, len)))
        i = (i + 1) & (places - 1);
    return &table[i];
}

static void grow(void) {
    struct entry *old = table;
    size_t count = places;
    places = places ? places * 2 : 1024;
    table = calloc(places, sizeof *table);
    if (!table) exit(1);
    for (size_t i = 0; i < count; i++) {
        if (!old[i].name) continue;
        size_t at = old[i].hash & (places - 1);
        while (table[at].name) at = (at + 1) & (places - 1);
        table[at] = old[i];
    }
    free(old);
}

/* A number of a first line, which has to end with this byte. */
static size_t number_at(const char **at, const char *end, char last) {
    size_t n = 0;
    const char *begun = *at;
    while (*at < end && **at >= '0' && **at <= '9') n = n * 10 + (size_t)(*(*at)++ - '0');
    if (*at == begun || *at == end || *(*at)++ != last) exit(1);
    return n;
}

static const char *strings_of(const char *at, const char *end) {
    int is_diversion = *at++ == 'D';
    if (is_diversion && at < end && *at == '-') at++;
    size_t first = number_at(&at, end, ','), second = number_at(&at, end, '\n');
    if (is_diversion) first = 0;
    if (second >= (size_t)(end - at) || first >= (size_t)(end - at) - second || at[first + second] != '\n') exit(1);
    if (2 * names >= places) grow();
    unsigned long hash = hash_of(at, first);
    struct entry *entry = place_of(at, first, hash);
    names += entry->name == NULL;
    *entry = (struct entry){at, at + first, first, second, hash};
    return at + first + second + 1;
}

static void load(const char *path) {
    struct stat about;
    if ((file = open(path, O_RDONLY)) < 0 || fstat(file, &about) < 0) exit(1);
    char *bytes = malloc((size_t)about.st_size + 1);
    ssize_t len = read(file, bytes, (size_t)about.st_size);
    const char *at = bytes, *end = bytes + (len > 0 ? len : 0);
    while (at < end) {
        if (*at == '\n') at++;
        else if (*at == '#' || *at == 'V') at = (at = memchr(at, '\n', (size_t)(end - at))) ? at + 1 : end;
        else at = strings_of(at, end);
    }
}

int main(int count, char **words) {
    struct directive *all = NULL;
    size_t len = 0, room = 0;
    if (count == 3 && strcmp(words[1], "--reload") == 0) {
        load(words[2]);
        _exit(0);
    }
    if (count != 2 || (file = open(words[1], O_RDONLY)) < 0) return 1;
    for (int c = next_byte(); c != EOF; c = next_byte()) {
        if (c == '#' || c == 'V' || c == '\n') {
            skip_line(c);
            continue;
        }
        if (len == room) {
            room = room ? room * 2 : 64;
            all = realloc(all, room * sizeof *all);
            if (!all) return 1;
        }
        all[len++] = directive(c);
    }
    if (len > 0) qsort(all, len, sizeof *all, by_name);
    put("# m4 frozen state\nV1\n", 21);
    for (size_t i = 0; i < len; i++) put_directive(&all[i]);
    put("# End of frozen state file\n", 27);
    write_whole(out, held);
    _exit(0);
}
