/* A host in C: the verdict on messages, and the manifest of one, its length or the drains that it costs, through include/sofab.h.
 *
 *   host verdict FILE...     a line for each: complete, incomplete or broken
 *   host manifest FILE       the message on standard output, every field in its shortest form
 *   host length FILE         a line: how many bytes the manifest has
 *   host drains BYTES FILE   a line: how many drains the manifest costs over a buffer of so many bytes
 *
 * It ends with 0 where all are complete, 1 where one isn't, 2 where a file cannot be read, the output not written or a buffer has no byte.
 * README says how to build it.
 */
#include <errno.h>
#include <stdio.h>
#include <stdlib.h>
#include <string.h>

#include "sofab.h"

/* This host's own answer where there is no memory for the manifest. */
enum { NO_MEMORY = -1000 };

/* What is left of a file, with its length; NULL where it cannot be read or held. */
static uint8_t *rest_of(FILE *f, size_t *len)
{
    size_t room = 4096, used = 0;
    uint8_t *bytes = malloc(room);
    while (bytes) {
        used += fread(bytes + used, 1, room - used, f);
        if (used < room)
            break;
        uint8_t *more = realloc(bytes, room *= 2);
        if (!more)
            free(bytes);
        bytes = more;
    }
    if (bytes && ferror(f)) {
        free(bytes);
        bytes = NULL;
    }
    *len = used;
    return bytes;
}

/* The whole of a file; NULL, with a message, where it cannot be had. */
static uint8_t *slurp(const char *path, size_t *len)
{
    FILE *f = fopen(path, "rb");
    uint8_t *bytes = f ? rest_of(f, len) : NULL;
    if (!bytes)
        perror(path);
    if (f)
        fclose(f);
    return bytes;
}

/* The manifest, with its length in `n`; NULL, with the reason in `n`, where there is none: sofab_length's answer, or NO_MEMORY. */
uint8_t *host_manifest(const uint8_t *ticket, size_t len, int64_t *n)
{
    *n = sofab_length(ticket, len);
    if (*n < 0)
        return NULL;
    /* malloc may answer NULL where no byte is asked for, and that isn't for want of memory. */
    uint8_t *out = malloc(*n ? (size_t)*n : 1);
    if (out)
        sofab_copy(ticket, len, out, (size_t)*n); /* its answer is that same length */
    else
        *n = NO_MEMORY;
    return out;
}

static const char *word(int64_t verdict)
{
    return verdict == 0 ? "complete" : verdict == 1 ? "incomplete" : "broken";
}

/* Says why there is no manifest of a message, or no number; the status. */
static int without(const char *path, int64_t n)
{
    const char *what = "no memory for the manifest";
    if (n == -2)
        what = "broken";
    else if (n == -100)
        what = "incomplete";
    else if (n == -18)
        what = "a buffer of no bytes is refused";
    fprintf(stderr, "%s: %s\n", path, what);
    return n == NO_MEMORY || n == -18 ? 2 : 1;
}

static int verdicts(char **paths, int count)
{
    int status = 0;
    for (int i = 0; i < count; i++) {
        size_t len = 0;
        uint8_t *ticket = slurp(paths[i], &len);
        if (!ticket)
            return 2;
        int64_t verdict = sofab_verdict(ticket, len);
        printf("%s: %s\n", paths[i], word(verdict));
        status |= verdict != 0;
        free(ticket);
    }
    return status;
}

static int manifest(const char *path)
{
    size_t len = 0;
    uint8_t *ticket = slurp(path, &len);
    if (!ticket)
        return 2;
    int64_t n = 0;
    uint8_t *out = host_manifest(ticket, len, &n);
    free(ticket);
    if (!out)
        return without(path, n);
    fwrite(out, 1, (size_t)n, stdout);
    free(out);
    return 0;
}

static int length(const char *path)
{
    size_t len = 0;
    uint8_t *ticket = slurp(path, &len);
    if (!ticket)
        return 2;
    int64_t n = sofab_length(ticket, len);
    free(ticket);
    if (n < 0)
        return without(path, n);
    printf("%s: %lld\n", path, (long long)n);
    return 0;
}

/* A number of bytes in decimal, or 0. */
static size_t bytes_in(const char *word)
{
    char *end;
    errno = 0;
    unsigned long long n = strtoull(word, &end, 10);
    return *word < '0' || *word > '9' || *end || errno || n > SIZE_MAX ? 0 : (size_t)n;
}

/* A buffer of no bytes is refused before the message is looked at, so it isn't read then. */
static int drains(const char *bytes, const char *path)
{
    size_t len = 0, buffer = bytes_in(bytes);
    uint8_t *ticket = buffer ? slurp(path, &len) : NULL;
    if (buffer && !ticket)
        return 2;
    int64_t n = sofab_drains(ticket, len, buffer);
    free(ticket);
    if (n < 0)
        return without(path, n);
    printf("%s: %lld\n", path, (long long)n);
    return 0;
}

#ifndef HOST_WITHOUT_MAIN
int main(int argc, char **argv)
{
    int status = 2;
    if (argc > 2 && !strcmp(argv[1], "verdict"))
        status = verdicts(argv + 2, argc - 2);
    else if (argc == 3 && !strcmp(argv[1], "manifest"))
        status = manifest(argv[2]);
    else if (argc == 3 && !strcmp(argv[1], "length"))
        status = length(argv[2]);
    else if (argc == 4 && !strcmp(argv[1], "drains"))
        status = drains(argv[2], argv[3]);
    else
        fprintf(stderr, "usage: %s verdict FILE..., or with manifest FILE, length FILE, drains BYTES FILE\n", argv[0]);
    int unwritten = ferror(stdout);
    if (fclose(stdout) || unwritten) {
        perror("standard output");
        return 2;
    }
    return status;
}
#endif
