/* Makes the library's calls and does nothing else with their answers: what they cost with room for all that they write.
 * Reads cases (oracle/REPLAY.md) of the ops T E P U C H from a file on standard input. A room that is not 0 is lent whole: 655,360 words or
 * 65,536 bytes. Prints the sum of the counts that were answered. Refuses (status 2) an input that is no file of such cases. */
#include <stdint.h>
#include <stdio.h>
#include <string.h>
#include <sys/mman.h>
#include <sys/stat.h>

/* A slice of Rattle is a pointer and a count. */
#define BUF const uint8_t *buf, size_t n, size_t start, size_t end
#define NAMES(x) const uint8_t *x##_bytes, size_t x##_len, const uint32_t *x##_ends, size_t x##_count
size_t call_events(_Bool strict, BUF, uint32_t *out, size_t room);
size_t call_parentheticals(_Bool strict, BUF, uint32_t *out, size_t room);
size_t call_unescape_text(_Bool html, BUF, uint8_t *out, size_t room);
size_t call_unescape_label(BUF, uint8_t *out, size_t room);
size_t call_unescape_math(BUF, uint8_t *out, size_t room);
size_t call_verify_markup(_Bool strict, BUF, NAMES(symbol), NAMES(label), NAMES(bib), uint32_t *out, size_t room);
size_t call_verify_markup_without_bibliography(_Bool strict, BUF, NAMES(symbol), NAMES(label), uint32_t *out, size_t room);
size_t call_verify_markup_no_tag_lookup(_Bool strict, BUF, NAMES(symbol), NAMES(label), uint32_t *out, size_t room);
size_t call_links(_Bool strict, BUF, NAMES(label), uint32_t *out, size_t room);

enum { WORDS = 655360, BYTES = 65536 };
static uint32_t words[WORDS];
static uint8_t bytes[BYTES];

/* Tables 1 to 3: symbols, labels, bibliography. */
static struct { uint32_t ends[131072]; uint8_t names[2097152]; size_t count, len; } tables[4];
static int has_bib;
#define TABLE(k) tables[k].names, tables[k].len, tables[k].ends, tables[k].count

static uint32_t word(const uint8_t *at)
{
    uint32_t w;
    memcpy(&w, at, 4);
    return w;
}

static int lend(uint8_t number, uint32_t count, const uint8_t *payload, size_t n)
{
    if (number == 0 || number > 3 || count > 131072 || 4 * (size_t)count > n || n - 4 * count > 2097152)
        return 0;
    memcpy(tables[number].ends, payload, 4 * count);
    memcpy(tables[number].names, payload + 4 * count, n - 4 * count);
    tables[number].count = count;
    tables[number].len = n - 4 * count;
    has_bib |= number == 3;
    return 1;
}

static size_t check(uint8_t flag, _Bool strict, BUF, size_t room)
{
    if (flag == 1)
        return call_verify_markup_no_tag_lookup(strict, buf, n, start, end, TABLE(1), TABLE(2), words, room);
    if (has_bib)
        return call_verify_markup(strict, buf, n, start, end, TABLE(1), TABLE(2), TABLE(3), words, room);
    return call_verify_markup_without_bibliography(strict, buf, n, start, end, TABLE(1), TABLE(2), words, room);
}

static size_t unescape(uint8_t flag, BUF, size_t room)
{
    if (flag == 2)
        return call_unescape_label(buf, n, start, end, bytes, room);
    if (flag == 3)
        return call_unescape_math(buf, n, start, end, bytes, room);
    return call_unescape_text(flag == 1, buf, n, start, end, bytes, room);
}

int main(void)
{
    struct stat file;
    if (fstat(0, &file) || file.st_size == 0)
        return 2;
    const uint8_t *at = mmap(NULL, file.st_size, PROT_READ, MAP_PRIVATE, 0, 0);
    if (at == MAP_FAILED)
        return 2;
    const uint8_t *stop = at + file.st_size;
    size_t sum = 0;
    while (at < stop) {
        if (stop - at < 24 || stop - at - 24 < word(at + 20))
            return 2;
        uint8_t op = at[0], flag = at[1];
        _Bool strict = at[2] == 1;
        size_t a = word(at + 4), b = word(at + 8), room = word(at + 16), n = word(at + 20);
        const uint8_t *payload = at + 24;
        at = payload + n;
        if (op == 'T') {
            if (!lend(flag, a, payload, n))
                return 2;
        } else if (op == 'E')
            sum += call_events(strict, payload, n, a, b, words, room ? WORDS : 0);
        else if (op == 'P')
            sum += call_parentheticals(strict, payload, n, a, b, words, room ? WORDS : 0);
        else if (op == 'C')
            sum += check(flag, strict, payload, n, a, b, room ? WORDS : 0);
        else if (op == 'H')
            sum += call_links(strict, payload, n, a, b, TABLE(2), words, room ? WORDS : 0);
        else if (op == 'U')
            sum += unescape(flag, payload, n, a, b, room ? BYTES : 0);
        else
            return 2;
    }
    printf("%zu\n", sum);
    return 0;
}
