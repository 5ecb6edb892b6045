// Imports of the server in C: a file of targets as comma-separated values, read twice, first to look for faults and then to put its rows.
#include "twin.h"

#include <stdlib.h>
#include <string.h>

enum { FILE_ROWS = 20000 };

static Text ids[FILE_ROWS];

// Reads a field, bare or quoted, where a doubled quote stands for one. Answers what is behind it.
static const char *read_field(const char *at, const char *end, Text *field) {
    int quoted = at < end && *at == '"';
    field->len = 0;
    for (at += quoted; at < end; at++) {
        if (quoted && *at == '"' && (at + 1 == end || at[1] != '"')) return at + 1;
        if (!quoted && (*at == ',' || *at == '\n' || *at == '\r')) return at;
        at += quoted && *at == '"';
        if (field->len == TEXT_LIMIT) return NULL;
        field->bytes[field->len++] = *at;
    }
    return quoted ? NULL : at;
}

// Parts the tags of a row at single spaces.
static int part_tags(const Text *text, Row *row) {
    for (size_t at = 0, next; at < text->len; at = next + 1) {
        const char *space = memchr(text->bytes + at, ' ', text->len - at);
        next = space ? (size_t)(space - text->bytes) : text->len;
        if (next == at || next + 1 == text->len || row->tag_count == TAG_LIMIT) return 0;
        Text *tag = &row->tags[row->tag_count++];
        memcpy(tag->bytes, text->bytes + at, tag->len = next - at);
    }
    return 1;
}

// Reads a record of four fields with the end of its line.
static const char *read_record(const char *at, const char *end, Row *row) {
    Text fields[4];
    for (int i = 0; i < 4; i++) {
        at = read_field(at, end, &fields[i]);
        if (!at || at == end || (i < 3) != (*at == ',')) return NULL;
        at += i < 3;
    }
    at += *at == '\r';
    if (at == end || *at != '\n') return NULL;
    memset(row, 0, sizeof *row);
    row->id = fields[0];
    row->name = fields[1];
    digest_of((const unsigned char *)fields[2].bytes, fields[2].len, row->digest);
    return part_tags(&fields[3], row) ? at + 1 : NULL;
}

static int in_order(const void *a, const void *b) {
    const Text *x = a, *y = b;
    int order = memcmp(x->bytes, y->bytes, x->len < y->len ? x->len : y->len);
    return order ? order : (x->len > y->len) - (x->len < y->len);
}

// How many rows there are, or -1 where one is faulty or an id comes twice.
static int count_rows(const char *at, const char *end) {
    Row row;
    int count = 0;
    for (; at < end; ids[count++] = row.id)
        if (count == FILE_ROWS || !(at = read_record(at, end, &row))) return -1;
    qsort(ids, (size_t)count, sizeof *ids, in_order);
    for (int i = 1; i < count; i++)
        if (!in_order(&ids[i - 1], &ids[i])) return -1;
    return count;
}

void answer_import(const char *body, size_t len) {
    const char *head = "controllerid,name,token,tags\n", *end = body + len;
    const char *first = len >= strlen(head) && !memcmp(body, head, strlen(head)) ? body + strlen(head) : end;
    int count = first < end ? count_rows(first, end) : -1;
    if (count < 0) return refuse("400 Bad Request", "import_line", 14);
    done(begin);
    int64_t after_all = number_of_targets();
    Row row;
    for (const char *at = first; (at < end) && (at = read_record(at, end, &row));) after_all += put_row(&row);
    if (after_all > TARGET_LIMIT) {
        done(rollback);
        return refuse("403 Forbidden", "quota", 10);
    }
    done(commit);
    char text[64];
    reply("200 OK", text, (size_t)sprintf(text, "{\"accepted\":%d}", count));
}
