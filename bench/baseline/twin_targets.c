// The targets of the server in C: putting them, and pages of them, all or those with a tag.
#include "twin.h"

#include <stdlib.h>
#include <string.h>

enum { ROW_LIMIT = 100 };

static sqlite3_stmt *get_target, *count_targets, *put_target, *set_target, *list_tags, *put_tag, *drop_tag, *list_attributes, *page_targets, *list_targets;
static Row rows[ROW_LIMIT];

void prepare_targets(void) {
    get_target = prepared("SELECT name, digest FROM target WHERE controller = ?1");
    count_targets = prepared("SELECT count(*) FROM target");
    put_target = prepared("INSERT INTO target (controller, name, digest) VALUES (?1, ?2, ?3)");
    set_target = prepared("UPDATE target SET name = ?2, digest = ?3 WHERE controller = ?1");
    list_tags = prepared("SELECT tag FROM target_tag WHERE controller = ?1 ORDER BY tag");
    put_tag = prepared("INSERT INTO target_tag (controller, tag) VALUES (?1, ?2)");
    drop_tag = prepared("DELETE FROM target_tag WHERE controller = ?1 AND tag = ?2");
    list_attributes = prepared("SELECT key, value FROM target_attribute WHERE controller = ?1 ORDER BY key");
    page_targets = prepared("SELECT controller, name FROM target ORDER BY controller LIMIT ?1 OFFSET ?2");
    list_targets = prepared("SELECT controller, name FROM target ORDER BY controller");
}

// Reads the tags of a target, and answers how many they are.
static int tags_of(const Text *id, Text tags[TAG_LIMIT]) {
    int count = 0;
    bind_text(list_tags, 1, id);
    while (row_of(list_tags)) {
        if (count == TAG_LIMIT) die("tags");
        read_column(list_tags, 0, &tags[count++]);
    }
    sqlite3_reset(list_tags);
    return count;
}

static int same(const Text *text, sqlite3_stmt *statement, int column) {
    return (size_t)sqlite3_column_bytes(statement, column) == text->len && !memcmp(sqlite3_column_text(statement, column), text->bytes, text->len);
}

// ---- putting

static const char *read_tags(const char *at, const char *end, Row *row) {
    at = after(at, end, '[');
    row->tag_count = 0;
    while (at && row->tag_count < TAG_LIMIT) {
        at = read_text(at, end, &row->tags[row->tag_count++]);
        const char *more = at ? after(at, end, ',') : NULL;
        if (!more) break;
        at = more;
    }
    return after(at, end, ']');
}

static const char *read_row(const char *at, const char *end, Row *row) {
    memset(row, 0, sizeof *row);
    at = after(at, end, '{');
    while (at) {
        Text key, token;
        at = after(read_text(at, end, &key), end, ':');
        if (!at) break;
        if (is_key(&key, "controllerId")) at = read_text(at, end, &row->id);
        else if (is_key(&key, "name")) at = read_text(at, end, &row->name);
        else if (is_key(&key, "tags")) at = read_tags(at, end, row);
        else if ((at = read_text(at, end, &token))) digest_of((const unsigned char *)token.bytes, token.len, row->digest);
        const char *more = at ? after(at, end, ',') : NULL;
        if (!more) break;
        at = more;
    }
    return after(at, end, '}');
}

// How many rows the body has, or 0 where it is none.
static int read_rows(const char *body, size_t len) {
    const char *end = body + len, *at = after(body, end, '[');
    int count = 0;
    while (at && count < ROW_LIMIT) {
        at = read_row(at, end, &rows[count++]);
        const char *more = at ? after(at, end, ',') : NULL;
        if (!more) break;
        at = more;
    }
    at = after(at, end, ']');
    return at && skip_space(at, end) == end ? count : 0;
}

int find_target(const Text *id, Text *name, unsigned char digest[32]) {
    bind_text(get_target, 1, id);
    int is_there = row_of(get_target);
    if (is_there) {
        read_column(get_target, 0, name);
        memcpy(digest, sqlite3_column_blob(get_target, 1), 32);
    }
    sqlite3_reset(get_target);
    return is_there;
}

static int has_target(const Row *row) {
    Text name;
    unsigned char digest[32];
    return find_target(&row->id, &name, digest);
}

static int is_among(const Text *word, const Text *words, int count) {
    for (int i = 0; i < count; i++)
        if (words[i].len == word->len && !memcmp(words[i].bytes, word->bytes, word->len)) return 1;
    return 0;
}

// Gives the target the row's tags in place of those that it has.
static void put_tags(const Row *row) {
    Text had[TAG_LIMIT];
    int count = tags_of(&row->id, had);
    for (int i = 0; i < count; i++) {
        if (is_among(&had[i], row->tags, row->tag_count)) continue;
        bind_text(drop_tag, 1, &row->id);
        bind_text(drop_tag, 2, &had[i]);
        done(drop_tag);
    }
    for (int i = 0; i < row->tag_count; i++) {
        if (is_among(&row->tags[i], had, count)) continue;
        bind_text(put_tag, 1, &row->id);
        bind_text(put_tag, 2, &row->tags[i]);
        done(put_tag);
    }
}

// Puts one row, and answers whether its target is new: only what differs is written.
int put_row(const Row *row) {
    bind_text(get_target, 1, &row->id);
    int is_there = row_of(get_target);
    int is_same = is_there && same(&row->name, get_target, 0) && !memcmp(sqlite3_column_blob(get_target, 1), row->digest, 32);
    sqlite3_reset(get_target);
    if (!is_same) {
        sqlite3_stmt *write = is_there ? set_target : put_target;
        bind_text(write, 1, &row->id);
        bind_text(write, 2, &row->name);
        sqlite3_bind_blob(write, 3, row->digest, 32, SQLITE_STATIC);
        done(write);
    }
    put_tags(row);
    return !is_there;
}

int64_t number_of_targets(void) { return number_in(count_targets); }

// Whether the rows, each of another id, find workdir.
static int have_room(int count) {
    int64_t after_all = number_in(count_targets);
    for (int i = 0; i < count; i++) after_all += !has_target(&rows[i]);
    return after_all <= TARGET_LIMIT;
}

void answer_put(const char *body, size_t len) {
    int count = read_rows(body, len);
    if (!count) return refuse("400 Bad Request", "bad_request", 1);
    done(begin);
    if (!have_room(count)) {
        done(rollback);
        return refuse("403 Forbidden", "quota", 10);
    }
    for (int i = 0; i < count; i++) put_row(&rows[i]);
    done(commit);
    char text[64];
    reply("201 Created", text, (size_t)sprintf(text, "{\"accepted\":%d}", count));
}

// ---- pages

static int attributes_of(const Text *id, Attribute attributes[ATTRIBUTE_LIMIT]) {
    int count = 0;
    bind_text(list_attributes, 1, id);
    while (row_of(list_attributes)) {
        if (count == ATTRIBUTE_LIMIT) die("attributes");
        read_column(list_attributes, 0, &attributes[count].key);
        read_column(list_attributes, 1, &attributes[count++].value);
    }
    sqlite3_reset(list_attributes);
    return count;
}

// Reads the tags and the attributes of a target: a filter may ask for either, and its object shows both.
void fill_target(Target *target) {
    target->tag_count = tags_of(&target->id, target->tags);
    target->attribute_count = attributes_of(&target->id, target->attributes);
}

static void read_target(sqlite3_stmt *statement, Target *target) {
    read_column(statement, 0, &target->id);
    read_column(statement, 1, &target->name);
    fill_target(target);
}

// Visits all targets in byte order of their ids.
void each_target(void (*visit)(const Target *target)) {
    static Target target;
    while (row_of(list_targets)) {
        read_target(list_targets, &target);
        visit(&target);
    }
    sqlite3_reset(list_targets);
}

static size_t put(char *to, const Text *text) { return put_text(to, text->bytes, text->len); }

size_t put_target_object(char *to, const Target *target) {
    size_t size = (size_t)sprintf(to, "{\"attributes\":{");
    for (int i = 0; i < target->attribute_count; i++) {
        if (i) to[size++] = ',';
        size += put(to + size, &target->attributes[i].key);
        to[size++] = ':';
        size += put(to + size, &target->attributes[i].value);
    }
    size += (size_t)sprintf(to + size, "},\"controllerId\":");
    size += put(to + size, &target->id);
    size += (size_t)sprintf(to + size, ",\"name\":");
    size += put(to + size, &target->name);
    size += (size_t)sprintf(to + size, ",\"tags\":[");
    for (int i = 0; i < target->tag_count; i++) {
        if (i) to[size++] = ',';
        size += put(to + size, &target->tags[i]);
    }
    return size + (size_t)sprintf(to + size, "],\"updateStatus\":\"%s\"}", word_of(&target->id));
}

Page read_page(const char *query) {
    Page page = {0, 50, {{0}, 0}};
    for (const char *at = query; at && *at != ' '; at = strpbrk(at, "& "), at += at && *at == '&') {
        if (!strncmp(at, "offset=", 7)) page.offset = atol(at + 7);
        if (!strncmp(at, "limit=", 6)) page.limit = atol(at + 6);
        if (!strncmp(at, "q=tag==", 7)) {
            page.tag.len = strcspn(at + 7, "& ");
            memcpy(page.tag.bytes, at + 7, page.tag.len);
        }
    }
    return page;
}

void answer_page(const char *query) {
    static char body[BODY_LIMIT];
    static Target target;
    Page page = read_page(query);
    sqlite3_stmt *statement = page.tag.len ? list_targets : page_targets;
    size_t size = (size_t)sprintf(body, "{\"content\":[");
    int64_t shown = 0, total = 0;
    if (!page.tag.len) {
        sqlite3_bind_int64(page_targets, 1, page.limit);
        sqlite3_bind_int64(page_targets, 2, page.offset);
    }
    while (row_of(statement)) {
        read_target(statement, &target);
        if (page.tag.len) {
            if (!is_among(&page.tag, target.tags, target.tag_count)) continue;
            if (total++ < page.offset || shown == page.limit) continue;
        }
        if (shown++) body[size++] = ',';
        size += put_target_object(body + size, &target);
    }
    sqlite3_reset(statement);
    if (!page.tag.len) total = number_in(count_targets);
    size += (size_t)sprintf(body + size, "],\"size\":%lld,\"total\":%lld}", (long long)shown, (long long)total);
    reply("200 OK", body, size);
}
