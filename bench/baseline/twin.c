// The same server over the system's SQLite, for comparison: WAL, synchronous FULL, one transaction a command.
// It takes the command lines of `fwdesk run` and `fwdesk serve` and their requests, and gives the same replies.
#include "twin.h"

#include <arpa/inet.h>
#include <stdlib.h>
#include <string.h>
#include <sys/socket.h>
#include <unistd.h>

enum { HEAD_LIMIT = 8192, MODULE_LIMIT = 1000 };
enum { MODULE_ARTIFACT_LIMIT = 8, ARTIFACT_LIMIT = 256 };

typedef struct { Text name, type, version; } Label;

int at_once;
sqlite3_stmt *begin, *commit, *rollback;
static sqlite3 *db;
static int input = 0, output = 1;
static sqlite3_stmt *find_label, *last_number, *put_module, *get_module;
static sqlite3_stmt *find_artifact, *count_artifacts, *last_artifact, *put_artifact, *put_piece, *get_artifact, *get_piece;

void die(const char *what) {
    fprintf(stderr, "%s: %s\n", what, db ? sqlite3_errmsg(db) : "");
    exit(1);
}

// ---- the store

sqlite3_stmt *prepared(const char *text) {
    sqlite3_stmt *statement;
    if (sqlite3_prepare_v2(db, text, -1, &statement, NULL) != SQLITE_OK) die("prepare");
    return statement;
}

static void open_store(const char *path) {
    if (sqlite3_open(path, &db) != SQLITE_OK) die("open");
    const char *setup =
        "PRAGMA locking_mode=EXCLUSIVE; PRAGMA journal_mode=WAL; PRAGMA synchronous=FULL; BEGIN;"
        "CREATE TABLE IF NOT EXISTS desk (id INTEGER PRIMARY KEY, format TEXT NOT NULL, version INTEGER NOT NULL, approval INTEGER NOT NULL) STRICT;"
        "CREATE TABLE IF NOT EXISTS module (number INTEGER PRIMARY KEY, name TEXT NOT NULL, type TEXT NOT NULL, version TEXT NOT NULL, UNIQUE (name, type, version)) STRICT;"
        "CREATE TABLE IF NOT EXISTS dset (number INTEGER PRIMARY KEY, name TEXT NOT NULL, version TEXT NOT NULL, UNIQUE (name, version)) STRICT;"
        "CREATE TABLE IF NOT EXISTS set_module (dset INTEGER NOT NULL, place INTEGER NOT NULL, module INTEGER NOT NULL, PRIMARY KEY (dset, place), UNIQUE (module, dset)) STRICT;"
        "CREATE TABLE IF NOT EXISTS artifact (number INTEGER PRIMARY KEY, module INTEGER NOT NULL, filename TEXT NOT NULL, size INTEGER NOT NULL, sha256 BLOB NOT NULL, UNIQUE (module, filename)) STRICT;"
        "CREATE TABLE IF NOT EXISTS piece (artifact INTEGER NOT NULL, sequence INTEGER NOT NULL, bytes BLOB NOT NULL, PRIMARY KEY (artifact, sequence)) STRICT;"
        "CREATE TABLE IF NOT EXISTS target (controller TEXT NOT NULL PRIMARY KEY, name TEXT NOT NULL, digest BLOB NOT NULL) STRICT;"
        "CREATE TABLE IF NOT EXISTS target_tag (controller TEXT NOT NULL, tag TEXT NOT NULL, PRIMARY KEY (controller, tag)) STRICT;"
        "CREATE TABLE IF NOT EXISTS target_attribute (controller TEXT NOT NULL, key TEXT NOT NULL, value TEXT NOT NULL, PRIMARY KEY (controller, key)) STRICT;"
        "CREATE TABLE IF NOT EXISTS rollout (number INTEGER PRIMARY KEY, name TEXT NOT NULL UNIQUE, dset INTEGER NOT NULL, filter_text TEXT NOT NULL, groups INTEGER NOT NULL, success INTEGER NOT NULL, error INTEGER NOT NULL, approval INTEGER NOT NULL, started INTEGER NOT NULL, paused INTEGER NOT NULL) STRICT;"
        "CREATE TABLE IF NOT EXISTS member (rollout INTEGER NOT NULL, place INTEGER NOT NULL, controller TEXT NOT NULL, PRIMARY KEY (rollout, place)) STRICT;"
        "CREATE TABLE IF NOT EXISTS rollout_group (rollout INTEGER NOT NULL, number INTEGER NOT NULL, first_place INTEGER NOT NULL, last_place INTEGER NOT NULL, started INTEGER NOT NULL, ok INTEGER NOT NULL, bad INTEGER NOT NULL, gone INTEGER NOT NULL, PRIMARY KEY (rollout, number), UNIQUE (rollout, last_place), UNIQUE (rollout, started, last_place)) STRICT;"
        "CREATE TABLE IF NOT EXISTS action (number INTEGER PRIMARY KEY, rollout INTEGER NOT NULL, place INTEGER NOT NULL, controller TEXT NOT NULL, canceling INTEGER NOT NULL, outcome INTEGER NOT NULL, notes INTEGER NOT NULL, entries INTEGER NOT NULL, UNIQUE (rollout, place), UNIQUE (controller, number)) STRICT;"
        "CREATE TABLE IF NOT EXISTS feedback (action INTEGER NOT NULL, sequence INTEGER NOT NULL, kind INTEGER NOT NULL, word INTEGER NOT NULL, details TEXT NOT NULL, PRIMARY KEY (action, sequence)) STRICT;"
        "CREATE TABLE IF NOT EXISTS offer (controller TEXT NOT NULL PRIMARY KEY, action INTEGER NOT NULL, kind INTEGER NOT NULL) STRICT;"
        "CREATE TABLE IF NOT EXISTS group_rule (rollout INTEGER NOT NULL, number INTEGER NOT NULL, percentage INTEGER, success INTEGER NOT NULL, error INTEGER NOT NULL, PRIMARY KEY (rollout, number)) STRICT;"
        "CREATE TABLE IF NOT EXISTS feedback_number (action INTEGER NOT NULL, place INTEGER NOT NULL, sequence INTEGER NOT NULL, number INTEGER NOT NULL, PRIMARY KEY (action, place)) STRICT;"
        "INSERT OR IGNORE INTO desk (id, format, version, approval) VALUES (1, 'fwdesk', 3, 0);"
        "COMMIT;";
    if (sqlite3_exec(db, setup, NULL, NULL, NULL) != SQLITE_OK) die("setup");
    begin = prepared("BEGIN IMMEDIATE");
    commit = prepared("COMMIT");
    rollback = prepared("ROLLBACK");
    find_label = prepared("SELECT number FROM module WHERE name = ?1 AND type = ?2 AND version = ?3");
    last_number = prepared("SELECT number FROM module ORDER BY number DESC LIMIT 1");
    put_module = prepared("INSERT INTO module (number, name, type, version) VALUES (?1, ?2, ?3, ?4)");
    get_module = prepared("SELECT name, type, version FROM module WHERE number = ?1");
    find_artifact = prepared("SELECT number FROM artifact WHERE module = ?1 AND filename = ?2");
    count_artifacts = prepared("SELECT count(*) FROM artifact WHERE module = ?1");
    last_artifact = prepared("SELECT number FROM artifact ORDER BY number DESC LIMIT 1");
    put_artifact = prepared("INSERT INTO artifact (number, module, filename, size, sha256) VALUES (?1, ?2, ?3, ?4, ?5)");
    put_piece = prepared("INSERT INTO piece (artifact, sequence, bytes) VALUES (?1, ?2, ?3)");
    get_artifact = prepared("SELECT size FROM artifact WHERE number = ?1 AND module = ?2");
    get_piece = prepared("SELECT bytes FROM piece WHERE artifact = ?1 AND sequence = ?2");
    prepare_targets();
    prepare_rollouts();
    prepare_devices();
}

int row_of(sqlite3_stmt *statement) {
    int answer = sqlite3_step(statement);
    if (answer != SQLITE_ROW && answer != SQLITE_DONE) die("step");
    return answer == SQLITE_ROW;
}

void done(sqlite3_stmt *statement) {
    if (sqlite3_step(statement) != SQLITE_DONE) die("step");
    sqlite3_reset(statement);
}

void bind_numbers(sqlite3_stmt *statement, int count, const int64_t numbers[]) {
    for (int i = 0; i < count; i++) sqlite3_bind_int64(statement, i + 1, numbers[i]);
}

void bind_text(sqlite3_stmt *statement, int place, const Text *text) {
    sqlite3_bind_text(statement, place, text->bytes, (int)text->len, SQLITE_STATIC);
}

void read_column(sqlite3_stmt *statement, int column, Text *text) {
    const unsigned char *bytes = sqlite3_column_text(statement, column);
    text->len = (size_t)sqlite3_column_bytes(statement, column);
    if (text->len > TEXT_LIMIT) die("text");
    memcpy(text->bytes, bytes, text->len);
}

static void bind_label(sqlite3_stmt *statement, int first, const Label *label) {
    sqlite3_bind_text(statement, first, label->name.bytes, (int)label->name.len, SQLITE_STATIC);
    sqlite3_bind_text(statement, first + 1, label->type.bytes, (int)label->type.len, SQLITE_STATIC);
    sqlite3_bind_text(statement, first + 2, label->version.bytes, (int)label->version.len, SQLITE_STATIC);
}

// The new number, or the refusal's number negated.
static int64_t add_module(const Label *label) {
    done(begin);
    bind_label(find_label, 1, label);
    int exists = row_of(find_label);
    sqlite3_reset(find_label);
    int64_t last = row_of(last_number) ? sqlite3_column_int64(last_number, 0) : 0;
    sqlite3_reset(last_number);
    if (exists || last >= MODULE_LIMIT) {
        done(rollback);
        return exists ? -5 : -10;
    }
    sqlite3_bind_int64(put_module, 1, last + 1);
    bind_label(put_module, 2, label);
    done(put_module);
    done(commit);
    return last + 1;
}

// ---- SHA-256 (FIPS 180-4)

static uint32_t turned(uint32_t word, int by) { return word >> by | word << (32 - by); }

// The first 32 bits of the fractional part of a root of a prime: the square root, or the cube root.
static uint32_t root_bits(int prime, int cube) {
    long double low = 0, high = prime;
    for (int i = 0; i < 100; i++) {
        long double middle = (low + high) / 2;
        if ((cube ? middle * middle * middle : middle * middle) <= prime) low = middle;
        else high = middle;
    }
    return (uint32_t)((low - (long double)(int)low) * 4294967296.0L);
}

static uint32_t first_state[8], constants[64];

static void make_constants(void) {
    for (int prime = 2, found = 0; found < 64; prime++) {
        int is_prime = 1;
        for (int d = 2; d * d <= prime; d++) is_prime &= prime % d != 0;
        if (!is_prime) continue;
        if (found < 8) first_state[found] = root_bits(prime, 0);
        constants[found++] = root_bits(prime, 1);
    }
}

static void take_block(uint32_t state[8], const unsigned char *block) {
    uint32_t w[64], v[8];
    for (int i = 0; i < 16; i++)
        w[i] = (uint32_t)block[4 * i] << 24 | (uint32_t)block[4 * i + 1] << 16 | (uint32_t)block[4 * i + 2] << 8 | block[4 * i + 3];
    for (int i = 16; i < 64; i++) {
        uint32_t a = w[i - 15], b = w[i - 2];
        w[i] = w[i - 16] + w[i - 7] + (turned(a, 7) ^ turned(a, 18) ^ a >> 3) + (turned(b, 17) ^ turned(b, 19) ^ b >> 10);
    }
    memcpy(v, state, sizeof v);
    for (int i = 0; i < 64; i++) {
        uint32_t t = v[7] + (turned(v[4], 6) ^ turned(v[4], 11) ^ turned(v[4], 25)) + ((v[4] & v[5]) ^ (~v[4] & v[6])) + constants[i] + w[i];
        uint32_t u = (turned(v[0], 2) ^ turned(v[0], 13) ^ turned(v[0], 22)) + ((v[0] & v[1]) ^ (v[0] & v[2]) ^ (v[1] & v[2]));
        memmove(v + 1, v, 7 * sizeof *v);
        v[4] += t;
        v[0] = t + u;
    }
    for (int i = 0; i < 8; i++) state[i] += v[i];
}

void digest_of(const unsigned char *bytes, size_t len, unsigned char digest[32]) {
    uint32_t state[8];
    unsigned char last[128] = {0};
    size_t whole = len / 64 * 64, rest = len - whole, size = rest < 56 ? 64 : 128;
    memcpy(state, first_state, sizeof state);
    for (size_t at = 0; at < whole; at += 64) take_block(state, bytes + at);
    memcpy(last, bytes + whole, rest);
    last[rest] = 0x80;
    for (int i = 0; i < 8; i++) last[size - 1 - i] = (unsigned char)((uint64_t)len * 8 >> 8 * i);
    for (size_t at = 0; at < size; at += 64) take_block(state, last + at);
    for (int i = 0; i < 32; i++) digest[i] = (unsigned char)(state[i / 4] >> (24 - 8 * (i % 4)));
}

// ---- artifacts

int64_t number_in(sqlite3_stmt *statement) {
    int64_t number = row_of(statement) ? sqlite3_column_int64(statement, 0) : 0;
    sqlite3_reset(statement);
    return number;
}

static int has_module(int64_t module) {
    sqlite3_bind_int64(get_module, 1, module);
    int is_there = row_of(get_module);
    sqlite3_reset(get_module);
    return is_there;
}

// The refusal's number, or 0 where the module takes the file.
static int artifact_refusal(int64_t module, const char *name, size_t name_len, int64_t last) {
    if (!has_module(module)) return 3;
    sqlite3_bind_int64(find_artifact, 1, module);
    sqlite3_bind_text(find_artifact, 2, name, (int)name_len, SQLITE_STATIC);
    if (number_in(find_artifact)) return 5;
    sqlite3_bind_int64(count_artifacts, 1, module);
    return number_in(count_artifacts) >= MODULE_ARTIFACT_LIMIT || last >= ARTIFACT_LIMIT ? 10 : 0;
}

// The new number, or the refusal's number negated.
static int64_t add_artifact(int64_t module, const char *name, size_t name_len, const char *bytes, size_t len, unsigned char digest[32]) {
    done(begin);
    int64_t number = number_in(last_artifact) + 1;
    int refusal = artifact_refusal(module, name, name_len, number - 1);
    if (refusal) {
        done(rollback);
        return -refusal;
    }
    digest_of((const unsigned char *)bytes, len, digest);
    sqlite3_bind_int64(put_artifact, 1, number);
    sqlite3_bind_int64(put_artifact, 2, module);
    sqlite3_bind_text(put_artifact, 3, name, (int)name_len, SQLITE_STATIC);
    sqlite3_bind_int64(put_artifact, 4, (int64_t)len);
    sqlite3_bind_blob(put_artifact, 5, digest, 32, SQLITE_STATIC);
    done(put_artifact);
    for (size_t at = 0; at < len; at += PIECE_LENGTH) {
        sqlite3_bind_int64(put_piece, 1, number);
        sqlite3_bind_int64(put_piece, 2, (int64_t)(at / PIECE_LENGTH) + 1);
        sqlite3_bind_blob(put_piece, 3, bytes + at, (int)(len - at < PIECE_LENGTH ? len - at : PIECE_LENGTH), SQLITE_STATIC);
        done(put_piece);
    }
    done(commit);
    return number;
}

// ---- JSON

const char *skip_space(const char *at, const char *end) {
    while (at < end && (*at == ' ' || *at == '\t' || *at == '\r' || *at == '\n')) at++;
    return at;
}

// What follows the byte, or NULL.
const char *after(const char *at, const char *end, char byte) {
    if (!at) return NULL;
    at = skip_space(at, end);
    return at < end && *at == byte ? at + 1 : NULL;
}

const char *read_text(const char *at, const char *end, Text *text) {
    at = after(at, end, '"');
    text->len = 0;
    while (at && at < end && *at != '"') {
        char byte = *at++;
        if (byte == '\\') {
            if (at == end || (*at != '"' && *at != '\\' && *at != '/')) return NULL;
            byte = *at++;
        }
        if ((unsigned char)byte < 32 || byte == 127 || text->len == TEXT_LIMIT) return NULL;
        text->bytes[text->len++] = byte;
    }
    return at && at < end ? at + 1 : NULL;
}

const char *read_number(const char *at, const char *end, int64_t *number) {
    const char *first = at = at ? skip_space(at, end) : end;
    for (*number = 0; at < end && *at >= '0' && *at <= '9' && *number < 1LL << 31; at++) *number = 10 * *number + (*at - '0');
    return at > first ? at : NULL;
}

int is_key(const Text *key, const char *name) { return key->len == strlen(name) && !memcmp(key->bytes, name, key->len); }

static Text *member_of(Label *label, const Text *key) {
    if (key->len == 4 && !memcmp(key->bytes, "name", 4)) return &label->name;
    if (key->len == 4 && !memcmp(key->bytes, "type", 4)) return &label->type;
    if (key->len == 7 && !memcmp(key->bytes, "version", 7)) return &label->version;
    return NULL;
}

// Whether the body is an array of one object with the three texts, in any order.
static int read_label(const char *body, size_t len, Label *label) {
    const char *end = body + len, *at = after(after(body, end, '['), end, '{');
    memset(label, 0, sizeof *label);
    while (at) {
        Text key;
        at = after(read_text(at, end, &key), end, ':');
        Text *member = at ? member_of(label, &key) : NULL;
        at = member ? read_text(at, end, member) : NULL;
        const char *more = at ? after(at, end, ',') : NULL;
        if (!more) break;
        at = more;
    }
    at = after(after(at, end, '}'), end, ']');
    return at && skip_space(at, end) == end && label->name.len && label->type.len && label->version.len;
}

size_t put_text(char *to, const char *bytes, size_t len) {
    size_t size = 0;
    to[size++] = '"';
    for (size_t i = 0; i < len; i++) {
        if (bytes[i] == '"' || bytes[i] == '\\') to[size++] = '\\';
        to[size++] = bytes[i];
    }
    to[size++] = '"';
    return size;
}

static size_t put_module_object(char *to, int64_t number, const char *texts[3], const size_t lens[3]) {
    size_t size = (size_t)sprintf(to, "{\"id\":%lld,\"locked\":false,\"name\":", (long long)number);
    size += put_text(to + size, texts[0], lens[0]);
    size += (size_t)sprintf(to + size, ",\"type\":");
    size += put_text(to + size, texts[1], lens[1]);
    size += (size_t)sprintf(to + size, ",\"version\":");
    size += put_text(to + size, texts[2], lens[2]);
    to[size++] = '}';
    return size;
}

// ---- messages

static void send_all(const char *bytes, size_t len) {
    while (len) {
        ssize_t count = write(output, bytes, len);
        if (count <= 0) die("write");
        bytes += count;
        len -= (size_t)count;
    }
}

void reply_as(const char *type, const char *status, const char *body, size_t len) {
    static char text[BODY_LIMIT];
    size_t size = (size_t)sprintf(text, "HTTP/1.1 %s\r\nContent-Type: %s\r\nContent-Length: %zu\r\n\r\n", status, type, len);
    memcpy(text + size, body, len);
    send_all(text, size + len);
}

void reply(const char *status, const char *body, size_t len) { reply_as("application/json", status, body, len); }

void refuse(const char *status, const char *name, int number) {
    char body[128];
    reply(status, body, (size_t)sprintf(body, "{\"error\":\"%s\",\"number\":%d}", name, number));
}

static void answer_post(const char *body, size_t len) {
    Label label;
    if (!read_label(body, len, &label)) return refuse("400 Bad Request", "bad_request", 1);
    int64_t number = add_module(&label);
    if (number == -5) return refuse("409 Conflict", "exists", 5);
    if (number == -10) return refuse("403 Forbidden", "quota", 10);
    char text[2048];
    const char *texts[3] = {label.name.bytes, label.type.bytes, label.version.bytes};
    const size_t lens[3] = {label.name.len, label.type.len, label.version.len};
    text[0] = '[';
    size_t size = 1 + put_module_object(text + 1, number, texts, lens);
    text[size++] = ']';
    reply("201 Created", text, size);
}

static void answer_get(int64_t number) {
    sqlite3_bind_int64(get_module, 1, number);
    if (row_of(get_module)) {
        char text[2048];
        const char *texts[3];
        size_t lens[3];
        for (int i = 0; i < 3; i++) {
            texts[i] = (const char *)sqlite3_column_text(get_module, i);
            lens[i] = (size_t)sqlite3_column_bytes(get_module, i);
        }
        reply("200 OK", text, put_module_object(text, number, texts, lens));
    } else {
        refuse("404 Not Found", "not_found", 3);
    }
    sqlite3_reset(get_module);
}

static void answer_upload(int64_t module, const char *name, const char *body, size_t len) {
    unsigned char digest[32];
    size_t name_len = strcspn(name, " &");
    if (name_len == 0 || name_len > TEXT_LIMIT) return refuse("400 Bad Request", "bad_request", 1);
    int64_t number = add_artifact(module, name, name_len, body, len, digest);
    if (number == -3) return refuse("404 Not Found", "not_found", 3);
    if (number == -5) return refuse("409 Conflict", "exists", 5);
    if (number == -10) return refuse("403 Forbidden", "quota", 10);
    char text[512], digits[65];
    for (int i = 0; i < 32; i++) sprintf(digits + 2 * i, "%02x", digest[i]);
    int size = sprintf(text, "{\"hashes\":{\"sha256\":\"%s\"},\"id\":%lld,\"providedFilename\":\"%.*s\",\"size\":%zu}",
                       digits, (long long)number, (int)name_len, name, len);
    reply("201 Created", text, (size_t)size);
}

static void answer_download(int64_t module, int64_t number) {
    static char contents[BODY_LIMIT];
    char head[128];
    sqlite3_bind_int64(get_artifact, 1, number);
    sqlite3_bind_int64(get_artifact, 2, module);
    int is_there = row_of(get_artifact);
    size_t size = is_there ? (size_t)sqlite3_column_int64(get_artifact, 0) : 0;
    sqlite3_reset(get_artifact);
    if (!is_there) return refuse("404 Not Found", "not_found", 3);
    for (size_t at = 0; at < size;) {
        sqlite3_bind_int64(get_piece, 1, number);
        sqlite3_bind_int64(get_piece, 2, (int64_t)(at / PIECE_LENGTH) + 1);
        if (!row_of(get_piece)) die("piece");
        size_t len = (size_t)sqlite3_column_bytes(get_piece, 0);
        memcpy(contents + at, sqlite3_column_blob(get_piece, 0), len);
        sqlite3_reset(get_piece);
        at += len;
    }
    send_all(head, (size_t)sprintf(head, "HTTP/1.1 200 OK\r\nContent-Type: application/octet-stream\r\nContent-Length: %zu\r\n\r\n", size));
    send_all(contents, size);
}

static int begins(const char *head, const char *start) { return !strncmp(head, start, strlen(start)); }

// Answers a device, whose path begins behind the interface's.
static void answer_device(const char *path, const char *head, const char *body, size_t len) {
    const char *feedback = "/deploymentBase/";
    Text id;
    id.len = strcspn(path, "/ ");
    if (id.len > 64) return refuse("404 Not Found", "not_found", 3);
    memcpy(id.bytes, path, id.len);
    path += id.len;
    if (begins(head, "GET ") && *path == ' ') return answer_poll(&id, head);
    if (begins(head, "POST ") && begins(path, feedback)) return answer_feedback(&id, atoll(path + strlen(feedback)), head, body, len);
    refuse("404 Not Found", "not_found", 3);
}

static void answer_rollout(const char *head) {
    long long number, group;
    int at = 0;
    if (sscanf(head, "POST /rest/v1/rollouts/%lld/start HTTP/1.1%n", &number, &at) == 1 && at) return answer_start(number);
    if (sscanf(head, "GET /rest/v1/rollouts/%lld/deploygroups/%lld/targets?%n", &number, &group, &at) == 2 && at)
        return answer_group_targets(number, group, head + at);
    if (sscanf(head, "GET /rest/v1/rollouts/%lld/deploygroups%n", &number, &at) == 1 && at && strchr("? ", head[at]))
        return answer_groups(number, head + at + (head[at] == '?'));
    if (sscanf(head, "GET /desk/v1/rollouts/%lld/report%n", &number, &at) == 1 && at) return answer_report(number);
    if (sscanf(head, "GET /desk/v1/rollouts/%lld/actions%n", &number, &at) == 1 && at) return answer_actions(number);
    refuse("404 Not Found", "not_found", 3);
}

static void answer_module(const char *head, const char *body, size_t len) {
    const char *get = "GET /rest/v1/softwaremodules/";
    long long module, number;
    int at = 0;
    if (sscanf(head, "POST /rest/v1/softwaremodules/%lld/artifacts?filename=%n", &module, &at) == 1 && at)
        return answer_upload(module, head + at, body, len);
    if (sscanf(head, "GET /rest/v1/softwaremodules/%lld/artifacts/%lld/download HTTP/1.1%n", &module, &number, &at) == 2 && at)
        return answer_download(module, number);
    if (begins(head, get)) return answer_get(atoll(head + strlen(get)));
    refuse("404 Not Found", "not_found", 3);
}

static void answer(const char *head, const char *body, size_t len) {
    const char *device = "/DEFAULT/controller/v1/", *page = "GET /rest/v1/targets?";
    const char *path = head + strcspn(head, " ") + 1;
    if (begins(path, device)) return answer_device(path + strlen(device), head, body, len);
    if (begins(head, "POST /rest/v1/rollouts HTTP/1.1\r\n")) return answer_create(body, len);
    if (begins(path, "/rest/v1/rollouts/") || begins(path, "/desk/v1/rollouts/")) return answer_rollout(head);
    if (begins(head, "POST /rest/v1/targets HTTP/1.1\r\n")) return answer_put(body, len);
    if (begins(head, "POST /desk/v1/import HTTP/1.1\r\n")) return answer_import(body, len);
    if (begins(head, page)) return answer_page(head + strlen(page));
    if (begins(head, "POST /rest/v1/softwaremodules HTTP/1.1\r\n")) return answer_post(body, len);
    answer_module(head, body, len);
}

// The number of bytes that the first message takes, or 0 where it isn't whole. While it is answered its head ends in a zero.
static size_t answer_first(char *bytes, size_t len) {
    char *end = memmem(bytes, len < HEAD_LIMIT ? len : HEAD_LIMIT, "\r\n\r\n", 4);
    if (!end) return 0;
    size_t head = (size_t)(end - bytes) + 4, body = 0;
    char kept = end[2];
    end[2] = 0;
    char *field = strcasestr(bytes, "\r\nContent-Length:");
    if (field) body = strtoul(field + 17, NULL, 10);
    int is_whole = body <= BODY_LIMIT && len - head >= body;
    if (is_whole) answer(bytes, bytes + head, body);
    end[2] = kept;
    return is_whole ? head + body : 0;
}

// Answers the messages of the input until it ends.
static void serve(void) {
    static char bytes[HEAD_LIMIT + BODY_LIMIT + 65536];
    size_t len = 0;
    for (;;) {
        ssize_t got = read(input, bytes + len, 65536);
        if (got <= 0) break;
        len += (size_t)got;
        size_t at = 0, taken;
        while ((taken = answer_first(bytes + at, len - at))) at += taken;
        memmove(bytes, bytes + at, len -= at);
    }
}

// Serves so many connections to a port of 127.0.0.1, one after the other.
static void serve_port(int port, int connections) {
    struct sockaddr_in address = {.sin_family = AF_INET, .sin_port = htons((uint16_t)port), .sin_addr.s_addr = htonl(INADDR_LOOPBACK)};
    int listener = socket(AF_INET, SOCK_STREAM, 0), yes = 1;
    setsockopt(listener, SOL_SOCKET, SO_REUSEADDR, &yes, sizeof yes);
    if (bind(listener, (struct sockaddr *)&address, sizeof address) || listen(listener, 16)) die("listen");
    for (int i = 0; i < connections; i++) {
        input = output = accept(listener, NULL, NULL);
        serve();
        close(input);
    }
}

int main(int count, char **words) {
    const char *path = NULL, *port = NULL, *connections = "1";
    for (int i = 1; i < count; i++) {
        if (!strcmp(words[i], "--at-once")) at_once = 1;
        if (!strcmp(words[i], "--db") && i + 1 < count) path = words[i + 1];
        if (!strcmp(words[i], "--port") && i + 1 < count) port = words[i + 1];
        if (!strcmp(words[i], "--connections") && i + 1 < count) connections = words[i + 1];
    }
    if (!path) die("run --db PATH --interface mgmt");
    make_constants();
    open_store(path);
    if (port) serve_port(atoi(port), atoi(connections));
    else serve();
    for (sqlite3_stmt *statement; (statement = sqlite3_next_stmt(db, NULL));) sqlite3_finalize(statement);
    return sqlite3_close(db) != SQLITE_OK;
}
