// Devices of the server in C: what they are offered, and what they report.
#include "twin.h"

#include <stdlib.h>
#include <string.h>

enum { NOTE_LIMIT = 100, GOOD = 1, BAD = 2, SUCCEEDED = 3, FAILED = 4, REJECTED = 5 };

typedef struct { int64_t number, rollout, place, canceling, outcome, notes, entries; Text id; } Action;
// What a report finds: its rollout, its group with the one behind it, and what is said of its group.
typedef struct { Rollout rollout; Group own, next; Rule rule; } Seen;
typedef struct { Text execution, finished; char details[8 * 257]; size_t details_len; } Report;

static sqlite3_stmt *get_offer, *change_offer, *drop_offer, *get_action, *set_action, *put_feedback, *last_ended, *next_offer, *last_final;

void prepare_devices(void) {
    get_offer = prepared("SELECT action, kind FROM offer WHERE controller = ?1");
    change_offer = prepared("UPDATE offer SET action = ?3, kind = ?4 WHERE controller = ?1 AND action = ?2");
    drop_offer = prepared("DELETE FROM offer WHERE controller = ?1 AND action = ?2");
    get_action = prepared("SELECT rollout, place, controller, canceling, outcome, notes, entries FROM action WHERE number = ?1");
    set_action = prepared("UPDATE action SET canceling = ?2, outcome = ?3, notes = ?4, entries = ?5 WHERE number = ?1");
    put_feedback = prepared("INSERT INTO feedback (action, sequence, kind, word, details) VALUES (?1, ?2, ?3, ?4, ?5)");
    last_ended = prepared(
        "SELECT rollout, place, controller, canceling, outcome, notes, entries, number FROM action WHERE controller = ?1 AND outcome > 0 ORDER BY number DESC LIMIT 1");
    // of whole sets
    next_offer = prepared(
        "SELECT number, canceling FROM action WHERE controller = ?1 AND number >= ?2 AND outcome = 0 AND EXISTS (SELECT 1 FROM rollout_group WHERE rollout_group.rollout = action.rollout AND rollout_group.first_place <= action.place AND rollout_group.last_place >= action.place AND rollout_group.started = 1) ORDER BY number LIMIT 1");
    last_final = prepared("SELECT outcome FROM action WHERE controller = ?1 AND outcome > 0 ORDER BY number DESC LIMIT 1");
}

static void read_action_row(sqlite3_stmt *statement, Action *action) {
    action->rollout = sqlite3_column_int64(statement, 0);
    action->place = sqlite3_column_int64(statement, 1);
    read_column(statement, 2, &action->id);
    action->canceling = sqlite3_column_int64(statement, 3);
    action->outcome = sqlite3_column_int64(statement, 4);
    action->notes = sqlite3_column_int64(statement, 5);
    action->entries = sqlite3_column_int64(statement, 6);
}

static int read_action(int64_t number, Action *action) {
    action->number = number;
    sqlite3_bind_int64(get_action, 1, number);
    int is_there = row_of(get_action);
    if (is_there) read_action_row(get_action, action);
    sqlite3_reset(get_action);
    return is_there;
}

// ---- offers

// The action that a target is offered, or 0.
int64_t offered_action(const Text *id, int64_t *kind) {
    bind_text(get_offer, 1, id);
    int64_t action = row_of(get_offer) ? sqlite3_column_int64(get_offer, 0) : 0;
    *kind = action ? sqlite3_column_int64(get_offer, 1) : 0;
    sqlite3_reset(get_offer);
    return action;
}

static void set_offer(const Text *id, int64_t action, int64_t next, int64_t kind) {
    bind_text(change_offer, 1, id);
    sqlite3_bind_int64(change_offer, 2, action);
    sqlite3_bind_int64(change_offer, 3, next);
    sqlite3_bind_int64(change_offer, 4, kind);
    done(change_offer);
}

// The target's first open action from one on whose group is started, or 0.
static int64_t first_offered(const Text *id, int64_t from, int64_t *kind) {
    bind_text(next_offer, 1, id);
    sqlite3_bind_int64(next_offer, 2, from);
    int64_t found = row_of(next_offer) ? sqlite3_column_int64(next_offer, 0) : 0;
    *kind = found ? sqlite3_column_int64(next_offer, 1) : 0;
    sqlite3_reset(next_offer);
    return found;
}

// Looks up again what a target is offered in place of an action, if it is offered that.
static void offer_anew(const Text *id, int64_t action) {
    int64_t kind, next = first_offered(id, action, &kind);
    if (next) return set_offer(id, action, next, kind);
    bind_text(drop_offer, 1, id);
    sqlite3_bind_int64(drop_offer, 2, action);
    done(drop_offer);
}

// ---- words

// How the last action of a target ended that did and whose group is started, or 0.
static int64_t last_ending(const Text *id) {
    Action action;
    Group group;
    bind_text(last_ended, 1, id);
    int is_there = row_of(last_ended);
    if (is_there) read_action_row(last_ended, &action);
    sqlite3_reset(last_ended);
    return is_there && holding_group(action.rollout, action.place, &group) && group.started ? action.outcome : 0;
}

static int64_t last_ending_at_once(const Text *id) {
    bind_text(last_final, 1, id);
    return number_in(last_final);
}

const char *word_of(const Text *id) {
    int64_t kind;
    if (offered_action(id, &kind)) return "pending";
    int64_t outcome = at_once ? last_ending_at_once(id) : last_ending(id);
    return outcome == GOOD ? "in_sync" : outcome == BAD ? "error" : "unknown";
}

// ---- polls

// Whether a target has the id and the digest of the token in the head.
static int is_known(const Text *id, const char *head) {
    const char *field = "\r\nAuthorization: TargetToken ", *token = strcasestr(head, field);
    unsigned char digest[32], kept[32];
    Text name;
    if (!token) return 0;
    token += strlen(field);
    digest_of((const unsigned char *)token, strcspn(token, "\r"), digest);
    return find_target(id, &name, kept) && !memcmp(digest, kept, 32);
}

void answer_poll(const Text *id, const char *head) {
    char body[512];
    int64_t kind, action;
    size_t size = (size_t)sprintf(body, "{\"_links\":{");
    if (!is_known(id, head)) return refuse("401 Unauthorized", "unauthorized", 2);
    action = offered_action(id, &kind);
    const char *link = kind ? "cancelAction" : "deploymentBase";
    if (action)
        size += (size_t)sprintf(body + size, "\"%s\":{\"href\":\"/DEFAULT/controller/v1/%.*s/%s/%lld\"}", link, (int)id->len, id->bytes, link,
                                (long long)action);
    size += (size_t)sprintf(body + size, "},\"config\":{\"polling\":{\"sleep\":\"00:05:00\"}}}");
    reply("200 OK", body, size);
}

// ---- reports

static const char *read_details(const char *at, const char *end, Report *report) {
    Text line;
    at = after(at, end, '[');
    while (at && report->details_len + TEXT_LIMIT < sizeof report->details) {
        at = read_text(at, end, &line);
        if (!at) break;
        memcpy(report->details + report->details_len, line.bytes, line.len);
        report->details_len += line.len;
        report->details[report->details_len++] = '\n';
        const char *more = after(at, end, ',');
        if (!more) break;
        at = more;
    }
    return after(at, end, ']');
}

static const char *read_result(const char *at, const char *end, Report *report) {
    Text key;
    at = after(read_text(after(at, end, '{'), end, &key), end, ':');
    return at && is_key(&key, "finished") ? after(read_text(at, end, &report->finished), end, '}') : NULL;
}

static const char *read_status(const char *at, const char *end, Report *report) {
    at = after(at, end, '{');
    while (at) {
        Text key;
        at = after(read_text(at, end, &key), end, ':');
        if (!at) break;
        if (is_key(&key, "execution")) at = read_text(at, end, &report->execution);
        else if (is_key(&key, "result")) at = read_result(at, end, report);
        else at = is_key(&key, "details") ? read_details(at, end, report) : NULL;
        const char *more = at ? after(at, end, ',') : NULL;
        if (!more) break;
        at = more;
    }
    return after(at, end, '}');
}

static int read_report(const char *body, size_t len, Report *report) {
    const char *end = body + len;
    Text key;
    report->details_len = report->execution.len = report->finished.len = 0;
    const char *at = after(read_text(after(body, end, '{'), end, &key), end, ':');
    at = at && is_key(&key, "status") ? after(read_status(at, end, report), end, '}') : NULL;
    return at && skip_space(at, end) == end;
}

// The code of what is reported, or -1.
static int code_of(const Report *report) {
    const char *notes[] = {"proceeding", "scheduled", "resumed"};
    if (is_key(&report->execution, "closed")) return is_key(&report->finished, "success") ? SUCCEEDED : is_key(&report->finished, "failure") ? FAILED : -1;
    if (!is_key(&report->finished, "none")) return -1;
    for (int i = 0; i < 3; i++)
        if (is_key(&report->execution, notes[i])) return i;
    return is_key(&report->execution, "rejected") ? REJECTED : -1;
}

static void write_entry(const Action *action, int code, const Report *report) {
    bind_numbers(put_feedback, 4, (int64_t[]){action->number, action->entries, 0, code});
    sqlite3_bind_text(put_feedback, 5, report->details, (int)report->details_len, SQLITE_STATIC);
    done(put_feedback);
}

static void write_action(const Action *action) {
    bind_numbers(set_action, 5, (int64_t[]){action->number, action->canceling, action->outcome, action->notes, action->entries});
    done(set_action);
}

// Counts an outcome in its group; then the rollout may pause, or the group behind it start.
static void follow(Seen *seen, int64_t outcome) {
    Rollout *rollout = &seen->rollout;
    Group *own = &seen->own;
    int was_error = reaches(own->bad, own, seen->rule.error);
    own->ok += outcome == GOOD;
    own->bad += outcome == BAD;
    set_group(rollout->number, own);
    if (outcome == BAD && !was_error && reaches(own->bad, own, seen->rule.error)) {
        rollout->paused = 1;
        set_rollout(rollout);
    }
    int next_waits = seen->next.number && !seen->next.started;
    if (outcome == GOOD && next_waits && !rollout->paused && reaches(own->ok, own, seen->rule.success)) start_group(rollout->number, &seen->next);
}

// Writes the outcome of an action and all that follows.
static void end_action(Action *action, int64_t outcome, Seen *seen) {
    action->outcome = outcome;
    action->canceling = 0;
    write_action(action);
    offer_anew(&action->id, action->number);
    follow(seen, outcome);
}

static void give_up(const char *status, const char *name, int number) {
    done(rollback);
    refuse(status, name, number);
}

// Finds the action that is reported of, where it is the device's and its group is started.
static int find_action(const Text *id, int64_t number, Action *action, Seen *seen) {
    if (!read_action(number, action)) return 0;
    if (!read_rollout(action->rollout, &seen->rollout) || !group_and_next(action->rollout, action->place, &seen->own, &seen->next)) die("action");
    if (!read_rule(action->rollout, seen->own.number, &seen->rule)) die("rule");
    return action->id.len == id->len && !memcmp(action->id.bytes, id->bytes, id->len) && seen->own.started;
}

void answer_feedback(const Text *id, int64_t number, const char *head, const char *body, size_t len) {
    static Report report;
    Action action;
    Seen seen;
    int code = read_report(body, len, &report) ? code_of(&report) : -1;
    int64_t outcome = code == SUCCEEDED ? GOOD : code == FAILED ? BAD : 0;
    if (code < 0) return refuse("400 Bad Request", "bad_request", 1);
    done(begin);
    if (!is_known(id, head)) return give_up("401 Unauthorized", "unauthorized", 2);
    if (!find_action(id, number, &action, &seen)) return give_up("404 Not Found", "not_found", 3);
    if (action.outcome && action.outcome != outcome) return give_up("410 Gone", "closed_action", 8);
    if (!outcome && action.notes == NOTE_LIMIT) return give_up("403 Forbidden", "quota", 10);
    if (!action.outcome) {
        action.notes += !outcome;
        action.entries++;
        write_entry(&action, code, &report);
        if (outcome) end_action(&action, outcome, &seen);
        else write_action(&action);
    }
    done(commit);
    reply("200 OK", "{}", 2);
}
