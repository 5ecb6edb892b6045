// Rollouts of the server in C: creating and starting them, the targets of a group, reports and tables of actions.
#include "twin.h"

#include <stdlib.h>
#include <string.h>

enum { ROLLOUT_LIMIT = 1000 };

typedef struct { Text name, filter; int64_t set, groups, success, error; Rule rules[GROUP_LIMIT]; } Plan;

static sqlite3_stmt *find_rollout, *last_rollout, *get_rollout, *add_rollout, *change_rollout, *last_set, *get_desk;
static sqlite3_stmt *put_member, *list_members, *put_group, *get_group, *list_groups, *find_group, *find_group_and_next, *change_group;
static sqlite3_stmt *put_rule, *get_rule, *list_rules;
static sqlite3_stmt *last_action, *put_action, *list_actions, *put_actions, *list_places, *put_group_offers;
static Text members[TARGET_LIMIT];
static int member_count;

void prepare_rollouts(void) {
    find_rollout = prepared("SELECT number FROM rollout WHERE name = ?1");
    last_rollout = prepared("SELECT number FROM rollout ORDER BY number DESC LIMIT 1");
    get_rollout = prepared("SELECT name, dset, filter_text, groups, success, error, approval, started, paused FROM rollout WHERE number = ?1");
    add_rollout = prepared(
        "INSERT INTO rollout (number, name, dset, filter_text, groups, success, error, approval, started, paused) VALUES (?1, ?2, ?3, ?4, ?5, ?6, ?7, ?8, 0, 0)");
    change_rollout = prepared("UPDATE rollout SET approval = ?2, started = ?3, paused = ?4 WHERE number = ?1");
    last_set = prepared("SELECT number FROM dset ORDER BY number DESC LIMIT 1");
    get_desk = prepared("SELECT approval FROM desk WHERE id = 1");
    put_member = prepared("INSERT INTO member (rollout, place, controller) VALUES (?1, ?2, ?3)");
    list_members = prepared("SELECT controller FROM member WHERE rollout = ?1 AND place > ?2 ORDER BY place LIMIT ?3");
    put_group = prepared("INSERT INTO rollout_group (rollout, number, first_place, last_place, started, ok, bad, gone) VALUES (?1, ?2, ?3, ?4, 0, 0, 0, 0)");
    get_group = prepared("SELECT number, first_place, last_place, started, ok, bad, gone FROM rollout_group WHERE rollout = ?1 AND number = ?2");
    list_groups = prepared("SELECT number, first_place, last_place, started, ok, bad, gone FROM rollout_group WHERE rollout = ?1 ORDER BY number");
    find_group = prepared(
        "SELECT number, first_place, last_place, started, ok, bad, gone FROM rollout_group WHERE rollout = ?1 AND first_place <= ?2 AND last_place >= ?2 ORDER BY number");
    find_group_and_next = prepared(
        "SELECT number, first_place, last_place, started, ok, bad, gone FROM rollout_group WHERE rollout = ?1 AND last_place >= ?2 ORDER BY number LIMIT 2");
    change_group = prepared("UPDATE rollout_group SET started = ?3, ok = ?4, bad = ?5, gone = ?6 WHERE rollout = ?1 AND number = ?2");
    put_rule = prepared("INSERT INTO group_rule (rollout, number, percentage, success, error) VALUES (?1, ?2, ?3, ?4, ?5)");
    get_rule = prepared("SELECT percentage, success, error FROM group_rule WHERE rollout = ?1 AND number = ?2");
    list_rules = prepared("SELECT percentage, success, error FROM group_rule WHERE rollout = ?1 ORDER BY number");
    last_action = prepared("SELECT number FROM action ORDER BY number DESC LIMIT 1");
    put_action = prepared("INSERT INTO action (number, rollout, place, controller, canceling, outcome, notes, entries) VALUES (?1, ?2, ?3, ?4, 0, 0, 0, 0)");
    list_actions = prepared(
        "SELECT rollout, place, controller, canceling, outcome, notes, entries, number FROM action WHERE rollout = ?1 ORDER BY number LIMIT ?2 OFFSET ?3");
    // of whole sets
    put_actions = prepared(
        "INSERT INTO action (number, rollout, place, controller, canceling, outcome, notes, entries) SELECT ?1 + place, rollout, place, controller, 0, 0, 0, 0 FROM member WHERE rollout = ?2 ORDER BY place");
    list_places = prepared("SELECT place, controller, canceling, outcome, number FROM action WHERE rollout = ?1 AND place BETWEEN ?2 AND ?3 ORDER BY place");
    put_group_offers = prepared(
        "INSERT INTO offer (controller, action, kind) SELECT controller, number, 0 FROM action WHERE rollout = ?1 AND place BETWEEN ?2 AND ?3 ORDER BY number ON CONFLICT (controller) DO UPDATE SET action = excluded.action, kind = excluded.kind WHERE excluded.action < offer.action");
}

// ---- rows

static void read_group_row(sqlite3_stmt *statement, Group *group) {
    group->number = sqlite3_column_int64(statement, 0);
    group->first = sqlite3_column_int64(statement, 1);
    group->last = sqlite3_column_int64(statement, 2);
    group->started = sqlite3_column_int64(statement, 3);
    group->ok = sqlite3_column_int64(statement, 4);
    group->bad = sqlite3_column_int64(statement, 5);
    group->gone = sqlite3_column_int64(statement, 6);
}

static int one_group(sqlite3_stmt *statement, int64_t rollout, int64_t number, Group *group) {
    bind_numbers(statement, 2, (int64_t[]){rollout, number});
    int is_there = row_of(statement);
    if (is_there) read_group_row(statement, group);
    sqlite3_reset(statement);
    return is_there;
}

int read_group(int64_t rollout, int64_t number, Group *group) { return one_group(get_group, rollout, number, group); }

int holding_group(int64_t rollout, int64_t place, Group *group) { return one_group(find_group, rollout, place, group); }

int group_and_next(int64_t rollout, int64_t place, Group *group, Group *next) {
    bind_numbers(find_group_and_next, 2, (int64_t[]){rollout, place});
    int is_there = row_of(find_group_and_next);
    next->number = 0;
    if (is_there) {
        read_group_row(find_group_and_next, group);
        if (row_of(find_group_and_next)) read_group_row(find_group_and_next, next);
    }
    sqlite3_reset(find_group_and_next);
    return is_there && group->first <= place;
}

static void read_rule_row(sqlite3_stmt *statement, Rule *rule) {
    rule->percentage = sqlite3_column_int64(statement, 0);
    rule->success = sqlite3_column_int64(statement, 1);
    rule->error = sqlite3_column_int64(statement, 2);
}

int read_rule(int64_t rollout, int64_t group, Rule *rule) {
    bind_numbers(get_rule, 2, (int64_t[]){rollout, group});
    int is_there = row_of(get_rule);
    if (is_there) read_rule_row(get_rule, rule);
    sqlite3_reset(get_rule);
    return is_there;
}

// What is said of so many groups of a rollout, which are all that it has.
static void read_rules(int64_t rollout, int count, Rule rules[GROUP_LIMIT]) {
    int read = 0;
    sqlite3_bind_int64(list_rules, 1, rollout);
    while (row_of(list_rules)) {
        if (read == count) die("rules");
        read_rule_row(list_rules, &rules[read++]);
    }
    sqlite3_reset(list_rules);
    if (read != count) die("rules");
}

int read_groups(int64_t rollout, Group groups[GROUP_LIMIT]) {
    int count = 0;
    sqlite3_bind_int64(list_groups, 1, rollout);
    while (row_of(list_groups)) {
        if (count == GROUP_LIMIT) die("groups");
        read_group_row(list_groups, &groups[count++]);
    }
    sqlite3_reset(list_groups);
    return count;
}

int read_rollout(int64_t number, Rollout *rollout) {
    sqlite3_bind_int64(get_rollout, 1, number);
    int is_there = row_of(get_rollout);
    if (is_there) {
        rollout->number = number;
        read_column(get_rollout, 0, &rollout->name);
        rollout->groups = sqlite3_column_int64(get_rollout, 3);
        rollout->success = sqlite3_column_int64(get_rollout, 4);
        rollout->error = sqlite3_column_int64(get_rollout, 5);
        rollout->approval = sqlite3_column_int64(get_rollout, 6);
        rollout->started = sqlite3_column_int64(get_rollout, 7);
        rollout->paused = sqlite3_column_int64(get_rollout, 8);
    }
    sqlite3_reset(get_rollout);
    return is_there;
}

void set_rollout(const Rollout *rollout) {
    bind_numbers(change_rollout, 4, (int64_t[]){rollout->number, rollout->approval, rollout->started, rollout->paused});
    done(change_rollout);
}

void set_group(int64_t rollout, const Group *group) {
    bind_numbers(change_group, 6, (int64_t[]){rollout, group->number, group->started, group->ok, group->bad, group->gone});
    done(change_group);
}

static int64_t size_of(const Group *group) { return group->last + 1 - group->first; }

int reaches(int64_t count, const Group *group, int64_t percent) { return percent * size_of(group) <= 100 * count; }

// ---- starting a group

void start_group(int64_t rollout, Group *group) {
    group->started = 1;
    set_group(rollout, group);
    bind_numbers(put_group_offers, 3, (int64_t[]){rollout, group->first, group->last});
    done(put_group_offers);
}

// ---- creating

static const char *read_condition(const char *at, const char *end, int64_t *percent) {
    at = after(at, end, '{');
    while (at) {
        Text key, value;
        at = read_text(after(read_text(at, end, &key), end, ':'), end, &value);
        if (!at) break;
        value.bytes[value.len] = 0;
        if (is_key(&key, "expression")) *percent = atoll(value.bytes);
        const char *more = after(at, end, ',');
        if (!more) break;
        at = more;
    }
    return after(at, end, '}');
}

// A group of the array: its conditions are 0 where it has none.
static const char *read_group_object(const char *at, const char *end, Rule *rule) {
    at = after(at, end, '{');
    while (at) {
        Text key;
        at = after(read_text(at, end, &key), end, ':');
        if (!at) break;
        if (is_key(&key, "targetPercentage")) at = read_number(at, end, &rule->percentage);
        else at = read_condition(at, end, is_key(&key, "successCondition") ? &rule->success : &rule->error);
        const char *more = at ? after(at, end, ',') : NULL;
        if (!more) break;
        at = more;
    }
    return after(at, end, '}');
}

static const char *read_group_array(const char *at, const char *end, Plan *plan) {
    at = after(at, end, '[');
    while (at && plan->groups < GROUP_LIMIT) {
        Rule *rule = &plan->rules[plan->groups++];
        at = read_group_object(at, end, rule);
        if (rule->percentage < 1 || rule->percentage > 100) return NULL;
        const char *more = at ? after(at, end, ',') : NULL;
        if (!more) break;
        at = more;
    }
    return after(at, end, ']');
}

// The rollout's thresholds for the groups that have none of their own.
static void fill_rules(Plan *plan) {
    for (int i = 0; i < plan->groups; i++) {
        Rule *rule = &plan->rules[i];
        if (!rule->success) rule->success = plan->success;
        if (!rule->error) rule->error = plan->error;
    }
}

static int read_plan(const char *body, size_t len, Plan *plan) {
    const char *end = body + len, *at = after(body, end, '{');
    memset(plan, 0, sizeof *plan);
    while (at) {
        Text key;
        at = after(read_text(at, end, &key), end, ':');
        if (!at) break;
        if (is_key(&key, "name")) at = read_text(at, end, &plan->name);
        else if (is_key(&key, "targetFilterQuery")) at = read_text(at, end, &plan->filter);
        else if (is_key(&key, "distributionSetId")) at = read_number(at, end, &plan->set);
        else if (is_key(&key, "amountGroups")) at = read_number(at, end, &plan->groups);
        else if (is_key(&key, "groups")) at = read_group_array(at, end, plan);
        else at = read_condition(at, end, is_key(&key, "successCondition") ? &plan->success : &plan->error);
        const char *more = at ? after(at, end, ',') : NULL;
        if (!more) break;
        at = more;
    }
    at = after(at, end, '}');
    if (!at || skip_space(at, end) != end || !plan->name.len || plan->groups < 1 || plan->groups > GROUP_LIMIT) return 0;
    fill_rules(plan);
    return !plan->rules[0].percentage || plan->rules[plan->groups - 1].percentage == 100;
}

// The one filter that is known here, "name==*", takes each target, whose tags and attributes are read for it nevertheless.
static void add_member(const Target *target) {
    if (member_count == TARGET_LIMIT) die("members");
    members[member_count++] = target->id;
}

static void write_members(int64_t rollout) {
    for (int i = 0; i < member_count; i++) {
        bind_numbers(put_member, 2, (int64_t[]){rollout, i + 1});
        bind_text(put_member, 3, &members[i]);
        done(put_member);
    }
}

// The last place of a group of this number, where the one before it ends at this place.
static int64_t last_place(const Plan *plan, int64_t number, int64_t before) {
    int64_t percentage = plan->rules[number - 1].percentage;
    return percentage ? before + ((member_count - before) * percentage + 99) / 100 : number * member_count / plan->groups;
}

static int leaves_empty(const Plan *plan) {
    int64_t before = 0;
    for (int64_t i = 1; i <= plan->groups; i++) {
        int64_t last = last_place(plan, i, before);
        if (last == before) return 1;
        before = last;
    }
    return 0;
}

static void write_rule(int64_t rollout, int64_t group, const Rule *rule) {
    bind_numbers(put_rule, 5, (int64_t[]){rollout, group, rule->percentage, rule->success, rule->error});
    if (!rule->percentage) sqlite3_bind_null(put_rule, 3);
    done(put_rule);
}

static void write_rollout(int64_t number, const Plan *plan) {
    int64_t before = 0;
    bind_numbers(add_rollout, 8, (int64_t[]){number, 0, plan->set, 0, plan->groups, plan->success, plan->error, 1});
    bind_text(add_rollout, 2, &plan->name);
    bind_text(add_rollout, 4, &plan->filter);
    done(add_rollout);
    for (int64_t i = 1; i <= plan->groups; i++) {
        int64_t last = last_place(plan, i, before);
        bind_numbers(put_group, 4, (int64_t[]){number, i, before + 1, last});
        done(put_group);
        write_rule(number, i, &plan->rules[i - 1]);
        before = last;
    }
    write_members(number);
}

static void give_up(const char *status, const char *name, int number) {
    done(rollback);
    refuse(status, name, number);
}

void answer_create(const char *body, size_t len) {
    Plan plan;
    char text[1024];
    if (!read_plan(body, len, &plan)) return refuse("400 Bad Request", "bad_request", 1);
    if (!is_key(&plan.filter, "name==*")) return refuse("400 Bad Request", "filter", 11);
    done(begin);
    member_count = 0;
    number_of_targets();
    each_target(add_member);
    if (plan.set > number_in(last_set)) return give_up("404 Not Found", "not_found", 3);
    bind_text(find_rollout, 1, &plan.name);
    if (number_in(find_rollout)) return give_up("409 Conflict", "exists", 5);
    if (leaves_empty(&plan)) return give_up("400 Bad Request", "too_few_targets", 12);
    int64_t number = number_in(last_rollout) + 1;
    if (number > ROLLOUT_LIMIT) return give_up("403 Forbidden", "quota", 10);
    if (number_in(get_desk)) die("approval");
    write_rollout(number, &plan);
    done(commit);
    size_t size = (size_t)sprintf(text, "{\"distributionSetId\":%lld,\"id\":%lld,\"name\":", (long long)plan.set, (long long)number);
    size += put_text(text + size, plan.name.bytes, plan.name.len);
    size += (size_t)sprintf(text + size, ",\"status\":\"ready\",\"targetFilterQuery\":");
    size += put_text(text + size, plan.filter.bytes, plan.filter.len);
    size += (size_t)sprintf(text + size, ",\"totalGroups\":%lld,\"totalTargets\":%d}", (long long)plan.groups, member_count);
    reply("201 Created", text, size);
}

// ---- starting

static void read_members(int64_t rollout) {
    bind_numbers(list_members, 3, (int64_t[]){rollout, 0, TARGET_LIMIT});
    for (member_count = 0; row_of(list_members);) read_column(list_members, 0, &members[member_count++]);
    sqlite3_reset(list_members);
}

static void write_actions(int64_t rollout, int64_t last) {
    read_members(rollout);
    for (int i = 0; i < member_count; i++) {
        bind_numbers(put_action, 3, (int64_t[]){last + i + 1, rollout, i + 1});
        bind_text(put_action, 4, &members[i]);
        done(put_action);
    }
}

static void write_actions_at_once(int64_t rollout, int64_t last) {
    bind_numbers(put_actions, 2, (int64_t[]){last, rollout});
    done(put_actions);
}

void answer_start(int64_t number) {
    static Group groups[GROUP_LIMIT];
    Rollout rollout;
    done(begin);
    if (!read_rollout(number, &rollout)) return give_up("404 Not Found", "not_found", 3);
    read_groups(number, groups);
    if (rollout.started || rollout.approval != 1) return give_up("409 Conflict", "wrong_state", 7);
    int64_t last = number_in(last_action);
    rollout.started = 1;
    set_rollout(&rollout);
    if (at_once) write_actions_at_once(number, last);
    else write_actions(number, last);
    start_group(number, &groups[0]);
    done(commit);
    reply("200 OK", "{}", 2);
}

// ---- pages, reports and tables

void answer_group_targets(int64_t rollout, int64_t number, const char *query) {
    static char body[BODY_LIMIT];
    static Target target;
    unsigned char digest[32];
    Page page = read_page(query);
    Group group;
    int shown = 0;
    if (!read_group(rollout, number, &group)) return refuse("404 Not Found", "not_found", 3);
    int64_t total = size_of(&group), left = total - page.offset, before = group.first - 1 + page.offset;
    if (left < 0) left = 0;
    if (left > page.limit) left = page.limit;
    bind_numbers(list_members, 3, (int64_t[]){rollout, before, left});
    size_t size = (size_t)sprintf(body, "{\"content\":[");
    while (row_of(list_members)) {
        read_column(list_members, 0, &target.id);
        if (!find_target(&target.id, &target.name, digest)) die("target");
        fill_target(&target);
        if (shown++) body[size++] = ',';
        size += put_target_object(body + size, &target);
    }
    sqlite3_reset(list_members);
    size += (size_t)sprintf(body + size, "],\"size\":%d,\"total\":%lld}", shown, (long long)total);
    reply("200 OK", body, size);
}

static int is_over(const Group *group) { return group->ok + group->bad + group->gone == size_of(group); }

static const char *group_word(const Rollout *rollout, const Group *group, const Rule *rule) {
    if (!rollout->started) return "ready";
    if (!group->started) return "scheduled";
    if (is_over(group)) return "finished";
    return reaches(group->bad, group, rule->error) ? "error" : "running";
}

static const char *rollout_word(const Rollout *rollout, const Group *groups, int count) {
    int over = 1;
    for (int i = 0; i < count; i++) over &= groups[i].started && is_over(&groups[i]);
    return !rollout->started ? "ready" : over ? "finished" : rollout->paused ? "paused" : "running";
}

static size_t put_counts(char *to, const int64_t counts[4], const char *word) {
    return (size_t)sprintf(to, "%6lld%6lld%6lld%6lld%6lld %s\n", (long long)counts[0], (long long)counts[1], (long long)counts[2], (long long)counts[3],
                           (long long)(counts[0] - counts[1] - counts[2] - counts[3]), word);
}

static size_t put_group_object(char *to, const Rollout *rollout, const Group *group, const Rule *rule) {
    return (size_t)sprintf(to, "{\"bad\":%lld,\"error\":%lld,\"gone\":%lld,\"id\":%lld,\"ok\":%lld,\"size\":%lld,\"status\":\"%s\",\"success\":%lld}",
                           (long long)group->bad, (long long)rule->error, (long long)group->gone, (long long)group->number, (long long)group->ok,
                           (long long)size_of(group), group_word(rollout, group, rule), (long long)rule->success);
}

void answer_groups(int64_t number, const char *query) {
    static Group groups[GROUP_LIMIT];
    static Rule rules[GROUP_LIMIT];
    static char body[BODY_LIMIT];
    Page page = read_page(query);
    Rollout rollout;
    int shown = 0;
    if (!read_rollout(number, &rollout)) return refuse("404 Not Found", "not_found", 3);
    int count = read_groups(number, groups);
    read_rules(number, count, rules);
    size_t size = (size_t)sprintf(body, "{\"content\":[");
    for (long i = page.offset; i < count && shown < page.limit; i++) {
        if (shown++) body[size++] = ',';
        size += put_group_object(body + size, &rollout, &groups[i], &rules[i]);
    }
    size += (size_t)sprintf(body + size, "],\"size\":%d,\"total\":%d}", shown, count);
    reply("200 OK", body, size);
}

void answer_report(int64_t number) {
    static Group groups[GROUP_LIMIT];
    static Rule rules[GROUP_LIMIT];
    static char body[BODY_LIMIT];
    int64_t total[4] = {0, 0, 0, 0};
    Rollout rollout;
    if (!read_rollout(number, &rollout)) return refuse("404 Not Found", "not_found", 3);
    int count = read_groups(number, groups);
    read_rules(number, count, rules);
    const char *word = rollout_word(&rollout, groups, count);
    size_t size = (size_t)sprintf(body, "rollout %lld %.*s\nstate %s\ngroup  size    ok   bad  gone  open state\n", (long long)number,
                                  (int)rollout.name.len, rollout.name.bytes, word);
    for (int i = 0; i < count; i++) {
        int64_t counts[4] = {size_of(&groups[i]), groups[i].ok, groups[i].bad, groups[i].gone};
        for (int k = 0; k < 4; k++) total[k] += counts[k];
        size += (size_t)sprintf(body + size, "%5lld", (long long)groups[i].number);
        size += put_counts(body + size, counts, group_word(&rollout, &groups[i], &rules[i]));
    }
    size += (size_t)sprintf(body + size, "total");
    size += put_counts(body + size, total, word);
    reply_as("text/plain; charset=utf-8", "200 OK", body, size);
}

static const char *action_word(int64_t outcome, int64_t started, int64_t canceling) {
    const char *endings[] = {"", "finished", "error", "canceled"};
    if (outcome) return endings[outcome];
    return !started ? "scheduled" : canceling ? "canceling" : "running";
}

static size_t put_action_line(char *to, sqlite3_stmt *statement, int number_column, int first, const Group *group) {
    return (size_t)sprintf(to, "%lld,%s,%lld,%s\n", (long long)sqlite3_column_int64(statement, number_column), (const char *)sqlite3_column_text(statement, first),
                           (long long)group->number,
                           action_word(sqlite3_column_int64(statement, first + 2), group->started, sqlite3_column_int64(statement, first + 1)));
}

// The lines of the actions, each with the group in memory that has its place.
static size_t put_actions_one_by_one(char *to, int64_t rollout) {
    static Group groups[GROUP_LIMIT];
    size_t size = 0;
    bind_numbers(list_actions, 3, (int64_t[]){rollout, UINT32_MAX, 0});
    int count = read_groups(rollout, groups);
    while (row_of(list_actions)) {
        int at = 0;
        while (at < count && groups[at].last < sqlite3_column_int64(list_actions, 1)) at++;
        if (at == count) die("group");
        size += put_action_line(to + size, list_actions, 7, 2, &groups[at]);
    }
    sqlite3_reset(list_actions);
    return size;
}

// The lines of the actions in the order of their places, and so of the groups.
static size_t put_actions_at_once(char *to, int64_t rollout) {
    static Group groups[GROUP_LIMIT];
    size_t size = 0;
    int count = read_groups(rollout, groups), at = 0;
    bind_numbers(list_places, 3, (int64_t[]){rollout, 1, count ? groups[count - 1].last : 0});
    while (row_of(list_places)) {
        while (groups[at].last < sqlite3_column_int64(list_places, 0)) at++;
        size += put_action_line(to + size, list_places, 4, 1, &groups[at]);
    }
    sqlite3_reset(list_places);
    return size;
}

void answer_actions(int64_t number) {
    static char body[BODY_LIMIT];
    Rollout rollout;
    if (!read_rollout(number, &rollout)) return refuse("404 Not Found", "not_found", 3);
    size_t size = (size_t)sprintf(body, "action,controllerid,group,state\n");
    size += at_once ? put_actions_at_once(body + size, number) : put_actions_one_by_one(body + size, number);
    reply_as("text/csv; charset=utf-8", "200 OK", body, size);
}
