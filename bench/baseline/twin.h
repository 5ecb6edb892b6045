// What the files of the server in C share.
#include <sqlite3.h>
#include <stddef.h>
#include <stdint.h>
#include <stdio.h>

enum { PIECE_LENGTH = 65536, BODY_LIMIT = 64 * PIECE_LENGTH, TEXT_LIMIT = 128, TAG_LIMIT = 16, ATTRIBUTE_LIMIT = 32, TARGET_LIMIT = 10000, GROUP_LIMIT = 50 };

typedef struct { char bytes[TEXT_LIMIT + 1]; size_t len; } Text;

typedef struct { Text id, name, tags[TAG_LIMIT]; int tag_count; unsigned char digest[32]; } Row;

typedef struct { Text key, value; } Attribute;
typedef struct { Text id, name, tags[TAG_LIMIT]; Attribute attributes[ATTRIBUTE_LIMIT]; int tag_count, attribute_count; } Target;
typedef struct { long offset, limit; Text tag; } Page;

typedef struct { int64_t number, first, last, started, ok, bad, gone; } Group;
// What is said of a group; the percentage is 0 where its rollout is cut evenly.
typedef struct { int64_t percentage, success, error; } Rule;
typedef struct { int64_t number, groups, success, error, approval, started, paused; Text name; } Rollout;

// Whether a whole group is done by one statement, as a server in C would do it, and not row by row, as fwdesk does.
extern int at_once;

// the store
extern sqlite3_stmt *begin, *commit, *rollback;
void die(const char *what);
sqlite3_stmt *prepared(const char *text);
int row_of(sqlite3_stmt *statement);
void done(sqlite3_stmt *statement);
int64_t number_in(sqlite3_stmt *statement);
void bind_numbers(sqlite3_stmt *statement, int count, const int64_t numbers[]);
void bind_text(sqlite3_stmt *statement, int place, const Text *text);
void read_column(sqlite3_stmt *statement, int column, Text *text);
void digest_of(const unsigned char *bytes, size_t len, unsigned char digest[32]);

// JSON
const char *skip_space(const char *at, const char *end);
const char *after(const char *at, const char *end, char byte);
const char *read_text(const char *at, const char *end, Text *text);
const char *read_number(const char *at, const char *end, int64_t *number);
int is_key(const Text *key, const char *name);
size_t put_text(char *to, const char *bytes, size_t len);

// messages
void reply_as(const char *type, const char *status, const char *body, size_t len);
void reply(const char *status, const char *body, size_t len);
void refuse(const char *status, const char *name, int number);

// targets
void prepare_targets(void);
void answer_put(const char *body, size_t len);
void answer_page(const char *query);
int put_row(const Row *row);
int64_t number_of_targets(void);
void answer_import(const char *body, size_t len);
int find_target(const Text *id, Text *name, unsigned char digest[32]);
void each_target(void (*visit)(const Target *target));
void fill_target(Target *target);
size_t put_target_object(char *to, const Target *target);
Page read_page(const char *query);

// rollouts
void prepare_rollouts(void);
void answer_create(const char *body, size_t len);
void answer_start(int64_t rollout);
void answer_group_targets(int64_t rollout, int64_t group, const char *query);
void answer_groups(int64_t rollout, const char *query);
void answer_report(int64_t rollout);
void answer_actions(int64_t rollout);
int read_rollout(int64_t number, Rollout *rollout);
int read_groups(int64_t rollout, Group groups[GROUP_LIMIT]);
int read_group(int64_t rollout, int64_t number, Group *group);
int holding_group(int64_t rollout, int64_t place, Group *group);
// The group that has a place, and the one behind it, of number 0 where none is.
int group_and_next(int64_t rollout, int64_t place, Group *group, Group *next);
int read_rule(int64_t rollout, int64_t group, Rule *rule);
void set_rollout(const Rollout *rollout);
void set_group(int64_t rollout, const Group *group);
void start_group(int64_t rollout, Group *group);
int reaches(int64_t count, const Group *group, int64_t percent);

// devices
void prepare_devices(void);
void answer_poll(const Text *id, const char *head);
void answer_feedback(const Text *id, int64_t action, const char *head, const char *body, size_t len);
int64_t offered_action(const Text *id, int64_t *kind);
const char *word_of(const Text *id);
