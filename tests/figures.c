/* Executed instructions of the proved archive beside the two plain C programs: one serviceValidate, one login POST, one housekeeping, one visit and
 * one refusal, over a table of 8 and one of 127 records, all held but one, the dead among them. All programs get the same bytes, and after each
 * call all that they may write is compared. Instructions are counted by the processor's trap flag: a signal after each one, natively as under an
 * emulator. With an argument it only compares: each way through what the plain programs know, with serials and dates as they are usual and with
 * the longest. */
#include "common.h"
#include "plain.h"
#include <signal.h>

enum { MOST = 128 * BLOCK, PANELS = 4 };
enum { FREE, LOGIN, SESSION, SERVICE, PROXY, WAITING, GRANT, VISIT };

static const char gate[] = "https://gate.lan/p", lamp[] = "https://lamp.lan/", callback[] = "https://gate.lan/cb";
static uint8_t panels[PANELS * BLOCK];
static uint32_t first_serial;
static uint64_t T; /* the table's clock */
static int failed;

/* ---- the programs' calls, what they may write, and what they are asked */

struct program {
    __typeof__(pyhtirso_answer) *answer;
    __typeof__(pyhtirso_finish) *finish;
    __typeof__(pyhtirso_housekeep) *housekeep;
    __typeof__(pyhtirso_visit) *visit;
};

struct lent {
    uint8_t table[MOST], out[OUT], cookie_out[COOKIE];
    uint64_t outcome[PYHTIRSO_OUTCOME]; /* a visit's numbers are its first, and so is housekeeping's one */
};

enum call { ANSWER, FINISH, HOUSEKEEP, TELL_VISIT };

struct asked {
    enum call call;
    int records;
    bool post;
    char target[512], body[512], cookie[COOKIE];
    bool verdict;    /* of a password, or of a callback */
    uint32_t number; /* of a callback, or of a visit */
    uint64_t time;
};

static const struct program of_archive = { pyhtirso_answer, pyhtirso_finish, pyhtirso_housekeep, pyhtirso_visit },
                            of_plain = { plain_answer, plain_finish, plain_housekeep, plain_visit },
                            of_whole = { whole_answer, whole_finish, whole_housekeep, whole_visit };
static struct lent proved, plain, whole;
static struct lent *const all[] = { &proved, &plain, &whole };
static const struct program *const programs[] = { &of_archive, &of_plain, &of_whole }; /* whose each is */

static bool ask(const struct program *p, struct lent *l, const struct asked *a)
{
    size_t table_len = (size_t)(a->records + 1) * BLOCK;
    if (a->call == FINISH)
        return p->finish(l->table, table_len, a->number, a->verdict, a->time, l->out, OUT, l->outcome, PYHTIRSO_OUTCOME);
    if (a->call == HOUSEKEEP) {
        l->outcome[0] = p->housekeep(l->table, table_len, a->time);
        return true;
    }
    if (a->call == TELL_VISIT)
        return p->visit(l->table, table_len, (const uint8_t *)a->cookie, strlen(a->cookie), a->number, a->time, random_bytes, RANDOM, l->out, OUT,
                        l->outcome, PYHTIRSO_VISIT);
    return p->answer(l->table, table_len, panels, sizeof panels, a->post, (const uint8_t *)a->target, strlen(a->target), (const uint8_t *)a->body,
                     strlen(a->body), (const uint8_t *)a->cookie, strlen(a->cookie), a->time, random_bytes, RANDOM, a->verdict, l->out, OUT,
                     l->cookie_out, COOKIE, l->outcome, PYHTIRSO_OUTCOME);
}

/* ---- a table whose slots are all held but one */

static void put_number(uint8_t *p, int width, uint64_t v)
{
    for (int i = 0; i < width; i++)
        p[i] = (uint8_t)(v >> (8 * i));
}

static int secret_length(int kind) { return kind == SESSION || kind == WAITING || kind == GRANT ? 16 : 9; }

static void put_record(uint8_t *table, int slot, int kind, int mark, int parent, int session, int depth, uint64_t expiry, const char *text)
{
    uint8_t *r = table + slot * BLOCK;
    memset(r, 0, BLOCK);
    r[0] = (uint8_t)kind;
    r[1] = (uint8_t)mark;
    put_number(r + 2, 2, (uint64_t)parent);
    put_number(r + 4, 2, (uint64_t)session);
    r[6] = (uint8_t)depth;
    put_number(r + 8, 4, first_serial + (uint32_t)slot);
    put_number(r + 16, 8, expiry);
    for (int i = 0; i < secret_length(kind); i++)
        r[24 + i] = (uint8_t)(slot * 7 + i * 13);
    put_number(r + 40, 2, strlen(text));
    memcpy(r + 44, text, strlen(text));
    if (kind == WAITING)
        memset(r + 256, slot, 16);
    if (kind == SESSION)
        put_number(r + 272, 8, T - 3600 - (uint64_t)slot);
    seal(r);
}

/* The record in a slot, of a group of six: a session that ends at a time, its grant, proxy ticket and waiting grant, a login, its visit. */
static void put_member(uint8_t *table, int slot, uint64_t end)
{
    int role = (slot - 1) % 6, first = slot - role;
    uint64_t soon = end < T + 200 ? end : T + 200;
    switch (role) {
    case 0: put_record(table, slot, SESSION, 0, 0, 0, 0, end, "ann"); break;
    case 1: put_record(table, slot, GRANT, 0, 0, first, 1, end, callback); break;
    case 2: put_record(table, slot, PROXY, 0, first + 1, first, 0, soon, lamp); break;
    case 3: put_record(table, slot, WAITING, 1, first + 1, first, 2, T + 50, "https://lamp.lan/cb"); break;
    case 4: put_record(table, slot, LOGIN, 0, 0, 0, 0, end < T + 400 ? end : T + 400, ""); break;
    default: put_record(table, slot, VISIT, 0, first, first, 0, end, gate);
    }
}

/* Groups, then the login ticket and the service ticket that are presented. In the first group the waiting grant is dead already, no login
 * stands, and the last record is a service ticket; the second group's login is dead when the call is made. */
static void fill(uint8_t *table, int records)
{
    memset(table, 0, MOST);
    memcpy(table, "TKTS", 4);
    put_number(table + 4, 2, (uint64_t)records);
    table[6] = 1;
    put_number(table + 8, 8, T);
    put_number(table + 16, 4, first_serial + 200);
    seal(table);
    for (int k = 1; k <= records - 2; k++)
        put_member(table, k, T + 20000);
    put_record(table, 4, WAITING, 1, 2, 1, 2, T, "https://lamp.lan/cb");
    memset(table + 5 * BLOCK, 0, BLOCK);
    seal(table + 5 * BLOCK);
    put_record(table, 6, SERVICE, 0, 1, 1, 0, T + 250, gate);
    if (records > 12)
        put_record(table, 11, LOGIN, 0, 0, 0, 0, T + 10, "");
    put_record(table, records - 1, LOGIN, 0, 0, 0, 0, T + 500, "");
    put_record(table, records, SERVICE, 1, 1, 1, 0, T + 200, gate);
}

static void fresh(int records)
{
    fill(proved.table, records);
    memset(proved.out, 0xa5, OUT);
    memset(proved.cookie_out, 0xa5, COOKIE);
    memset(proved.outcome, 0xa5, sizeof proved.outcome);
    plain = whole = proved;
}

/* The text of the ticket in a slot. */
static const char *name(const uint8_t *table, int slot, const char *prefix)
{
    static char text[COOKIE + 16];
    const uint8_t *r = table + slot * BLOCK;
    int n = snprintf(text, sizeof text, "%s%u-", prefix, first_serial + (uint32_t)slot);
    for (int i = 0; i < secret_length(r[0]); i++)
        n += snprintf(text + n, 3, "%02x", r[24 + i]);
    return text;
}

static struct asked validating(int records, const char *service, const char *more, int slot, const char *prefix)
{
    struct asked a = { .records = records, .time = T + 10 };
    fresh(records);
    snprintf(a.target, sizeof a.target, "/cas/serviceValidate?service=%s&ticket=%s%s", service, slot ? name(proved.table, slot, prefix) : "", more);
    return a;
}

static struct asked signing_in(int records, const char *user, const char *service, bool verdict, int cookie)
{
    struct asked a = { .records = records, .post = true, .target = "/cas/login", .verdict = verdict, .time = T + 10 };
    fresh(records);
    if (cookie)
        snprintf(a.cookie, sizeof a.cookie, "%s", name(proved.table, cookie, "TGC-"));
    snprintf(a.body, sizeof a.body, "username=%s&password=secret&service=%s&lt=%s", user, service, name(proved.table, records - 1, "LT-"));
    return a;
}

/* One byte of the last record's text is another that may stand there: only the check of the last block tells. */
static void damage(int records)
{
    for (int i = 0; i < 3; i++)
        all[i]->table[records * BLOCK + 50] ^= 1;
}

/* A field of a block is another, under a right check. */
static void set(int slot, int at, int width, uint64_t v)
{
    for (int i = 0; i < 3; i++) {
        put_number(all[i]->table + slot * BLOCK + at, width, v);
        seal(all[i]->table + slot * BLOCK);
    }
}

/* The free slot is held by a login. */
static void hold(uint64_t expiry)
{
    for (int i = 0; i < 3; i++)
        put_record(all[i]->table, 5, LOGIN, 0, 0, 0, 0, expiry, "");
}

/* Visits give way to dead logins until 32 logins are held, as far as there are slots. */
static void crowd(int records)
{
    int logins = 0;
    for (int k = 1; k <= records; k++)
        logins += proved.table[k * BLOCK] == LOGIN;
    for (int k = 12; k <= records - 2 && logins < 32; k += 6, logins++)
        for (int i = 0; i < 3; i++)
            put_record(all[i]->table, k, LOGIN, 0, 0, 0, 0, T, "");
}

/* The session in a slot ends in a minute, with all that names it. */
static void age(int first, int records)
{
    for (int i = 0; i < 3; i++) {
        for (int k = first; k < first + 6; k++)
            if (k != 5)
                put_member(all[i]->table, k, T + 60);
        if (first == 1)
            put_record(all[i]->table, records, SERVICE, 1, 1, 1, 0, T + 60, gate);
    }
}

/* The service ticket in a slot has been accepted. */
static void turn(int slot)
{
    set(slot, 0, 1, VISIT);
    set(slot, 1, 1, 0);
    set(slot, 16, 8, T + 20000);
}

/* The session in a slot; that of the first has two visits, the second of them in the last slot. */
static struct asked visiting(int records, int cookie, uint32_t number)
{
    struct asked a = { .call = TELL_VISIT, .records = records, .number = number, .time = T + 10 };
    fresh(records);
    turn(6);
    turn(records);
    if (cookie)
        snprintf(a.cookie, sizeof a.cookie, "%s", name(proved.table, cookie, "TGC-"));
    return a;
}

static struct asked logging_out(int records, int cookie, const char *query)
{
    struct asked a = { .records = records, .time = T + 10 };
    fresh(records);
    if (cookie)
        snprintf(a.cookie, sizeof a.cookie, "%s", name(proved.table, cookie, "TGC-"));
    snprintf(a.target, sizeof a.target, "/cas/logout%s", query);
    return a;
}

/* The grant in a slot is shown. */
static struct asked proxying(int records, int slot, const char *more)
{
    struct asked a = { .records = records, .time = T + 10 };
    fresh(records);
    snprintf(a.target, sizeof a.target, "/cas/proxy?pgt=%s%s", name(proved.table, slot, "PGT-"), more);
    return a;
}

/* The callback of the waiting grant in a slot, the first of which has its full time. */
static struct asked finishing(int records, int slot, bool ok)
{
    struct asked a = { .call = FINISH, .records = records, .verdict = ok, .number = first_serial + (uint32_t)slot, .time = T + 10 };
    fresh(records);
    set(4, 16, 8, T + 60);
    return a;
}

/* Every other group dies, with one login at least that lives. */
static struct asked keeping_house(int records)
{
    struct asked a = { .call = HOUSEKEEP, .records = records, .time = T + 60 };
    fresh(records);
    hold(T + 60);
    for (int first = 1; first + 5 <= records - 2; first += 12)
        age(first, records);
    return a;
}

/* House is kept before the call. */
static void tidy(int records, uint64_t time)
{
    const struct asked a = { .call = HOUSEKEEP, .records = records, .time = time };
    for (int i = 0; i < 3; i++)
        ask(programs[i], all[i], &a);
}

/* ---- the instructions of a call */

static volatile uint64_t steps;

static void on_step(int number)
{
    (void)number;
    steps++;
}

static uint64_t count(const struct program *p, struct lent *l, const struct asked *a)
{
    steps = 0;
    __asm__ volatile("pushfq; orq $0x100, (%%rsp); popfq" ::: "memory", "cc");
    ask(p, l, a);
    __asm__ volatile("pushfq; andq $-0x101, (%%rsp); popfq" ::: "memory", "cc");
    return steps;
}

/* ---- the programs compared */

static void hold_equal(const char *what)
{
    if (memcmp(&proved, &plain, sizeof proved) || memcmp(&proved, &whole, sizeof proved)) {
        printf("NOT EQUAL: %s: refusal %d and %d, kind %d and %d, status %d and %d\n", what, (int)proved.outcome[0], (int)plain.outcome[0],
               (int)proved.outcome[1], (int)plain.outcome[1], (int)proved.outcome[2], (int)plain.outcome[2]);
        failed++;
    }
}

static bool counting; /* whether the instructions of each way are told */

static void compare(const char *what, const struct asked *a)
{
    if (counting)
        printf("%llu instructions: %s\n", (unsigned long long)count(&of_archive, &proved, a), what);
    for (int i = counting; i < 3; i++)
        if (!ask(programs[i], all[i], a))
            printf("NOT KNOWN: %s\n", what), failed++;
    hold_equal(what);
}

/* Each way through the steps once, so that the plain program is known to be of the same steps. */
static int compare_ways(int records)
{
    static const char coded[] = "https%3A%2F%2Fgate.lan%2Fp";
    struct asked a;
    int ways = 0;
#define WAY(make, change) (a = (make), change, compare(#make " " #change, &a), ways++)
    WAY(validating(records, coded, "", records, "ST-"), (void)0);
    WAY(validating(records, coded, "&renew=", records, "ST-"), (void)0);
    WAY(validating(records, coded, "&renew", 6, "ST-"), (void)0);
    WAY(validating(records, coded, "&pgtUrl=https://gate.lan/cb", records, "ST-"), (void)0);
    WAY(validating(records, coded, "&pgtUrl=https://gate.lan/no", records, "ST-"), (void)0);
    WAY(validating(records, lamp, "", records, "ST-"), (void)0);
    WAY(validating(records, lamp, "", 3, "PT-"), (void)0);
    WAY(validating(records, coded, "", 2, "PGT-"), (void)0);
    WAY(validating(records, coded, "", 0, ""), (void)0);
    WAY(validating(records, "%4", "", records, "ST-"), (void)0);
    WAY(validating(records, "", "", records, "ST-"), (void)0);
    WAY(validating(records, coded, "&&a=%&service", records, "ST-"), (void)0);
    WAY(validating(records, coded, "", records, "ST-"), a.time = T + 240);
    WAY(validating(records, coded, "", records, "ST-"), a.time = 0);
    WAY(validating(records, coded, "", records, "ST-"), a.time = (1ull << 40) + 1);
    WAY(validating(records, coded, "", records, "ST-"), damage(records));
    WAY(validating(records, coded, "", records, "ST-"), a.records = 7);
    WAY(validating(records, coded, "", 6, "ST-"), (void)0);
    WAY(validating(records, coded, "&pgtUrl=https://gate.lan/cb", 6, "ST-"), (void)0);
    WAY(validating(records, coded, "", records, "ST-"), set(1, 272, 8, 0));
    WAY(validating(records, coded, "", records, "ST-"), set(1, 272, 8, 951782399)); /* the last second of 28 February 2000 */
    WAY(validating(records, coded, "", records, "ST-"), set(1, 272, 8, 951782400));
    WAY(validating(records, coded, "", records, "ST-"), set(1, 272, 8, 951868800));
    WAY(validating(records, coded, "", records, "ST-"), set(1, 272, 8, T));
    WAY(validating(records, coded, "", records, "ST-"), set(1, 272, 8, T + 1));
    WAY(validating(records, coded, "", records, "ST-"), set(2, 272, 8, 1));
    WAY(validating(records, coded, "", records, "ST-"), set(1, 280, 1, 1));
    WAY(validating(records, coded, "", records, "ST-"), set(4, 1, 1, 0));
    WAY(validating(records, coded, "", records, "ST-"), set(4, 1, 1, 2));
    WAY(validating(records, coded, "", records, "ST-"), set(2, 1, 1, 1));
    WAY(validating(records, coded, "", records, "ST-"), set(0, 6, 2, 0));
    WAY(validating(records, coded, "", records, "ST-"), set(0, 6, 2, 2));
    WAY(validating(records, coded, "", records, "ST-"), set(0, 6, 2, 257));
    WAY(validating(records, coded, "", records, "ST-"), panels[PANELS * BLOCK - 1] ^= 1);
    panels[PANELS * BLOCK - 1] ^= 1;
    WAY(signing_in(records, "ann", coded, true, 0), (void)0);
    WAY(signing_in(records, "Mu%C3%B1oz", coded, true, 0), (void)0);
    WAY(signing_in(records, "Jos\xC3\xA9", coded, true, 0), (void)0);
    WAY(signing_in(records, "%EF%BF%BF%F4%8F%BF%BF", coded, true, 0), (void)0);
    WAY(signing_in(records, "a%C3", coded, true, 0), (void)0);
    WAY(signing_in(records, "%C0%AF", coded, true, 0), (void)0);
    WAY(signing_in(records, "%ED%A0%80", coded, true, 0), (void)0);
    WAY(signing_in(records, "%F4%90%80%80", coded, true, 0), (void)0);
    WAY(signing_in(records, "a%7F", coded, true, 0), (void)0);
    WAY(validating(records, coded, "", records, "ST-"), set(1, 44, 2, 0xB1C3));
    WAY(validating(records, coded, "", records, "ST-"), set(1, 44, 2, 0xAFC0));
    WAY(validating(records, coded, "", records, "ST-"), set(records, 44, 2, 0xB1C3));
    WAY(signing_in(records, "ann", coded, true, 1), (void)0);
    WAY(signing_in(records, "b%2Bo+b", coded, true, 1), (void)0);
    WAY(signing_in(records, "ann", "", true, 0), (void)0);
    WAY(signing_in(records, "ann", "", true, 1), (void)0);
    WAY(signing_in(records, "ann", coded, false, 1), (void)0);
    WAY(signing_in(records, "ann", "", false, 1), (void)0);
    WAY(signing_in(records, "", coded, true, 1), (void)0);
    WAY(signing_in(records, "ann", "https://other.lan/", true, 1), (void)0);
    WAY(signing_in(records, "ann", "%0a", true, 1), (void)0);
    WAY(signing_in(records, "ann", coded, true, 0), hold(T + 400)); /* no slot for the ticket */
    WAY(signing_in(records, "ann", coded, true, 0), hold(T));       /* nor where the dead hold it */
    WAY(signing_in(records, "bob", coded, true, 1), hold(T));       /* but an ended session's slots are free */
    WAY(signing_in(records, "bob", coded, true, 1), a.time = T + 450);
    WAY(signing_in(records, "ann", coded, true, 1), a.time = T + 30000);
    WAY(validating(records, coded, "&pgtUrl=https://gate.lan/cb", records, "ST-"), hold(T + 400)); /* no slot for the grant */
    WAY(validating(records, coded, "&pgtUrl=https://gate.lan/cb", records, "ST-"), hold(T));
    WAY(validating(records, coded, "", 6, "ST-"), turn(6));
    WAY(signing_in(records, "ann", coded, true, 1), turn(6));
    WAY(signing_in(records, "bob", coded, true, 1), (turn(6), turn(records)));
    WAY(visiting(records, 1, 0), (void)0);
    WAY(visiting(records, 1, 1), (void)0);
    WAY(visiting(records, 1, 2), (void)0);
    WAY(visiting(records, 1, 4294967295u), (void)0);
    WAY(visiting(records, 7, 0), (void)0);
    WAY(visiting(records, 0, 0), (void)0);
    WAY(visiting(records, 2, 0), (void)0);
    WAY(visiting(records, 1, 1), a.time = 0);
    WAY(visiting(records, 1, 1), a.time = T + 19999);
    WAY(visiting(records, 1, 1), a.time = T + 20000);
    WAY(visiting(records, 1, 1), a.time = 1ull << 40);
    WAY(visiting(records, 1, 1), a.time = (1ull << 40) + 1);
    WAY(visiting(records, 1, 1), damage(records));
    WAY(visiting(records, 1, 1), a.records = 7);
    WAY(visiting(records, 1, 1), set(6, 0, 1, 8));
    WAY(visiting(records, 1, 1), set(6, 1, 1, 1));
    WAY(visiting(records, 1, 1), set(6, 2, 2, 2));
    WAY(visiting(records, 1, 1), set(6, 6, 1, 1));
    WAY(visiting(records, 1, 1), set(6, 16, 8, T + 19999));
    WAY(visiting(records, 1, 1), set(6, 33, 1, 1));
    WAY(visiting(records, 1, 1), set(6, 40, 2, 0));
    WAY(validating(records, coded, "", records, "ST-"), a.time = T + 199); /* a ticket's last second, and the first after it */
    WAY(validating(records, coded, "", records, "ST-"), a.time = T + 200);
    WAY(validating(records, lamp, "", 3, "PT-"), a.time = T + 200);
    WAY(validating(records, coded, "", 4, "PGT-"), (void)0);
    WAY(validating(records, coded, "", records, "ST-"), set(records, 16, 8, T)); /* dead in the table as it comes */
    WAY(validating(records, coded, "", records, "ST-"), set(records, 16, 8, 0));
    WAY(validating(records, coded, "", records, "ST-"), set(records, 16, 8, T + 300));
    WAY(validating(records, coded, "", records, "ST-"), set(records, 16, 8, T + 301)); /* longer than it may last */
    WAY(signing_in(records, "ann", coded, true, 0), a.time = T + 499); /* a login ticket's last second, and the first after it */
    WAY(signing_in(records, "ann", coded, true, 0), a.time = T + 500);
    WAY(signing_in(records, "ann", coded, true, 0), (a.time = T + 500, hold(T)));
    WAY(signing_in(records, "ann", coded, false, 0), crowd(records)); /* dead logins count to the 32 */
    WAY(signing_in(records, "ann", coded, false, 0), (crowd(records), a.time = T + 500));
    WAY(signing_in(records, "ann", coded, false, 0), (crowd(records), a.time = T + 500, tidy(records, T)));
    WAY(signing_in(records, "ann", coded, true, 1), (age(1, records), a.time = T + 59)); /* a session's last second: kept, and ended */
    WAY(signing_in(records, "bob", coded, true, 1), (age(1, records), a.time = T + 59));
    WAY(signing_in(records, "ann", coded, true, 1), (age(1, records), a.time = T + 60)); /* a dead one is neither */
    WAY(signing_in(records, "bob", coded, true, 1), (age(1, records), a.time = T + 60));
    WAY(signing_in(records, "bob", coded, true, 1), (age(1, records), hold(T), a.time = T + 60));
    WAY(signing_in(records, "bob", coded, true, 1), (age(1, records), hold(T), a.time = T + 60, tidy(records, T + 60)));
    WAY(validating(records, coded, "", records, "ST-"), (age(1, records), a.time = T + 60));
    WAY(validating(records, coded, "&pgtUrl=https://gate.lan/cb", records, "ST-"), (age(1, records), a.time = T + 59));
    WAY(validating(records, coded, "&pgtUrl=https://gate.lan/cb", records, "ST-"), (hold(T), tidy(records, T + 10)));
    WAY(visiting(records, 1, 0), (age(1, records), a.time = T + 59));
    WAY(visiting(records, 1, 0), (age(1, records), a.time = T + 60));
    WAY(visiting(records, 1, 0), (age(1, records), tidy(records, T + 60)));
    WAY(visiting(records, 1, 1), tidy(records, T + 19999));
    WAY(logging_out(records, 1, ""), (void)0);
    WAY(logging_out(records, 0, "?url=https%3A%2F%2Fgate.lan%2Fp"), (void)0);
    WAY(logging_out(records, 1, "?url=https://other.lan/&service=%"), (void)0);
    WAY(logging_out(records, 1, "?url=%"), (void)0);
    WAY(logging_out(records, 1, ""), (age(1, records), a.time = T + 59)); /* the dead go with it */
    WAY(logging_out(records, 1, ""), (age(1, records), a.time = T + 60)); /* and stay without it */
    WAY(logging_out(records, 1, ""), (age(1, records), tidy(records, T + 60)));
    WAY(logging_out(records, 1, ""), a.time = T + 20000);
    WAY(proxying(records, 2, "&targetService=https://lamp.lan/"), (void)0);
    WAY(proxying(records, 2, "&targetService=https://other.lan/"), (void)0);
    WAY(proxying(records, 2, ""), (void)0);
    WAY(proxying(records, 2, "&targetService=https://lamp.lan/&pgt="), (void)0);
    WAY(proxying(records, 2, "&targetService=https://lamp.lan/"), hold(T)); /* no slot where the dead hold it */
    WAY(proxying(records, 2, "&targetService=https://lamp.lan/"), (hold(T), tidy(records, T)));
    WAY(proxying(records, 2, "&targetService=https://lamp.lan/"), (age(1, records), a.time = T + 59));
    WAY(proxying(records, 2, "&targetService=https://lamp.lan/"), (age(1, records), a.time = T + 60)); /* a dead grant */
    WAY(proxying(records, 2, "&targetService=https://lamp.lan/"), (age(1, records), tidy(records, T + 60)));
    WAY(proxying(records, 4, "&targetService=https://lamp.lan/"), (void)0); /* one that waits, and is dead */
    WAY(finishing(records, 4, true), (void)0);
    WAY(finishing(records, 4, false), (void)0);
    WAY(finishing(records, 4, true), (set(4, 2, 2, 0), set(4, 6, 1, 1))); /* without proxies */
    WAY(finishing(records, 4, true), a.time = T + 59);
    WAY(finishing(records, 4, true), a.time = T + 60); /* a dead one */
    WAY(finishing(records, 4, false), a.time = T + 60);
    WAY(finishing(records, 4, true), tidy(records, T + 60));
    WAY(finishing(records, 4, true), hold(T));
    WAY(finishing(records, 4, true), (age(1, records), a.time = T + 49)); /* a grant that its session leaves eleven seconds */
    WAY(finishing(records, 3, true), (void)0);
    WAY(finishing(records, 4, true), a.time = (1ull << 40) + 1);
    WAY(finishing(records, 4, true), damage(records));
    WAY(finishing(records, 4, true), a.records = 7);
    WAY(keeping_house(records), (void)0);
    WAY(keeping_house(records), a.time = T + 59);
    WAY(keeping_house(records), a.time = 0);
    WAY(keeping_house(records), a.time = T);
    WAY(keeping_house(records), a.time = T + 400);
    WAY(keeping_house(records), a.time = T + 19999);
    WAY(keeping_house(records), a.time = T + 20000);
    WAY(keeping_house(records), a.time = 1ull << 40);
    WAY(keeping_house(records), a.time = (1ull << 40) + 1);
    WAY(keeping_house(records), tidy(records, T + 60));
    WAY(keeping_house(records), damage(records));
    WAY(keeping_house(records), a.records = 7);
    WAY(keeping_house(records), set(2, 16, 8, T)); /* a grant that ends before its session */
#undef WAY
    return ways;
}

/* ---- instructions beside plain C */

/* The same calls of nothing: what the caller itself costs. */
static bool no_answer(uint8_t *table, size_t table_len, const uint8_t *register_bytes, size_t register_len, bool post, const uint8_t *target,
                      size_t target_len, const uint8_t *body, size_t body_len, const uint8_t *cookie, size_t cookie_len, uint64_t time,
                      const uint8_t *random, size_t random_len, bool verdict, uint8_t *output, size_t out_len, uint8_t *cookie_output,
                      size_t cookie_out_len, uint64_t *numbers, size_t numbers_len)
{
    (void)table, (void)table_len, (void)register_bytes, (void)register_len, (void)post, (void)target, (void)target_len, (void)body;
    (void)body_len, (void)cookie, (void)cookie_len, (void)time, (void)random, (void)random_len, (void)verdict, (void)output, (void)out_len;
    (void)cookie_output, (void)cookie_out_len, (void)numbers, (void)numbers_len;
    return false;
}

static bool no_finish(uint8_t *table, size_t table_len, uint32_t serial, bool ok, uint64_t time, uint8_t *output, size_t out_len,
                      uint64_t *numbers, size_t numbers_len)
{
    (void)table, (void)table_len, (void)serial, (void)ok, (void)time, (void)output, (void)out_len, (void)numbers, (void)numbers_len;
    return false;
}

static uint32_t no_housekeep(uint8_t *table, size_t table_len, uint64_t time)
{
    (void)table, (void)table_len, (void)time;
    return 0;
}

static bool no_visit(const uint8_t *table, size_t table_len, const uint8_t *cookie, size_t cookie_len, uint32_t number, uint64_t time,
                     const uint8_t *random, size_t random_len, uint8_t *output, size_t out_len, uint64_t *numbers, size_t numbers_len)
{
    (void)table, (void)table_len, (void)cookie, (void)cookie_len, (void)number, (void)time, (void)random, (void)random_len, (void)output;
    (void)out_len, (void)numbers, (void)numbers_len;
    return false;
}

static const struct program of_nothing = { no_answer, no_finish, no_housekeep, no_visit };

static void measure(const char *what, const struct asked *a)
{
    uint64_t caller = count(&of_nothing, &plain, a), mine = count(&of_archive, &proved, a) - caller;
    uint64_t early = count(&of_plain, &plain, a) - caller, late = count(&of_whole, &whole, a) - caller;
    printf("| %s, %d records | %llu | %llu | %.2f | %llu | %.2f |\n", what, a->records, (unsigned long long)mine, (unsigned long long)early,
           (double)mine / (double)early, (unsigned long long)late, (double)mine / (double)late);
    hold_equal(what);
}

int main(int argc, char **argv)
{
    static const int sizes[] = { 8, 127 };
    static const uint32_t serials[] = { 4294967000u, 1000 };
    static const uint64_t clocks[] = { (1ull << 40) - 30000, 1735689599 }; /* in the year 36812, and the end of 2024 */
    struct sigaction action;
    struct asked a;
    counting = argc == 2 && !strcmp(argv[1], "ways");
    memset(&action, 0, sizeof action);
    action.sa_handler = on_step;
    sigaction(SIGTRAP, &action, 0);
    panel(panels, gate, callback);
    panel(panels + BLOCK, lamp, "https://lamp.lan/cb");
    panel(panels + 2 * BLOCK, "https://siren.lan/s?i=2", "");
    panel(panels + 3 * BLOCK, "https://camera.lan/view", "https://camera.lan/cb");
    for (int i = 0; i < RANDOM; i++)
        random_bytes[i] = (uint8_t)(i * 37 + 11);
    for (int i = 0; i < (counting ? 1 : 4); i++) {
        int records = sizes[i % 2];
        first_serial = serials[i / 2];
        T = clocks[i / 2];
        fresh(records);
        if (pyhtirso_check(proved.table, (size_t)(records + 1) * BLOCK))
            printf("NOT LAWFUL: the table of %d records\n", records), failed++;
        printf("%d calls compared over a table of %d records, serials from %u, T %llu\n", compare_ways(records), records, first_serial,
               (unsigned long long)T);
    }
    if (argc == 1)
        printf("\n| instructions of | proved | plain C | ratio | plain C, whole loops | ratio |\n|---|---|---|---|---|---|\n");
    for (int i = 0; argc == 1 && i < 2; i++) {
        a = validating(sizes[i], "https%3A%2F%2Fgate.lan%2Fp", "", sizes[i], "ST-");
        measure("serviceValidate, accepted", &a);
        a = signing_in(sizes[i], "ann", "https%3A%2F%2Fgate.lan%2Fp", true, 0);
        measure("login POST, accepted", &a);
        a = keeping_house(sizes[i]);
        measure("housekeep, all kinds freed", &a);
        a = visiting(sizes[i], 1, 1);
        measure("visit, told", &a);
        a = validating(sizes[i], "https%3A%2F%2Fgate.lan%2Fp", "", sizes[i], "ST-");
        damage(sizes[i]);
        measure("refusal 2, a byte of the last block", &a);
    }
    printf("\n%d faults\n", failed);
    return failed != 0;
}
