/* A hammer: long random and mutated runs against the six calls that take a table. After each call it checks that a refused call left every
 * byte, that a table which an answered call left is sound, that lengths lie within the buffers and bytes beyond them are untouched, that no
 * ticket succeeds twice or dead, that the dead stay in their slots until a session is ended or house is kept, that housekeeping frees the dead
 * and nothing else, and that visits are told of tickets that succeeded and change no table. Bounded by its two arguments: a seed and the number
 * of calls. It prints what it tried and what it found. */
#include "common.h"

enum { MOST = 128 * BLOCK, PANELS = 3, KEPT = 4096 };

static uint8_t table[MOST], before[MOST], panels[16 * BLOCK], out_before[OUT], cookie_before[COOKIE];
static size_t table_len = 9 * BLOCK, panels_len = PANELS * BLOCK;
static uint64_t now = 1000, seed = 1;
static long calls, answered, refused[10], issued, accepted, told, kept_house, freed, faults;
static char target[2200], body[1200], cookie[200];

/* Texts that answers showed, to be shown again. */
static char tickets[KEPT][80], logins[64][80], grants[64][80], cookies[64][80];
static int n_tickets, n_logins, n_grants, n_cookies;
static uint8_t won[KEPT], service_of[KEPT];
static uint32_t serials[64];
static int n_serials;

static uint64_t any(void)
{
    seed ^= seed << 13;
    seed ^= seed >> 7;
    seed ^= seed << 17;
    return seed;
}

static int one_in(int n) { return any() % (uint64_t)n == 0; }

static void fault(const char *what)
{
    if (faults++ < 10)
        printf("FAULT after %ld calls: %s\n  target %.120s\n  body %.120s\n", calls, what, target, body);
}

static const char *services[PANELS] = { "https://a.lan/p", "https://b.lan/q?i=2", "https://c.lan/" };

static const char *pick(char kept[][80], int n) { return n ? kept[any() % (uint64_t)n] : "XX-1-00"; }

/* Which service a text names first. */
static uint8_t named(const char *text)
{
    for (int i = 0; i < PANELS; i++)
        if (strstr(text, services[i]))
            return (uint8_t)i;
    return 0;
}

static void keep(char kept[][80], int *n, int most, const char *at, const char *stop)
{
    size_t len = strcspn(at, stop);
    if (len > 70)
        return;
    int i = *n < most ? (*n)++ : (int)(any() % (uint64_t)most);
    snprintf(kept[i], 80, "%.*s", (int)len, at);
}

/* A request of some sense, now and then with its bytes shaken. */
static bool make_request(void)
{
    const char *service = services[any() % PANELS], *renew = one_in(4) ? "&renew=1" : "", *gateway = one_in(6) ? "&gateway" : "";
    const char *user, *lt, *validator; /* each drawn by itself, so that a seed gives the same calls everywhere */
    bool post = one_in(3);
    int shown;
    body[0] = 0;
    snprintf(cookie, sizeof cookie, "%s", one_in(3) ? "" : pick(cookies, n_cookies));
    switch (any() % 8) {
    case 0:
        snprintf(target, sizeof target, "/cas/login?service=%s%s%s", one_in(3) ? "" : service, renew, gateway);
        break;
    case 1:
    case 2:
        post = true;
        snprintf(target, sizeof target, "/cas/login");
        user = one_in(2) ? "ann" : "bo+b";
        lt = pick(logins, n_logins);
        snprintf(body, sizeof body, "username=%s&password=x&lt=%s&service=%s", user, lt, one_in(3) ? "" : service);
        break;
    case 3:
    case 4:
        post = false;
        shown = n_tickets ? (int)(n_tickets > 8 && !one_in(4) ? n_tickets - 1 - (int)(any() % 8) : (int)(any() % (uint64_t)n_tickets)) : -1;
        if (shown >= 0 && !one_in(6))
            service = services[service_of[shown]];
        validator = one_in(3) ? "validate" : one_in(2) ? "serviceValidate" : "proxyValidate";
        snprintf(target, sizeof target, "/cas/%s?service=%s&ticket=%s%s%s", validator, service, shown >= 0 ? tickets[shown] : "ST-1-00", renew,
                 one_in(2) ? "&pgtUrl=https://a.lan/cb" : "");
        break;
    case 5:
        post = false;
        snprintf(target, sizeof target, "/cas/proxy?pgt=%s&targetService=%s", pick(grants, n_grants), service);
        break;
    case 6:
        post = false;
        if (one_in(4))
            snprintf(target, sizeof target, "/cas/logout?url=%s", service);
        else
            snprintf(target, sizeof target, "/cas/login?service=%s", service);
        break;
    default:
        snprintf(target, sizeof target, "/cas/%s", one_in(2) ? "" : "nothing?a=b");
    }
    if (one_in(8)) {
        size_t n = strlen(target);
        for (int i = 0; n && i < 3; i++)
            target[any() % n] = (char)(1 + any() % 255);
    }
    if (one_in(12)) {
        size_t n = strlen(body);
        for (int i = 0; n && i < 3; i++)
            body[any() % n] = (char)(1 + any() % 255);
    }
    if (one_in(60)) {
        memset(target, 'a', 2100);
        target[2100] = 0;
    }
    return post;
}

static uint64_t number_at(const uint8_t *p)
{
    uint64_t v = 0;
    for (int i = 8; i-- > 0;)
        v = v << 8 | p[i];
    return v;
}

/* Whether the record that a slot held before the call is dead by the table's clock after it. */
static bool dead(size_t slot)
{
    const uint8_t *r = before + slot * BLOCK;
    return *r && number_at(r + 16) <= number_at(table + 8);
}

/* Whether a service or proxy ticket of this serial was held before the call and is not dead. */
static bool lives(uint32_t serial)
{
    for (size_t k = 1; k < table_len / BLOCK; k++) {
        const uint8_t *r = before + k * BLOCK;
        if ((*r == 3 || *r == 4) && (uint32_t)number_at(r + 8) == serial)
            return !dead(k);
    }
    return false;
}

/* The place where a ticket is kept, or -1. */
static int place_of(const char *ticket)
{
    for (int i = 0; i < n_tickets; i++)
        if (!strcmp(tickets[i], ticket))
            return i;
    return -1;
}

static void succeeded(const char *ticket)
{
    int i = place_of(ticket);
    if (i < 0)
        return;
    if (won[i])
        fault("a ticket succeeded twice");
    if (!lives((uint32_t)strtoul(ticket + 3, 0, 10)))
        fault("a dead ticket succeeded");
    won[i] = 1;
    accepted++;
}

/* The two lines of a visit: the service of a ticket that succeeded, and its text in the request. */
static void hear_visit(uint64_t n)
{
    static char said[OUT + 1];
    char ticket[80] = "", first[256];
    int i;
    memcpy(said, out, n);
    said[n] = 0;
    sscanf(said, "%*[^\n]\n<samlp:LogoutRequest %*[^@]@NOT_USED@</saml:NameID><samlp:SessionIndex>%79[^<]", ticket);
    i = place_of(ticket);
    snprintf(first, sizeof first, "%s\n", i < 0 ? "" : services[service_of[i]]);
    if (i < 0 || !won[i] || strncmp(ticket, "ST-", 3) || strncmp(said, first, strlen(first)))
        fault("a visit of no ticket that succeeded");
    told++;
}

/* The text of a ticket just issued, which a mark begins, and the service that it is for. */
static void hear_ticket(const char *said, const char *mark, int skip, const char *stop, const char *names_service)
{
    const char *at = strstr(said, mark);
    if (!at)
        fault("a ticket issued that is not told");
    else if (n_tickets < KEPT) {
        service_of[n_tickets] = named(names_service);
        keep(tickets, &n_tickets, KEPT, at + skip, stop);
    }
}

static void learn(void)
{
    static char said[OUT + 1];
    char *at;
    uint64_t n = outcome[PYHTIRSO_LENGTH];
    memcpy(said, out, n);
    said[n] = 0;
    if ((at = strstr(said, "value=\"LT-")))
        keep(logins, &n_logins, 64, at + 7, "\"");
    if (outcome[PYHTIRSO_KIND] == 2 && outcome[PYHTIRSO_DATA]) {
        issued++;
        hear_ticket(said, "ticket=ST-", 7, "\n", said);
    }
    if (!strncmp(target, "/cas/proxy?", 11) && outcome[PYHTIRSO_DATA]) {
        issued++;
        hear_ticket(said, "<cas:proxyTicket>PT-", 17, "<", target);
    }
    if (outcome[PYHTIRSO_KIND] == 5) {
        keep(grants, &n_grants, 64, strstr(said, "pgtId=") + 6, "&");
        serials[n_serials++ % 64] = (uint32_t)outcome[PYHTIRSO_CALLBACK_SERIAL];
    }
    if (outcome[PYHTIRSO_COOKIE_LENGTH]) {
        memcpy(said, cookie_out, outcome[PYHTIRSO_COOKIE_LENGTH]);
        said[outcome[PYHTIRSO_COOKIE_LENGTH]] = 0;
        keep(cookies, &n_cookies, 64, said, "\n");
    }
    if (!strncmp(target, "/cas/", 5) && strstr(target, "alidate?") && (at = strstr(target, "ticket="))) {
        static char ticket[80];
        snprintf(ticket, sizeof ticket, "%.*s", (int)strcspn(at + 7, "&"), at + 7);
        if (outcome[PYHTIRSO_KIND] == 5 || outcome[PYHTIRSO_DATA])
            succeeded(ticket);
    }
}

static void hold(size_t out_len, size_t cookie_len)
{
    uint64_t *o = outcome;
    if (o[0] > 9)
        fault("a number that is no refusal");
    else if (o[0]) {
        refused[o[0]]++;
        for (int i = 1; i < PYHTIRSO_OUTCOME; i++)
            if (o[i])
                fault("a refused call told something");
        if (memcmp(table, before, table_len) || memcmp(out, out_before, OUT) || memcmp(cookie_out, cookie_before, COOKIE))
            fault("a refused call wrote something");
    } else {
        answered++;
        if (o[PYHTIRSO_LENGTH] > out_len || o[PYHTIRSO_COOKIE_LENGTH] > cookie_len)
            fault("a length beyond its buffer");
        else if (memcmp(out + o[PYHTIRSO_LENGTH], out_before + o[PYHTIRSO_LENGTH], OUT - o[PYHTIRSO_LENGTH])
                 || memcmp(cookie_out + o[PYHTIRSO_COOKIE_LENGTH], cookie_before + o[PYHTIRSO_COOKIE_LENGTH], COOKIE - o[PYHTIRSO_COOKIE_LENGTH]))
            fault("bytes beyond the length were written");
        else
            learn();
        if (pyhtirso_check(table, table_len))
            fault("an answered call left an unsound table");
    }
}

static void prepare(void)
{
    for (int i = 0; i < RANDOM; i++)
        random_bytes[i] = (uint8_t)any();
    memset(out, (int)any(), OUT);
    memset(cookie_out, (int)any(), COOKIE);
    memcpy(out_before, out, OUT);
    memcpy(cookie_before, cookie_out, COOKIE);
    memcpy(before, table, table_len);
    now += one_in(20) ? any() % 400 : any() % 3;
}

/* After a call of answer or finish that ended no session. */
static void hold_dead(void)
{
    if (outcome[PYHTIRSO_REFUSAL] || outcome[PYHTIRSO_COOKIE_LENGTH] || outcome[PYHTIRSO_COOKIE_CLEARED])
        return;
    for (size_t k = 1; k < table_len / BLOCK; k++)
        if (dead(k) && memcmp(before + k * BLOCK, table + k * BLOCK, BLOCK))
            fault("a dead record did not stay");
}

static void call(void)
{
    size_t out_len = one_in(80) ? any() % OUT : OUT, cookie_len = one_in(80) ? any() % COOKIE : COOKIE, random_len = one_in(80) ? any() % RANDOM : RANDOM;
    uint64_t time = one_in(80) ? any() : now;
    bool post = make_request();
    prepare();
    pyhtirso_answer(table, table_len, panels, panels_len, post, (uint8_t *)target, strlen(target), (uint8_t *)body, strlen(body), (uint8_t *)cookie,
                    strlen(cookie), time, random_bytes, random_len, !one_in(5), out, out_len, cookie_out, cookie_len, outcome, PYHTIRSO_OUTCOME);
    hold(out_len, cookie_len);
    hold_dead();
    if (time <= (1ull << 40) && time > now && !outcome[0])
        now = time;
}

static void finish(void)
{
    size_t out_len = one_in(40) ? any() % OUT : OUT;
    uint32_t serial = n_serials && !one_in(5) ? serials[any() % (uint64_t)(n_serials < 64 ? n_serials : 64)] : (uint32_t)any();
    snprintf(target, sizeof target, "finish %u", serial);
    prepare();
    pyhtirso_finish(table, table_len, serial, !one_in(3), now, out, out_len, outcome, PYHTIRSO_OUTCOME);
    hold(out_len, 0);
    hold_dead();
}

/* What housekeeping made of the table: the clock moved, the dead freed, all else as it was. */
static void hold_house(uint64_t time)
{
    static const uint8_t check_of_zeros[4] = { 0x01, 0x00, 0xFC, 0x01 };
    uint64_t clock = number_at(before + 8);
    if (number_at(table + 8) != (clock < time ? time : clock) || memcmp(table, before, 8) || memcmp(table + 16, before + 16, 508 - 16))
        fault("housekeeping made another header");
    for (size_t k = 1; k < table_len / BLOCK; k++) {
        uint8_t *was = before + k * BLOCK;
        if (dead(k)) {
            freed++;
            memset(was, 0, BLOCK);
            memcpy(was + 508, check_of_zeros, 4);
        }
        if (memcmp(was, table + k * BLOCK, BLOCK))
            fault("housekeeping made another record");
    }
}

/* Housekeeping, now and then at a time long past or to come, the last or beyond it, or of a cut table. */
static void housekeep(void)
{
    size_t len = one_in(40) ? any() % table_len : table_len;
    uint64_t time = one_in(10) ? 0 : one_in(10) ? (1ull << 40) + 1 + any() % 1000 : one_in(4) ? now + any() % 30000 : now;
    if (one_in(200))
        time = 1ull << 40;
    snprintf(target, sizeof target, "housekeep %llu", (unsigned long long)time);
    prepare();
    memset(outcome, 0, sizeof outcome);
    outcome[PYHTIRSO_REFUSAL] = pyhtirso_housekeep(table, len, time);
    hold(0, 0);
    if (outcome[PYHTIRSO_REFUSAL])
        return;
    kept_house++;
    hold_house(time);
    if (time > now && time < 1ull << 40)
        now = time;
}

/* A visit of a cookie's session, now and then with a shaken cookie, any number, a time to come or any, a cut table. */
static void visit(void)
{
    size_t out_len = one_in(40) ? any() % OUT : OUT, random_len = one_in(40) ? any() % RANDOM : RANDOM;
    size_t len = one_in(40) ? any() % table_len : table_len;
    uint32_t number = one_in(10) ? (uint32_t)any() : (uint32_t)(any() % 3);
    uint64_t time = one_in(40) ? any() : one_in(10) ? now + any() % 30000 : now, list[PYHTIRSO_VISIT];
    snprintf(target, sizeof target, "visit %u", number);
    snprintf(cookie, sizeof cookie, "%s", one_in(10) ? "" : pick(cookies, n_cookies));
    if (*cookie && one_in(10))
        cookie[any() % strlen(cookie)] ^= (char)(1 + any() % 255);
    prepare();
    pyhtirso_visit(table, len, (uint8_t *)cookie, strlen(cookie), number, time, random_bytes, random_len, out, out_len, list, PYHTIRSO_VISIT);
    memset(outcome, 0, sizeof outcome);
    outcome[PYHTIRSO_REFUSAL] = list[0];
    outcome[PYHTIRSO_LENGTH] = list[1];
    hold(out_len, 0);
    if (memcmp(table, before, table_len))
        fault("a visit changed the table");
    if (!list[0])
        hear_visit(list[1]);
}

/* A byte of the table or the register is changed: the next call must refuse it and leave it; then it is changed back. */
static void damage(void)
{
    bool of_panels = one_in(4);
    uint8_t *b = of_panels ? panels + any() % panels_len : table + any() % table_len, old = *b;
    *b ^= (uint8_t)(1 + any() % 255);
    if (of_panels || one_in(2))
        call();
    else if (one_in(2))
        visit();
    else
        housekeep();
    if (!outcome[0])
        fault("a damaged byte was not noticed");
    *b = old;
}

static void start(void)
{
    table_len = (9 + (one_in(3) ? any() % 120 : any() % 8)) * BLOCK;
    for (size_t i = 0; i < table_len; i++)
        table[i] = (uint8_t)any();
    snprintf(target, sizeof target, "format");
    if (now > (1ull << 40))
        now = 1000;
    if (pyhtirso_format(table, table_len, now) || pyhtirso_check(table, table_len))
        fault("a formatted table is not sound");
    n_tickets = n_logins = n_grants = n_cookies = n_serials = 0;
    memset(won, 0, sizeof won);
}

/* Every place of a nine-block table with some records, several values each: check must say 2. */
static void every_place(void)
{
    long tried = 0, missed = 0;
    start();
    table_len = 9 * BLOCK;
    pyhtirso_format(table, table_len, now);
    for (int i = 0; i < 60; i++)
        call();
    for (size_t at = 0; at < table_len; at++)
        for (int i = 0; i < 5; i++) {
            uint8_t old = table[at], change = (uint8_t)(i == 0 ? 1 : i == 1 ? 128 : i == 2 ? 255 : 1 + any() % 255);
            table[at] ^= change;
            tried++;
            missed += pyhtirso_check(table, table_len) != 2;
            table[at] = old;
        }
    printf("one-byte changes of a nine-block table: %ld tried, %ld not refused with 2\n", tried, missed);
    faults += missed;
}

int main(int argc, char **argv)
{
    long most = argc > 2 ? atol(argv[2]) : 200000;
    seed = argc > 1 ? strtoull(argv[1], 0, 10) * 2654435761u + 88172645463325252u : seed;
    for (int i = 0; i < PANELS; i++)
        panel(panels + i * BLOCK, services[i], i == 0 ? "https://a.lan/cb" : i == 1 ? "https://a.lan/cb" : "");
    start();
    for (calls = 0; calls < most; calls++) {
        if (one_in(3000) || n_tickets >= KEPT - 2)
            start();
        else if (one_in(10))
            finish();
        else if (one_in(10))
            visit();
        else if (one_in(30))
            damage();
        else if (one_in(30))
            housekeep();
        else
            call();
    }
    every_place();
    printf("%ld calls, %ld answered, %ld tickets issued, %ld accepted, %ld visits told, house kept %ld times, %ld dead freed; refused", calls, answered,
           issued, accepted, told, kept_house, freed);
    for (int i = 1; i < 10; i++)
        printf(" %d:%ld", i, refused[i]);
    printf("\n%ld faults\n", faults);
    return faults != 0;
}
