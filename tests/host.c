/* A host in plain C: it makes a register and has it checked, signs a user in, validates, replays the ticket, takes a grant, proxies, to the
 * deepest chain too, has the visits told and logs out; then it presents each kind of text misspelt, lets everything expire, and keeps house. It
 * checks each answer. */
#include "client.h"
#include <time.h>

static int failed;

static void expect(const char *what, bool holds)
{
    printf("%s: %s\n", what, holds ? "ok" : "FAILED");
    failed += !holds;
}

static int proxies_told(void)
{
    int n = 0;
    for (const char *at = said; (at = strstr(at, "<cas:proxy>")); at++)
        n++;
    return n;
}

static void take_ticket(char *jar, char *ticket)
{
    call(jar, false, "/cas/login?service=" LAMP, "", false);
    snprintf(ticket, 80, "%s", between(said, "ticket=", ""));
}

static void validate(char *jar, const char *service, const char *ticket)
{
    char target[512];
    snprintf(target, sizeof target, "/cas/serviceValidate?service=%s&ticket=%s", service, ticket);
    call(jar, false, target, "", false);
}

/* How many slots hold a record of a kind, live or dead; 0 is free. */
static int held(int kind)
{
    int n = 0;
    for (int slot = 1; slot < BLOCKS; slot++)
        n += table[slot * BLOCK] == kind;
    return n;
}

/* Whether the visit of a number is told of that service and ticket, byte by byte, and the table is as it was. */
static bool told(const char *jar, uint32_t number, const char *service, const char *ticket)
{
    static uint8_t before[sizeof table];
    char id[33], date[32], text[1024];
    time_t instant = (time_t)now;
    memcpy(before, table, sizeof table);
    if (ask_visit(jar, number))
        return false;
    for (int i = 0; i < 16; i++)
        snprintf(id + 2 * i, 3, "%02x", random_bytes[16 + i]);
    strftime(date, sizeof date, "%Y-%m-%dT%H:%M:%SZ", gmtime(&instant));
    snprintf(text, sizeof text,
             "%s\n<samlp:LogoutRequest xmlns:samlp=\"urn:oasis:names:tc:SAML:2.0:protocol\" ID=\"_%s\" Version=\"2.0\" IssueInstant=\"%s\">"
             "<saml:NameID xmlns:saml=\"urn:oasis:names:tc:SAML:2.0:assertion\">@NOT_USED@</saml:NameID>"
             "<samlp:SessionIndex>%s</samlp:SessionIndex></samlp:LogoutRequest>\n",
             service, id, date, ticket);
    return !strcmp(said, text) && !memcmp(before, table, sizeof table);
}

/* A refusal number of panel, and whether the buffer is as it was. */
static bool panel_refused(const char *service, const char *callback, size_t size, uint32_t number)
{
    uint8_t block[BLOCK], before[BLOCK];
    memset(block, 7, BLOCK);
    memcpy(before, block, BLOCK);
    return pyhtirso_panel((const uint8_t *)service, strlen(service), (const uint8_t *)callback, strlen(callback), block, size) == number
           && !memcmp(block, before, BLOCK);
}

static bool panel_made(const char *service, const char *callback)
{
    uint8_t block[BLOCK], by_hand[BLOCK];
    memset(block, 7, BLOCK);
    panel(by_hand, service, callback);
    return !pyhtirso_panel((const uint8_t *)service, strlen(service), (const uint8_t *)callback, strlen(callback), block, BLOCK)
           && !memcmp(block, by_hand, BLOCK);
}

/* Whether the check of a register gives these two numbers. */
static bool judged(const uint8_t *blocks, size_t size, uint64_t refusal, uint64_t block)
{
    uint64_t fault[PYHTIRSO_FAULT];
    return pyhtirso_check_register(blocks, size, fault, PYHTIRSO_FAULT) && fault[0] == refusal && fault[1] == block;
}

static void try_registers(void)
{
    uint8_t blocks[17 * BLOCK];
    char service[32];
    expect("register blocks as made by hand", panel_made(GATE, GATE_CALLBACK) && panel_made(LAMP, ""));
    expect("a callback without https, a `#`, no service: refused",
           panel_refused(GATE, "http://gate.lan/cb", BLOCK, 3) && panel_refused(GATE "#a", "", BLOCK, 3) && panel_refused("", "", BLOCK, 3));
    expect("a buffer that is no block is refused, after the texts", panel_refused(GATE, "", BLOCK - 1, 4) && panel_refused("", "", BLOCK - 1, 3));
    for (int i = 0; i < 17; i++) {
        snprintf(service, sizeof service, "https://panel%d.lan/", i);
        panel(blocks + i * BLOCK, service, "");
    }
    expect("a register of sixteen panels is sound", judged(blocks, 16 * BLOCK, 0, 0) && judged(blocks, BLOCK, 0, 0));
    expect("a wrong length is told at block 0", judged(blocks, 17 * BLOCK, 3, 0) && judged(blocks, 0, 3, 0) && judged(blocks, BLOCK + 1, 3, 0));
    blocks[9 * BLOCK + 300] ^= 1;
    expect("a damaged block is told by its place", judged(blocks, 16 * BLOCK, 3, 9) && judged(blocks, 9 * BLOCK, 0, 0));
    panel(blocks + 5 * BLOCK, "https://panel2.lan/", "");
    expect("so is the second block of one service, which comes first", judged(blocks, 16 * BLOCK, 3, 5));
    panel(blocks + 4 * BLOCK, "https://panel4.lan/", "http://panel4.lan/cb");
    expect("so is a block that breaks a rule", judged(blocks, 16 * BLOCK, 3, 4));
}

/* The form is asked for and posted, for the lamp panel. */
static void sign_in(char *jar, const char *user)
{
    char body[1024];
    call(jar, false, "/cas/login?renew=1&service=" LAMP, "", false);
    snprintf(body, sizeof body, "username=%s&password=secret&service=" LAMP "&lt=%s", user, login_ticket());
    call(jar, true, "/cas/login", body, true);
}

static uint32_t housekeep(void) { return pyhtirso_housekeep(table, sizeof table, now); }

/* Whether no record was changed by what came after the copy. */
static bool records_kept(const uint8_t *before) { return !memcmp(before + BLOCK, table + BLOCK, sizeof table - BLOCK); }

static void try_tickets_expired(char *jar, char *pgt)
{
    char target[512], ticket[80], proxied[80];
    uint32_t serial;
    take_ticket(jar, ticket);
    call(jar, false, "/cas/login?service=" GATE, "", false);
    snprintf(target, sizeof target, "/cas/serviceValidate?service=" GATE "&pgtUrl=" GATE_CALLBACK "&ticket=%s", between(said, "ticket=", ""));
    call(jar, false, target, "", false);
    snprintf(pgt, 80, "%s", between(said, "pgtId=", "&"));
    finish((uint32_t)outcome[PYHTIRSO_CALLBACK_SERIAL], true);
    snprintf(target, sizeof target, "/cas/proxy?pgt=%s&targetService=" GATE, pgt);
    call(jar, false, target, "", false);
    snprintf(target, sizeof target, "/cas/proxyValidate?service=" GATE "&pgtUrl=" GATE_CALLBACK "&ticket=%s", between(said, "<cas:proxyTicket>", "<"));
    call(jar, false, target, "", false);
    serial = (uint32_t)outcome[PYHTIRSO_CALLBACK_SERIAL];
    snprintf(target, sizeof target, "/cas/proxy?pgt=%s&targetService=" LAMP, pgt);
    call(jar, false, target, "", false);
    snprintf(proxied, sizeof proxied, "%s", between(said, "<cas:proxyTicket>", "<"));
    now += 60;
    finish(serial, true);
    expect("a waiting grant is dead after a minute, and stays", says(XML, 200, "code=\"INVALID_TICKET\"") && held(5) == 1);
    now += 240;
    validate(jar, LAMP, ticket);
    expect("a ticket after five", says(XML, 200, "code=\"INVALID_TICKET\"") && held(3) == 1);
    snprintf(target, sizeof target, "/cas/proxyValidate?service=" LAMP "&ticket=%s", proxied);
    call(jar, false, target, "", false);
    expect("a proxy ticket, too", says(XML, 200, "code=\"INVALID_TICKET\"") && held(4) == 1);
    expect("house is kept: the dead go, and nothing else",
           !housekeep() && !held(3) && !held(4) && !held(5) && held(2) == 1 && held(6) == 1 && held(7) == 1 && !pyhtirso_check(table, sizeof table));
}

static void try_forms_expired(void)
{
    char none[JAR] = "", body[512], late[80];
    int forms = held(0);
    for (int i = 0; i < forms; i++)
        call(none, false, "/cas/login", "", false);
    snprintf(late, sizeof late, "%s", login_ticket());
    now += 600;
    call(none, false, "/cas/login", "", false);
    expect("the dead take slots: 503", says(PAGE, 503, "503") && !held(0) && held(1) == forms);
    snprintf(body, sizeof body, "username=ann&password=secret&lt=%s", late);
    call(none, true, "/cas/login", body, true);
    expect("a dead login ticket is none, and stays", says(PAGE, 503, "503") && !*none && held(1) == forms);
    expect("house is kept, a time below the table's own serving too", !pyhtirso_housekeep(table, sizeof table, 0) && held(0) == forms);
    call(none, false, "/cas/login", "", false);
    expect("and there is room again", says(PAGE, 200, "<form"));
}

static void try_session_expired(char *jar, const char *pgt)
{
    static uint8_t before[sizeof table];
    char old[JAR], target[512];
    now += 28800;
    memcpy(old, jar, JAR);
    memcpy(before, table, sizeof table);
    snprintf(target, sizeof target, "/cas/proxy?pgt=%s&targetService=" LAMP, pgt);
    call(jar, false, target, "", false);
    expect("a dead session's grant is none", says(XML, 200, "code=\"BAD_PGT\""));
    call(jar, false, "/cas/login?gateway=1&service=" LAMP, "", false);
    expect("nor is the session one", says(REDIRECT, 303, LAMP) && !outcome[PYHTIRSO_DATA]);
    expect("nobody is told of it", ask_visit(jar, 0) == 9);
    call(jar, false, "/cas/logout", "", false);
    expect("a logout only clears the cookie", says(PAGE, 200, "Signed out") && outcome[PYHTIRSO_COOKIE_CLEARED] && records_kept(before));
    memcpy(jar, old, JAR);
    sign_in(jar, "ann");
    expect("the same user gets a new session", says(REDIRECT, 303, LAMP "?ticket=ST-") && strcmp(jar, old) && held(2) == 2 && held(7) == 1);
    memcpy(jar, old, JAR);
    sign_in(jar, "bob");
    expect("another user ends nothing", says(REDIRECT, 303, LAMP "?ticket=ST-") && held(2) == 3 && held(7) == 1 && held(6) == 1);
    expect("house is kept: the new sessions stay", !housekeep() && held(2) == 2 && held(3) == 2 && held(0) == BLOCKS - 1 - 4);
}

/* A text misspelt in the way of a number: a leading zero, the serial 2^32 higher, a capital hex digit, the last hex digit another, one more, one
 * less, another kind's prefix. False beyond the last way. */
static bool misspelt(char *to, const char *text, int way)
{
    const char *serial = strchr(text, '-') + 1, *hex = strchr(serial, '-') + 1;
    size_t last = strlen(text) - 1;
    snprintf(to, 90, "%s", text);
    switch (way) {
    case 0:
        snprintf(to, 90, "%.*s0%s", (int)(serial - text), text, serial);
        return true;
    case 1:
        snprintf(to, 90, "%.*s%llu-%s", (int)(serial - text), text, strtoull(serial, 0, 10) + (1ull << 32), hex);
        return true;
    case 2:
        for (char *c = to + (hex - text); *c; c++)
            if (*c >= 'a') {
                *c = (char)(*c - 32);
                return true;
            }
        abort(); /* a draw without a single letter */
    case 3:
        to[last] = to[last] == '0' ? '1' : '0';
        return true;
    case 4:
        to[last + 1] = '0';
        to[last + 2] = 0;
        return true;
    case 5:
        to[last] = 0;
        return true;
    case 6:
        to[0] = to[0] == 'P' ? 'S' : 'P';
        return true;
    }
    return false;
}

/* No misspelt text of any kind finds its record, which stays; a text with escapes is the same text. */
static void try_misspelt(void)
{
    static uint8_t before[sizeof table];
    char jar[JAR] = "", wrong[JAR + 30], target[512], body[512], lt[80], ticket[80], pgt[80];
    int found = 0, ways = 0;
    pyhtirso_format(table, sizeof table, now);
    sign_in(jar, "ann");
    call(jar, false, "/cas/login?service=" GATE, "", false);
    snprintf(target, sizeof target, "/cas/serviceValidate?service=" GATE "&pgtUrl=" GATE_CALLBACK "&ticket=%s", between(said, "ticket=", ""));
    call(jar, false, target, "", false);
    snprintf(pgt, sizeof pgt, "%s", between(said, "pgtId=", "&"));
    finish((uint32_t)outcome[PYHTIRSO_CALLBACK_SERIAL], true);
    call(jar, false, "/cas/login?renew=1", "", false);
    snprintf(lt, sizeof lt, "%s", login_ticket());
    take_ticket(jar, ticket);
    memcpy(before, table, sizeof table);
    for (; misspelt(wrong, ticket, ways); ways++) {
        validate(jar, LAMP, wrong);
        found += !says(XML, 200, "code=\"INVALID_TICKET\"");
        misspelt(wrong, pgt, ways);
        snprintf(target, sizeof target, "/cas/proxy?pgt=%s&targetService=" LAMP, wrong);
        call(jar, false, target, "", false);
        found += !says(XML, 200, "code=\"BAD_PGT\"");
        misspelt(wrong, jar, ways);
        call(wrong, false, "/cas/login?gateway=1&service=" LAMP, "", false);
        found += outcome[PYHTIRSO_DATA] != 0;
    }
    expect("seven ways to misspell ticket, grant and cookie find no record", ways == 7 && !found && records_kept(before));
    for (int way = 0; misspelt(wrong, lt, way); way++) {
        snprintf(body, sizeof body, "username=ann&password=secret&lt=%s", wrong);
        call(jar, true, "/cas/login", body, true);
        found += !says(PAGE, 401, "<form");
    }
    expect("nor a login ticket", !found && held(1) == 8);
    snprintf(target, sizeof target, "%%53T%s", ticket + 2);
    validate(jar, LAMP, target);
    expect("an escaped letter is that letter", says(XML, 200, "<cas:user>ann</cas:user>"));
}

static void try_housekeeping_refused(void)
{
    static uint8_t before[sizeof table];
    const uint64_t late = (1ull << 40) + 1;
    now += 28800;
    memcpy(before, table, sizeof table);
    expect("a table of eight blocks, and a time over 2^40, are refused",
           pyhtirso_housekeep(table, 8 * BLOCK, now) == 1 && pyhtirso_housekeep(table, sizeof table, late) == 6);
    table[5 * BLOCK + 100] = before[5 * BLOCK + 100] ^= 1;
    expect("so is a damaged table, before the time", housekeep() == 2 && pyhtirso_housekeep(table, sizeof table, late) == 2);
    expect("and nothing was written", !memcmp(before, table, sizeof table));
    table[5 * BLOCK + 100] ^= 1;
    expect("the last second is none too many", !pyhtirso_housekeep(table, sizeof table, late - 1) && held(0) == BLOCKS - 1);
}

static void try_expiry(void)
{
    char jar[JAR] = "", pgt[80];
    pyhtirso_format(table, sizeof table, now);
    sign_in(jar, "ann");
    now += 300;
    call(jar, false, "/cas/logout", "", false);
    expect("a session that is ended takes its dead ticket with it", held(0) == BLOCKS - 1);
    sign_in(jar, "ann");
    now += 300;
    expect("house is kept: a session without its first ticket", !housekeep() && held(2) == 1 && held(0) == BLOCKS - 2);
    try_tickets_expired(jar, pgt);
    try_forms_expired();
    try_session_expired(jar, pgt);
    try_housekeeping_refused();
}

int main(void)
{
    char jar[JAR] = "", kept[JAR], body[1024], target[2048], ticket[80], first[80], burnt[80], low[80], high[80], pgt[80], iou[80];
    uint64_t wrong[7];
    now = 1000;
    try_registers();
    register_panels();

    expect("format a table", pyhtirso_format(table, sizeof table, now) == 0 && pyhtirso_check(table, sizeof table) == 0);
    expect("a table of eight blocks is refused", pyhtirso_format(table, 8 * BLOCK, now) == 1);

    call(jar, false, "/cas/login?service=https://gate.lan/p", "", false);
    expect("the form", !outcome[PYHTIRSO_DATA] && says(PAGE, 200, "<input name=\"service\" type=\"hidden\" value=\"https://gate.lan/p\">"));
    snprintf(body, sizeof body, "username=ann&password=secret&service=https%%3A%%2F%%2Fgate.lan%%2Fp&lt=%s", login_ticket());

    uint8_t username[64], password[128];
    uint64_t form[PYHTIRSO_FORM];
    expect("the form reader", pyhtirso_read_form((const uint8_t *)body, strlen(body), username, 64, password, 128, form, PYHTIRSO_FORM)
                                  && form[0] == 0 && form[1] == 3 && !memcmp(username, "ann", 3) && form[2] == 6 && !memcmp(password, "secret", 6));

    call(jar, true, "/cas/login", body, true);
    expect("sign in", says(REDIRECT, 303, "https://gate.lan/p?ticket=ST-") && outcome[PYHTIRSO_DATA] == 1 && outcome[PYHTIRSO_COOKIE_LENGTH] > 0);
    snprintf(first, sizeof first, "%s", between(said, "ticket=", ""));
    call(jar, true, "/cas/login", body, true);
    expect("the login ticket is spent", says(PAGE, 401, "<p>401</p>"));

    snprintf(target, sizeof target, "/cas/serviceValidate?service=https://gate.lan/p&pgtUrl=https://gate.lan/cb&ticket=%s", first);
    call(jar, false, target, "", false);
    expect("validate: a callback",
           says(CALLBACK, 0, "https://gate.lan/cb?pgtId=PGT-") && !outcome[PYHTIRSO_DATA] && outcome[PYHTIRSO_CALLBACK_SERIAL] != 0);
    snprintf(pgt, sizeof pgt, "%s", between(said, "pgtId=", "&"));
    snprintf(iou, sizeof iou, "%s", between(said, "pgtIou=", ""));
    finish((uint32_t)outcome[PYHTIRSO_CALLBACK_SERIAL], true);
    expect("finish: success with user and IOU",
           says(XML, 200, "<cas:user>ann</cas:user>") && outcome[PYHTIRSO_DATA] == 1 && strstr(said, iou) != 0);
    call(jar, false, target, "", false);
    expect("replay of the ticket", says(XML, 200, "code=\"INVALID_TICKET\"") && !outcome[PYHTIRSO_DATA]);

    snprintf(target, sizeof target, "/cas/proxy?pgt=%s&targetService=https://lamp.lan/", pgt);
    call(jar, false, target, "", false);
    expect("proxy", says(XML, 200, "<cas:proxyTicket>PT-") && outcome[PYHTIRSO_DATA] == 1);
    snprintf(ticket, sizeof ticket, "%s", between(said, "<cas:proxyTicket>", "<"));
    snprintf(target, sizeof target, "/cas/proxyValidate?service=https://lamp.lan/&ticket=%s", ticket);
    call(jar, false, target, "", false);
    expect("proxyValidate: the chain", says(XML, 200, "<cas:proxy>https://gate.lan/cb</cas:proxy>"));
    call(jar, false, target, "", false);
    expect("replay of the proxy ticket", says(XML, 200, "code=\"INVALID_TICKET\""));

    int deepened = 0;
    for (int depth = 2; depth <= 5; depth++) {
        snprintf(target, sizeof target, "/cas/proxy?pgt=%s&targetService=" GATE, pgt);
        call(jar, false, target, "", false);
        snprintf(target, sizeof target, "/cas/proxyValidate?service=" GATE "&pgtUrl=" GATE_CALLBACK "&ticket=%s", between(said, "<cas:proxyTicket>", "<"));
        call(jar, false, target, "", false);
        if (depth == 5)
            break;
        snprintf(pgt, sizeof pgt, "%s", between(said, "pgtId=", "&"));
        finish((uint32_t)outcome[PYHTIRSO_CALLBACK_SERIAL], true);
        deepened += says(XML, 200, "<cas:proxyGrantingTicket>PGTIOU-");
    }
    expect("grants down to depth four", deepened == 3);
    expect("below it success without a grant, four proxies told", says(XML, 200, "<cas:user>ann</cas:user>") && proxies_told() == 4);

    take_ticket(jar, burnt);
    take_ticket(jar, high);
    validate(jar, GATE, burnt);
    take_ticket(jar, low); /* in the burnt ticket's slot, which is before that of the ticket taken earlier */
    validate(jar, LAMP, high);
    validate(jar, LAMP, low);
    now += 60;
    expect("three visits told in slot order, the table left as it is",
           held(7) == 3 && told(jar, 0, GATE, first) && told(jar, 1, LAMP, low) && told(jar, 2, LAMP, high));
    expect("no fourth visit, and none without a session", ask_visit(jar, 3) == 9 && ask_visit("", 0) == 9 && !*said);
    validate(jar, LAMP, low);
    expect("a visit's ticket is shown in vain, and the visit stays", says(XML, 200, "code=\"INVALID_TICKET\"") && told(jar, 1, LAMP, low));

    take_ticket(jar, ticket);
    snprintf(target, sizeof target, "/cas/validate?service=" LAMP "&ticket=%s", ticket);
    call(jar, false, target, "", false);
    expect("plain validate: yes", says(WORD, 200, "yes\n") && outcome[PYHTIRSO_DATA] == 1);
    call(jar, false, target, "", false);
    expect("and the second time no", says(WORD, 200, "no\n") && !outcome[PYHTIRSO_DATA]);

    memcpy(kept, jar, JAR);
    call(jar, false, "/cas/logout?url=https://lamp.lan/", "", false);
    expect("log out", says(PAGE, 200, "<a href=\"https://lamp.lan/\">Back</a>") && outcome[PYHTIRSO_COOKIE_CLEARED] == 1);
    expect("no visit is left", ask_visit(kept, 0) == 9 && !held(7));
    call(kept, false, "/cas/login", "", false);
    expect("the session is gone", says(PAGE, 200, "<form"));
    call(kept, false, "/cas/login?gateway=1&service=" GATE, "", false);
    expect("gateway: back without a ticket", says(REDIRECT, 303, GATE) && !outcome[PYHTIRSO_DATA]);

    memset(wrong, 7, sizeof wrong);
    memcpy(said, table, BLOCK);
    expect("a list of another length is refused and nothing is written",
           !pyhtirso_finish(table, sizeof table, 1, true, now, out, OUT, wrong, 7) && !pyhtirso_check_register(panels, sizeof panels, wrong, 1)
               && !pyhtirso_visit(table, sizeof table, cookie_out, 0, 0, now, random_bytes, RANDOM, out, OUT, wrong, 3)
               && wrong[0] == 0x0707070707070707u && !memcmp(said, table, BLOCK));
    try_misspelt();
    try_expiry();
    printf("%d failed\n", failed);
    return failed != 0;
}
