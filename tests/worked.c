/* The worked run of docs/HOST.md, call by call, over nothing but the header: each number, each byte that is told and the blocks that each call
 * changes are those that stand there. The n-th call is made n seconds after the start, with 48 random bytes that are all n; the last is made at
 * second 612. */
#include "../include/pyhtirso.h"
#include <stdio.h>
#include <string.h>

enum { BLOCK = 512, BLOCKS = 9, PANELS = 2, OUT = 8192, COOKIE = 64, RANDOM = 48 };

#define START 1709186400 /* 2024-02-29T06:00:00Z */
#define GATE "https://gate.lan/p"
#define GATE_CODED "https%3A%2F%2Fgate.lan%2Fp"
#define BACK "https://gate.lan/cb"
#define BACK_CODED "https%3A%2F%2Fgate.lan%2Fcb"
#define NINE(x) x x x x x x x x x
#define SIXTEEN(x) x x x x x x x x x x x x x x x x
#define VALIDATE "/cas/serviceValidate?service=" GATE_CODED "&ticket="

#define FORM(lt, service)                                                                                                                  \
    "<!DOCTYPE html>\n<title>200</title>\n<p>200</p>\n<form method=\"post\" action=\"/cas/login\">\n<input name=\"username\">\n"           \
    "<input name=\"password\" type=\"password\">\n<input name=\"lt\" type=\"hidden\" value=\"" lt "\">\n" service                          \
    "<button>Sign in</button>\n</form>\n"
#define RESPONSE(content) "<cas:serviceResponse xmlns:cas=\"http://www.yale.edu/tp/cas\">\n" content "</cas:serviceResponse>\n"
#define SUCCESS(mark, iou)                                                                                                                 \
    RESPONSE("  <cas:authenticationSuccess>\n    <cas:user>Mu\xc3\xb1oz</cas:user>\n    <cas:attributes>\n"                                \
             "      <cas:authenticationDate>2024-02-29T06:00:02Z</cas:authenticationDate>\n"                                               \
             "      <cas:longTermAuthenticationRequestTokenUsed>false</cas:longTermAuthenticationRequestTokenUsed>\n"                      \
             "      <cas:isFromNewLogin>" mark "</cas:isFromNewLogin>\n    </cas:attributes>\n" iou "  </cas:authenticationSuccess>\n")
#define LETTER(id, second, ticket)                                                                                                         \
    GATE "\n<samlp:LogoutRequest xmlns:samlp=\"urn:oasis:names:tc:SAML:2.0:protocol\" ID=\"_" id "\" Version=\"2.0\" "                     \
         "IssueInstant=\"2024-02-29T06:00:" second "Z\"><saml:NameID xmlns:saml=\"urn:oasis:names:tc:SAML:2.0:assertion\">"                \
         "@NOT_USED@</saml:NameID><samlp:SessionIndex>" ticket "</samlp:SessionIndex></samlp:LogoutRequest>\n"

/* What the answers tell, by the rules: prefix, serial, and the random bytes of the call that issued it. */
#define LOGIN_TICKET "LT-1-" NINE("01")
#define SESSION "TGC-2-" SIXTEEN("02")
#define FIRST "ST-3-" NINE("02")
#define SECOND "ST-4-" NINE("05")
#define GRANT "PGT-5-" SIXTEEN("06")
#define IOU "PGTIOU-" SIXTEEN("06")
#define NEXT_LOGIN_TICKET "LT-6-" NINE("0c")

static uint8_t table[BLOCKS * BLOCK], stored[BLOCKS * BLOCK], panels[PANELS * BLOCK], random_bytes[RANDOM], out[OUT], cookie_out[COOKIE];
static uint64_t outcome[PYHTIRSO_OUTCOME], visit[PYHTIRSO_VISIT], calls;
static int failed;

static void expect(const char *what, bool holds)
{
    printf("%s: %s\n", what, holds ? "ok" : "FAILED");
    failed += !holds;
}

/* The house check over the first 508 bytes of a block. */
static uint32_t check_of(const uint8_t *block)
{
    uint32_t a = 1, b = 0;
    for (int i = 0; i < 508; i++) {
        a = (a + block[i]) % 65535;
        b = (b + a) % 65535;
    }
    return b * 65536 + a;
}

static void write_panel(uint8_t *block, const char *service, const char *callback)
{
    uint32_t check;
    memset(block, 0, BLOCK);
    block[0] = (uint8_t)strlen(service);
    block[2] = (uint8_t)strlen(callback);
    memcpy(block + 4, service, strlen(service));
    memcpy(block + 204, callback, strlen(callback));
    check = check_of(block);
    for (int i = 0; i < 4; i++)
        block[508 + i] = (uint8_t)(check >> (8 * i));
}

/* The blocks that the last call changed are exactly these; they are stored, and only then may the answer be sent. */
static bool stores(const char *numbers)
{
    char found[64] = "";
    for (int k = 0; k < BLOCKS; k++)
        if (memcmp(table + k * BLOCK, stored + k * BLOCK, BLOCK)) {
            sprintf(found + strlen(found), "%s%d", *found ? " " : "", k);
            memcpy(stored + k * BLOCK, table + k * BLOCK, BLOCK);
        }
    return !strcmp(found, numbers) && pyhtirso_check(table, sizeof table) == PYHTIRSO_ANSWERED;
}

/* The next call's second and random bytes. */
static uint64_t next_time(void)
{
    calls++;
    memset(random_bytes, (int)calls, RANDOM);
    return START + calls;
}

static bool ask(bool post, const char *target, const char *body, const char *cookie, bool verdict)
{
    uint64_t time = next_time();
    return pyhtirso_answer(table, sizeof table, panels, sizeof panels, post, (const uint8_t *)target, strlen(target), (const uint8_t *)body,
                           strlen(body), (const uint8_t *)cookie, strlen(cookie), time, random_bytes, RANDOM, verdict, out, OUT, cookie_out,
                           COOKIE, outcome, PYHTIRSO_OUTCOME);
}

static uint64_t ask_visit(uint32_t number)
{
    uint64_t time = next_time();
    bool taken = pyhtirso_visit(table, sizeof table, (const uint8_t *)SESSION, strlen(SESSION), number, time, random_bytes, RANDOM, out, OUT,
                                visit, PYHTIRSO_VISIT);
    return taken ? visit[PYHTIRSO_VISIT_REFUSAL] : UINT64_MAX;
}

static bool wrote(const char *text, uint64_t length) { return length == strlen(text) && !memcmp(out, text, length); }

/* The last answer is of this kind, status and text, with this cookie (empty for none), cookie cleared or not, and callback serial. */
static bool says(uint64_t kind, uint64_t status, const char *text, const char *cookie, uint64_t cleared, uint64_t serial)
{
    return outcome[PYHTIRSO_REFUSAL] == PYHTIRSO_ANSWERED && outcome[PYHTIRSO_KIND] == kind && outcome[PYHTIRSO_STATUS] == status
           && wrote(text, outcome[PYHTIRSO_LENGTH]) && outcome[PYHTIRSO_COOKIE_LENGTH] == strlen(cookie)
           && !memcmp(cookie_out, cookie, strlen(cookie)) && outcome[PYHTIRSO_COOKIE_CLEARED] == cleared
           && outcome[PYHTIRSO_CALLBACK_SERIAL] == serial;
}

static void lay_table_and_register(void)
{
    uint8_t one[BLOCK] = { 0 };
    uint64_t fault[PYHTIRSO_FAULT];
    expect("the check of E1", check_of(one) == 33292289);
    one[0] = 1;
    expect("the check of E2", check_of(one) == 66584578);
    memset(one, 255, BLOCK);
    expect("the check of bytes 255", check_of(one) == 284031494U);
    expect("format", pyhtirso_format(table, sizeof table, START) == PYHTIRSO_ANSWERED && stores("0 1 2 3 4 5 6 7 8"));
    write_panel(panels, GATE, BACK);
    write_panel(panels + BLOCK, "https://lamp.lan/", "");
    expect("the gate's block, as the library makes it",
           pyhtirso_panel((const uint8_t *)GATE, strlen(GATE), (const uint8_t *)BACK, strlen(BACK), one, BLOCK) == PYHTIRSO_ANSWERED
               && !memcmp(one, panels, BLOCK));
    expect("the register is sound", pyhtirso_check_register(panels, sizeof panels, fault, PYHTIRSO_FAULT) && fault[PYHTIRSO_FAULT_REFUSAL] == PYHTIRSO_ANSWERED);
}

static void sign_in(void)
{
    static const char body[] = "username=Mu%C3%B1oz&password=horse+shoe&lt=" LOGIN_TICKET "&service=" GATE_CODED;
    uint8_t username[64], password[128];
    uint64_t form[PYHTIRSO_FORM];
    bool taken = ask(false, "/cas/login?service=" GATE_CODED, "", "", false);
    expect("1 the form", taken
                             && says(PYHTIRSO_KIND_PAGE, 200,
                                     FORM(LOGIN_TICKET, "<input name=\"service\" type=\"hidden\" value=\"" GATE "\">\n"), "", 0, 0)
                             && stores("0 1"));
    taken = pyhtirso_read_form((const uint8_t *)body, strlen(body), username, sizeof username, password, sizeof password, form, PYHTIRSO_FORM);
    expect("the form read", taken && form[PYHTIRSO_FORM_REFUSAL] == PYHTIRSO_ANSWERED && form[PYHTIRSO_FORM_USERNAME_LENGTH] == 6
                                && !memcmp(username, "Mu\xc3\xb1oz", 6) && form[PYHTIRSO_FORM_PASSWORD_LENGTH] == 10
                                && !memcmp(password, "horse shoe", 10));
    taken = ask(true, "/cas/login", body, "", true);
    expect("2 signed in", taken && says(PYHTIRSO_KIND_REDIRECT, 303, GATE "?ticket=" FIRST, SESSION, 0, 0) && stores("0 1 2"));
}

static void panel_validates(void)
{
    bool taken = ask(false, VALIDATE FIRST, "", "", false);
    expect("3 the ticket is good", taken && says(PYHTIRSO_KIND_XML, 200, SUCCESS("true", ""), "", 0, 0) && stores("0 2"));
    taken = ask(false, VALIDATE FIRST, "", "", false);
    expect("4 and good once", taken
                                  && says(PYHTIRSO_KIND_XML, 200,
                                          RESPONSE("  <cas:authenticationFailure code=\"INVALID_TICKET\">\n    INVALID_TICKET\n"
                                                   "  </cas:authenticationFailure>\n"),
                                          "", 0, 0)
                                  && stores("0"));
}

static void panel_takes_a_grant(void)
{
    bool taken = ask(false, "/cas/login?service=" GATE_CODED, "", SESSION, false);
    expect("5 a ticket by the cookie", taken && says(PYHTIRSO_KIND_REDIRECT, 303, GATE "?ticket=" SECOND, "", 0, 0) && stores("0 3"));
    taken = ask(false, VALIDATE SECOND "&pgtUrl=" BACK_CODED, "", "", false);
    expect("6 a callback", taken && says(PYHTIRSO_KIND_CALLBACK, 0, BACK "?pgtId=" GRANT "&pgtIou=" IOU, "", 0, 5) && stores("0 3 4"));
    taken = pyhtirso_finish(table, sizeof table, 5, true, next_time(), out, OUT, outcome, PYHTIRSO_OUTCOME);
    expect("7 finished", taken
                             && says(PYHTIRSO_KIND_XML, 200,
                                     SUCCESS("false", "    <cas:proxyGrantingTicket>" IOU "</cas:proxyGrantingTicket>\n"), "", 0, 0)
                             && stores("0 4"));
}

static void sign_out(void)
{
    bool taken;
    expect("8 the first visit", ask_visit(0) == PYHTIRSO_ANSWERED && wrote(LETTER(SIXTEEN("08"), "08", FIRST), visit[PYHTIRSO_VISIT_LENGTH]));
    expect("9 the second", ask_visit(1) == PYHTIRSO_ANSWERED && wrote(LETTER(SIXTEEN("09"), "09", SECOND), visit[PYHTIRSO_VISIT_LENGTH]));
    expect("10 and no third, the table as it was", ask_visit(2) == PYHTIRSO_REFUSED_NO_VISIT && stores(""));
    taken = ask(false, "/cas/logout?url=" GATE_CODED, "", SESSION, false);
    expect("11 signed out", taken
                                && says(PYHTIRSO_KIND_PAGE, 200,
                                        "<!DOCTYPE html>\n<title>200</title>\n<p>Signed out</p>\n<a href=\"" GATE "\">Back</a>\n", "", 1, 0)
                                && stores("0 1 2 3 4"));
    taken = ask(false, "/cas/login", "", SESSION, false);
    expect("12 the cookie is worth nothing now",
           taken && says(PYHTIRSO_KIND_PAGE, 200, FORM(NEXT_LOGIN_TICKET, ""), "", 0, 0) && stores("0 1"));
}

static void keep_house(void)
{
    expect("13 house is kept, and nothing is dead", pyhtirso_housekeep(table, sizeof table, next_time()) == PYHTIRSO_ANSWERED && stores("0"));
    expect("612 ten minutes after the form, its login ticket is freed",
           pyhtirso_housekeep(table, sizeof table, START + 612) == PYHTIRSO_ANSWERED && stores("0 1") && table[BLOCK] == 0);
}

int main(void)
{
    lay_table_and_register();
    sign_in();
    panel_validates();
    panel_takes_a_grant();
    sign_out();
    keep_house();
    printf("%d failed\n", failed);
    return failed != 0;
}
