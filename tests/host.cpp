/* A host in C++: it compiles the header as C++, holds its names to the numbers of docs/RULES.md, makes each call once, and then once more for
 * each slice that is empty by a null pointer. It takes C's headers alone, so that it needs no library of C++. */
#include "common.h"

static_assert(PYHTIRSO_ANSWERED == 0 && PYHTIRSO_REFUSED_TABLE_SIZE == 1 && PYHTIRSO_REFUSED_TABLE == 2 && PYHTIRSO_REFUSED_REGISTER == 3
                  && PYHTIRSO_REFUSED_BUFFER == 4 && PYHTIRSO_REFUSED_REQUEST_SIZE == 5 && PYHTIRSO_REFUSED_TIME == 6
                  && PYHTIRSO_REFUSED_FORM_MALFORMED == 7 && PYHTIRSO_REFUSED_FORM_INCOMPLETE == 8 && PYHTIRSO_REFUSED_NO_VISIT == 9,
              "refusal numbers");
static_assert(PYHTIRSO_KIND_NONE == 0 && PYHTIRSO_KIND_PAGE == 1 && PYHTIRSO_KIND_REDIRECT == 2 && PYHTIRSO_KIND_TEXT == 3
                  && PYHTIRSO_KIND_XML == 4 && PYHTIRSO_KIND_CALLBACK == 5,
              "kinds of answers");

/* A slice to write or to read. */
struct Lent {
    uint8_t *bytes;
    size_t length;
};

struct Shown {
    const uint8_t *bytes;
    size_t length;
    Shown(Lent slice) : bytes(slice.bytes), length(slice.length) {}
    Shown(const char *text) : bytes(reinterpret_cast<const uint8_t *>(text)), length(strlen(text)) {}
};

static const Lent none = { nullptr, 0 };
static const uint64_t not_taken = UINT64_MAX;

static uint8_t table_bytes[9 * BLOCK], panels_bytes[BLOCK], username_bytes[64], password_bytes[128];
static const Lent table = { table_bytes, sizeof table_bytes }, panels = { panels_bytes, sizeof panels_bytes }, random_input = { random_bytes, RANDOM },
                  output = { out, OUT }, cookie_output = { cookie_out, COOKIE }, username = { username_bytes, sizeof username_bytes },
                  password = { password_bytes, sizeof password_bytes };
static uint64_t form[PYHTIRSO_FORM], visited[PYHTIRSO_VISIT];
static int failed;

static void expect(const char *what, bool holds)
{
    printf("%s: %s\n", what, holds ? "ok" : "FAILED");
    failed += !holds;
}

/* Each call gives its refusal number. */
static uint64_t read_form(Shown body, Lent name, Lent word)
{
    bool taken = pyhtirso_read_form(body.bytes, body.length, name.bytes, name.length, word.bytes, word.length, form, PYHTIRSO_FORM);
    return taken ? form[PYHTIRSO_FORM_REFUSAL] : not_taken;
}

static uint64_t answer(Lent t, Shown g, Shown target, Shown random, Lent o, Lent c)
{
    bool taken = pyhtirso_answer(t.bytes, t.length, g.bytes, g.length, false, target.bytes, target.length, nullptr, 0, nullptr, 0, 1000,
                                 random.bytes, random.length, false, o.bytes, o.length, c.bytes, c.length, outcome, PYHTIRSO_OUTCOME);
    return taken ? outcome[PYHTIRSO_REFUSAL] : not_taken;
}

static uint64_t finish(Lent t, Lent o)
{
    bool taken = pyhtirso_finish(t.bytes, t.length, 1, true, 1000, o.bytes, o.length, outcome, PYHTIRSO_OUTCOME);
    return taken ? outcome[PYHTIRSO_REFUSAL] : not_taken;
}

static uint64_t visit(Shown t, Shown cookie, Shown random, Lent o)
{
    bool taken = pyhtirso_visit(t.bytes, t.length, cookie.bytes, cookie.length, 0, 1000, random.bytes, random.length, o.bytes, o.length, visited,
                                PYHTIRSO_VISIT);
    return taken ? visited[PYHTIRSO_VISIT_REFUSAL] : not_taken;
}

static bool page(uint64_t status)
{
    return outcome[PYHTIRSO_KIND] == PYHTIRSO_KIND_PAGE && outcome[PYHTIRSO_STATUS] == status;
}

static void each_call_once()
{
    panel(panels_bytes, "https://gate.lan/p", "");
    expect("format", pyhtirso_format(table.bytes, table.length, 1000) == PYHTIRSO_ANSWERED);
    expect("check", pyhtirso_check(table.bytes, table.length) == PYHTIRSO_ANSWERED);
    expect("read form", read_form("username=ann&password=x", username, password) == PYHTIRSO_ANSWERED && form[PYHTIRSO_FORM_USERNAME_LENGTH] == 3
                            && !memcmp(username_bytes, "ann", 3) && form[PYHTIRSO_FORM_PASSWORD_LENGTH] == 1 && password_bytes[0] == 'x');
    expect("answer, body and cookie null",
           answer(table, panels, "/cas/login", random_input, output, cookie_output) == PYHTIRSO_ANSWERED && page(200));
    expect("finish", finish(table, output) == PYHTIRSO_ANSWERED && outcome[PYHTIRSO_KIND] == PYHTIRSO_KIND_XML
                         && outcome[PYHTIRSO_STATUS] == 200);
    expect("housekeep", pyhtirso_housekeep(table.bytes, table.length, 1600) == PYHTIRSO_ANSWERED && table.bytes[BLOCK] == 0);
    expect("visit, cookie null", visit(table, none, random_input, output) == PYHTIRSO_REFUSED_NO_VISIT);
}

static void each_slice_null()
{
    expect("format, check and housekeep, table null", pyhtirso_format(nullptr, 0, 1000) == PYHTIRSO_REFUSED_TABLE_SIZE
                                                          && pyhtirso_check(nullptr, 0) == PYHTIRSO_REFUSED_TABLE_SIZE
                                                          && pyhtirso_housekeep(nullptr, 0, 1000) == PYHTIRSO_REFUSED_TABLE_SIZE);
    expect("read form, body null", read_form(none, username, password) == PYHTIRSO_REFUSED_FORM_INCOMPLETE);
    expect("read form, username null", read_form("username=ann&password=x", none, password) == PYHTIRSO_REFUSED_BUFFER);
    expect("read form, password null", read_form("username=ann&password=x", username, none) == PYHTIRSO_REFUSED_BUFFER);
    expect("answer, target null", answer(table, panels, none, random_input, output, cookie_output) == PYHTIRSO_ANSWERED && page(404));
    expect("answer, table null", answer(none, panels, "/", random_input, output, cookie_output) == PYHTIRSO_REFUSED_TABLE_SIZE);
    expect("answer, register null", answer(table, none, "/", random_input, output, cookie_output) == PYHTIRSO_REFUSED_REGISTER);
    expect("answer, random null", answer(table, panels, "/", none, output, cookie_output) == PYHTIRSO_REFUSED_BUFFER);
    expect("answer, output null", answer(table, panels, "/", random_input, none, cookie_output) == PYHTIRSO_REFUSED_BUFFER);
    expect("answer, cookie output null", answer(table, panels, "/", random_input, output, none) == PYHTIRSO_REFUSED_BUFFER);
    expect("finish, table null", finish(none, output) == PYHTIRSO_REFUSED_TABLE_SIZE);
    expect("finish, output null", finish(table, none) == PYHTIRSO_REFUSED_BUFFER);
    expect("visit, table null", visit(none, none, random_input, output) == PYHTIRSO_REFUSED_TABLE_SIZE);
    expect("visit, random null", visit(table, none, none, output) == PYHTIRSO_REFUSED_BUFFER);
    expect("visit, output null", visit(table, none, random_input, none) == PYHTIRSO_REFUSED_BUFFER);
    expect("lists null", !pyhtirso_read_form(nullptr, 0, nullptr, 0, nullptr, 0, nullptr, 0)
                             && !pyhtirso_answer(nullptr, 0, nullptr, 0, true, nullptr, 0, nullptr, 0, nullptr, 0, 0, nullptr, 0, true, nullptr, 0,
                                                 nullptr, 0, nullptr, 0)
                             && !pyhtirso_finish(nullptr, 0, 1, true, 0, nullptr, 0, nullptr, 0)
                             && !pyhtirso_visit(nullptr, 0, nullptr, 0, 0, 0, nullptr, 0, nullptr, 0, nullptr, 0));
}

int main()
{
    each_call_once();
    each_slice_null();
    printf("%d failed\n", failed);
    return failed != 0;
}
