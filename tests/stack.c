/* The stack's high-water marks. Linked with `--wrap` into the test host, the comparison or the hammer, it runs each of their calls of the wrapped
 * names on a stack of its own, painted anew before the call, and keeps how far down the call wrote: from the host's stack pointer before the call, so
 * arguments and return address are in it. At the end it tells the highest mark of each way of a call, by what the call answered, one a line, and in
 * the last line the highest of each call. A name that is not wrapped is not watched. */
#include "../include/pyhtirso.h"
#include <stdio.h>
#include <string.h>

enum { STACK = 32768, PAINT = 0xa5, WAYS = 128, TEXT = 96 };

static _Alignas(16) uint8_t stack[STACK];

#define WATCHED(name) extern __typeof__(name) __real_##name __attribute__((weak)), __wrap_##name
WATCHED(pyhtirso_answer);
WATCHED(pyhtirso_finish);
WATCHED(pyhtirso_housekeep);
WATCHED(pyhtirso_visit);
WATCHED(pyhtirso_read_form);
WATCHED(pyhtirso_panel);
WATCHED(pyhtirso_check_register);

/* The arguments of the call under way. */
static struct {
    uint8_t *table, *out, *cookie_out, *username, *password, *block;
    const uint8_t *read, *panels, *target, *body, *cookie, *random, *service, *callback; /* `read` is the table of a visit */
    size_t table_len, panels_len, target_len, body_len, cookie_len, random_len, out_len, cookie_out_len, outcome_len, username_len, password_len,
        block_len, service_len, callback_len;
    uint64_t time, *outcome;
    uint32_t serial, number, refusal;
    bool post, verdict, ok, result;
} at;

/* ---- the ways, and the highest mark of each */

static struct {
    char way[2 * TEXT];
    int most;
} seen[WAYS];
static int ways;

static int used(void)
{
    int i = 0;
    while (i < STACK && stack[i] == PAINT)
        i++;
    return STACK - i;
}

static void keep(const char *call, const char *answer)
{
    char way[2 * TEXT];
    int i = 0, mark = used();
    snprintf(way, sizeof way, "%s: %s", call, answer);
    while (i < ways && strcmp(seen[i].way, way))
        i++;
    if (i == WAYS)
        return;
    if (i == ways)
        strcpy(seen[ways++].way, way);
    if (mark > seen[i].most)
        seen[i].most = mark;
}

/* A call that gave a number, or a list that begins with one: refused by it, or answered, which `answer` says in words. */
static void keep_number(const char *call, uint64_t refusal, const char *answer)
{
    char refused[TEXT];
    snprintf(refused, TEXT, "refused with %d", (int)refusal);
    keep(call, !at.result ? "a list of another length" : refusal ? refused : answer);
}

/* The highest mark of all ways of a call. */
static int most_of(const char *call)
{
    int most = 0;
    for (int i = 0; i < ways; i++)
        if (!strncmp(seen[i].way, call, strlen(call)) && seen[i].way[strlen(call)] == ':' && seen[i].most > most)
            most = seen[i].most;
    return most;
}

/* ---- what an answer is, in words */

static const char *path(void)
{
    static const char *const paths[] = { "/cas/login", "/cas/logout", "/cas/validate", "/cas/serviceValidate", "/cas/proxyValidate", "/cas/proxy" };
    size_t length = 0;
    while (length < at.target_len && at.target[length] != '?')
        length++;
    for (size_t i = 0; i < sizeof paths / sizeof *paths; i++)
        if (length == strlen(paths[i]) && !memcmp(at.target, paths[i], length))
            return paths[i];
    return "another path";
}

static void tell_answer(char *said)
{
    const uint64_t *o = at.outcome;
    const char *cookie = o[PYHTIRSO_COOKIE_LENGTH] ? ", a new session" : o[PYHTIRSO_COOKIE_CLEARED] ? ", the session ended" : "";
    bool data = o[PYHTIRSO_DATA];
    switch (o[PYHTIRSO_KIND]) {
    case PYHTIRSO_KIND_PAGE:
        snprintf(said, TEXT, "page %d%s", (int)o[PYHTIRSO_STATUS], cookie);
        break;
    case PYHTIRSO_KIND_REDIRECT:
        snprintf(said, TEXT, "redirect %s%s", data ? "with a ticket" : "without a ticket", cookie);
        break;
    case PYHTIRSO_KIND_TEXT:
        snprintf(said, TEXT, "text, %s", data ? "yes" : "no");
        break;
    case PYHTIRSO_KIND_XML:
        snprintf(said, TEXT, "XML, %s", data ? "success" : "failure");
        break;
    default:
        snprintf(said, TEXT, "callback");
    }
}

static void keep_answer(void)
{
    char said[TEXT] = "", answer[TEXT];
    if (at.result && !at.outcome[PYHTIRSO_REFUSAL])
        tell_answer(said);
    snprintf(answer, TEXT, "%s %s, %.40s", at.post ? "POST" : "GET", path(), said);
    keep_number("answer", at.result ? at.outcome[PYHTIRSO_REFUSAL] : 0, answer);
}

/* ---- the calls */

static void answer(void)
{
    at.result = __real_pyhtirso_answer(at.table, at.table_len, at.panels, at.panels_len, at.post, at.target, at.target_len, at.body, at.body_len,
                                       at.cookie, at.cookie_len, at.time, at.random, at.random_len, at.verdict, at.out, at.out_len,
                                       at.cookie_out, at.cookie_out_len, at.outcome, at.outcome_len);
}

static void finish(void)
{
    at.result = __real_pyhtirso_finish(at.table, at.table_len, at.serial, at.ok, at.time, at.out, at.out_len, at.outcome, at.outcome_len);
}

static void housekeep(void) { at.refusal = __real_pyhtirso_housekeep(at.table, at.table_len, at.time); }

static void visit(void)
{
    at.result = __real_pyhtirso_visit(at.read, at.table_len, at.cookie, at.cookie_len, at.number, at.time, at.random, at.random_len, at.out,
                                      at.out_len, at.outcome, at.outcome_len);
}

static void read_form(void)
{
    at.result = __real_pyhtirso_read_form(at.body, at.body_len, at.username, at.username_len, at.password, at.password_len, at.outcome,
                                          at.outcome_len);
}

static void panel(void)
{
    at.refusal = __real_pyhtirso_panel(at.service, at.service_len, at.callback, at.callback_len, at.block, at.block_len);
}

static void check_register(void) { at.result = __real_pyhtirso_check_register(at.panels, at.panels_len, at.outcome, at.outcome_len); }

static void run_on_paint(void (*call)(void))
{
    memset(stack, PAINT, STACK);
    __asm__ volatile("movq %%rsp, %%rbx; movq %0, %%rsp; call *%1; movq %%rbx, %%rsp"
                     :
                     : "r"(stack + STACK), "r"(call)
                     : "rax", "rbx", "rcx", "rdx", "rsi", "rdi", "r8", "r9", "r10", "r11", "xmm0", "xmm1", "xmm2", "xmm3", "xmm4", "xmm5", "xmm6",
                       "xmm7", "xmm8", "xmm9", "xmm10", "xmm11", "xmm12", "xmm13", "xmm14", "xmm15", "memory", "cc");
}

bool __wrap_pyhtirso_answer(uint8_t *table, size_t table_len, const uint8_t *panels, size_t panels_len, bool post, const uint8_t *target,
                            size_t target_len, const uint8_t *body, size_t body_len, const uint8_t *cookie, size_t cookie_len, uint64_t time,
                            const uint8_t *random, size_t random_len, bool verdict, uint8_t *out, size_t out_len, uint8_t *cookie_out,
                            size_t cookie_out_len, uint64_t *outcome, size_t outcome_len)
{
    at.table = table, at.table_len = table_len, at.panels = panels, at.panels_len = panels_len, at.post = post, at.target = target;
    at.target_len = target_len, at.body = body, at.body_len = body_len, at.cookie = cookie, at.cookie_len = cookie_len, at.time = time;
    at.random = random, at.random_len = random_len, at.verdict = verdict, at.out = out, at.out_len = out_len, at.cookie_out = cookie_out;
    at.cookie_out_len = cookie_out_len, at.outcome = outcome, at.outcome_len = outcome_len;
    run_on_paint(answer);
    keep_answer();
    return at.result;
}

bool __wrap_pyhtirso_finish(uint8_t *table, size_t table_len, uint32_t serial, bool ok, uint64_t time, uint8_t *out, size_t out_len,
                            uint64_t *outcome, size_t outcome_len)
{
    char said[TEXT] = "";
    at.table = table, at.table_len = table_len, at.serial = serial, at.ok = ok, at.time = time, at.out = out, at.out_len = out_len;
    at.outcome = outcome, at.outcome_len = outcome_len;
    run_on_paint(finish);
    if (at.result)
        tell_answer(said);
    keep_number("finish", at.result ? outcome[PYHTIRSO_REFUSAL] : 0, said);
    return at.result;
}

uint32_t __wrap_pyhtirso_housekeep(uint8_t *table, size_t table_len, uint64_t time)
{
    at.table = table, at.table_len = table_len, at.time = time, at.result = true;
    run_on_paint(housekeep);
    keep_number("housekeep", at.refusal, "house kept");
    return at.refusal;
}

bool __wrap_pyhtirso_visit(const uint8_t *table, size_t table_len, const uint8_t *cookie, size_t cookie_len, uint32_t number, uint64_t time,
                           const uint8_t *random, size_t random_len, uint8_t *out, size_t out_len, uint64_t *list, size_t list_len)
{
    at.read = table, at.table_len = table_len, at.cookie = cookie, at.cookie_len = cookie_len, at.number = number, at.time = time;
    at.random = random, at.random_len = random_len, at.out = out, at.out_len = out_len, at.outcome = list, at.outcome_len = list_len;
    run_on_paint(visit);
    keep_number("visit", at.result ? list[PYHTIRSO_VISIT_REFUSAL] : 0, "told");
    return at.result;
}

bool __wrap_pyhtirso_read_form(const uint8_t *body, size_t body_len, uint8_t *username, size_t username_len, uint8_t *password,
                               size_t password_len, uint64_t *form, size_t form_len)
{
    at.body = body, at.body_len = body_len, at.username = username, at.username_len = username_len, at.password = password;
    at.password_len = password_len, at.outcome = form, at.outcome_len = form_len;
    run_on_paint(read_form);
    keep_number("read_form", at.result ? form[PYHTIRSO_FORM_REFUSAL] : 0, "read");
    return at.result;
}

uint32_t __wrap_pyhtirso_panel(const uint8_t *service, size_t service_len, const uint8_t *callback, size_t callback_len, uint8_t *block,
                               size_t block_len)
{
    at.service = service, at.service_len = service_len, at.callback = callback, at.callback_len = callback_len, at.block = block;
    at.block_len = block_len, at.result = true;
    run_on_paint(panel);
    keep_number("panel", at.refusal, "made");
    return at.refusal;
}

bool __wrap_pyhtirso_check_register(const uint8_t *panels, size_t panels_len, uint64_t *fault, size_t fault_len)
{
    at.panels = panels, at.panels_len = panels_len, at.outcome = fault, at.outcome_len = fault_len;
    run_on_paint(check_register);
    keep_number("check_register", at.result ? fault[PYHTIRSO_FAULT_REFUSAL] : 0, "sound");
    return at.result;
}

__attribute__((destructor)) static void tell(void)
{
    static const char *const calls[] = { "answer", "finish", "housekeep", "visit", "read_form", "panel", "check_register" };
    bool over = false;
    for (int i = 0; i < ways; i++)
        printf("%5d bytes, %s\n", seen[i].most, seen[i].way);
    for (size_t i = 0; i < sizeof calls / sizeof *calls; i++) {
        over |= most_of(calls[i]) > PYHTIRSO_STACK;
        if (most_of(calls[i]))
            printf("%s %s %d bytes", i ? "," : "stack:", calls[i], most_of(calls[i]));
    }
    printf("%s\n", over ? ", OVER what the header says" : ways == WAYS ? ", and more ways than are kept" : "");
}
