/* The calls by their texts, for the test host and the demonstration: a table, the register of a gate panel that may hold grants and of a lamp
 * panel, a clock that every call but housekeep and visit moves by a second, and what the last call said. */
#ifndef CLIENT_H
#define CLIENT_H

#include "common.h"

#define GATE "https://gate.lan/p"
#define GATE_CALLBACK "https://gate.lan/cb"
#define LAMP "https://lamp.lan/"

enum { BLOCKS = 33, PANELS = 2, JAR = COOKIE + 1 };
enum { PAGE = PYHTIRSO_KIND_PAGE, REDIRECT = PYHTIRSO_KIND_REDIRECT, WORD = PYHTIRSO_KIND_TEXT, XML = PYHTIRSO_KIND_XML,
       CALLBACK = PYHTIRSO_KIND_CALLBACK };

static uint8_t table[BLOCKS * BLOCK], panels[PANELS * BLOCK];
static uint64_t now; /* the time of the last call */
static char said[OUT + 1];

static void register_panels(void)
{
    panel(panels, GATE, GATE_CALLBACK);
    panel(panels + BLOCK, LAMP, "");
}

static void hear(uint64_t length)
{
    memcpy(said, out, length);
    said[length] = 0;
}

static void draw(void)
{
    for (int i = 0; i < RANDOM; i++)
        random_bytes[i] = (uint8_t)rand();
}

/* One call of answer. `jar` is the caller's cookie, which the answer may replace or clear. */
static void call(char *jar, bool post, const char *target, const char *body, bool verdict)
{
    uint64_t written;
    now++;
    draw();
    if (!pyhtirso_answer(table, sizeof table, panels, sizeof panels, post, (const uint8_t *)target, strlen(target), (const uint8_t *)body,
                         strlen(body), (const uint8_t *)jar, strlen(jar), now, random_bytes, RANDOM, verdict, out, OUT, cookie_out, COOKIE,
                         outcome, PYHTIRSO_OUTCOME))
        abort();
    hear(outcome[PYHTIRSO_LENGTH]);
    written = outcome[PYHTIRSO_COOKIE_LENGTH];
    memcpy(jar, cookie_out, written);
    if (written || outcome[PYHTIRSO_COOKIE_CLEARED])
        jar[written] = 0;
}

static void finish(uint32_t serial, bool ok)
{
    now++;
    if (!pyhtirso_finish(table, sizeof table, serial, ok, now, out, OUT, outcome, PYHTIRSO_OUTCOME))
        abort();
    hear(outcome[PYHTIRSO_LENGTH]);
}

/* One call of visit; gives its refusal number. */
static inline uint64_t ask_visit(const char *jar, uint32_t number)
{
    uint64_t visit[PYHTIRSO_VISIT];
    draw();
    if (!pyhtirso_visit(table, sizeof table, (const uint8_t *)jar, strlen(jar), number, now, random_bytes, RANDOM, out, OUT, visit, PYHTIRSO_VISIT))
        abort();
    hear(visit[PYHTIRSO_VISIT_LENGTH]);
    return visit[PYHTIRSO_VISIT_REFUSAL];
}

/* The text between `from` and the next `to` (or the end) in a text; empty where there is none. */
static const char *between(const char *text, const char *from, const char *to)
{
    static char found[8][512];
    static int turn;
    char *into = found[turn = (turn + 1) % 8];
    const char *at = strstr(text, from), *end;
    into[0] = 0;
    if (!at)
        return into;
    at += strlen(from);
    end = *to ? strstr(at, to) : 0;
    snprintf(into, 512, "%.*s", (int)(end ? end - at : (long)strlen(at)), at);
    return into;
}

static bool says(uint64_t kind, uint64_t status, const char *part)
{
    return outcome[PYHTIRSO_REFUSAL] == 0 && outcome[PYHTIRSO_KIND] == kind && outcome[PYHTIRSO_STATUS] == status && strstr(said, part) != 0;
}

/* The login ticket of a form. */
static const char *login_ticket(void) { return between(said, "name=\"lt\" type=\"hidden\" value=\"", "\""); }
#endif
