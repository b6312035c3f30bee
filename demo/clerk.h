/* The clerk of the watch desk: keeps the account of the night's passes from calls and answers alone, as docs/ACCOUNT.md reads them, and never
 * looks into the table. A pass is a service or proxy ticket. The story stops where an answer contradicts the book. */
#ifndef CLERK_H
#define CLERK_H

#include "../tests/client.h"

enum { NIGHT = 64, TEXT = 201, PASS_LASTS = 300, SESSION_LASTS = 28800 };
enum fate { WAITING, ACCEPTED, BURNT, ENDED, EXPIRED, FATES };

/* A session, by its cookie, and the username of the sign-on that opened it. */
struct session {
    char cookie[JAR], user[TEXT];
    uint64_t ends;
};

struct pass {
    char text[TEXT], service[TEXT];
    const struct session *session;
    bool signed_on; /* issued by a sign-on with a good password */
    uint64_t expiry;
    enum fate fate;
};

/* A panel that asked whether a pass is good, and what it was told: a user and the panels between, or the reason against it. */
struct showing {
    uint64_t time, serial; /* the serial of a callback, 0 for none */
    char service[TEXT], user[TEXT], through[TEXT], reason[TEXT], grant[TEXT];
    const struct pass *pass;
    bool renew, let_in;
    bool page; /* the panel keeps a page open by this pass; a proxy pass opens none, for no browser shows it */
};

static struct session sessions[NIGHT];
static struct pass passes[NIGHT];
static struct showing showings[NIGHT];
static int n_sessions, n_passes, n_showings, accepted, shown_old;

static void trouble(const char *what)
{
    printf("\n******** NOT AS EXPECTED: %s ********\nlast answer:\n%s\n", what, said);
    exit(1);
}

static int next(int *count)
{
    if (*count == NIGHT)
        trouble("the clerk's book is full");
    return (*count)++;
}

static const struct session *session_of(const char *cookie)
{
    for (int i = 0; i < n_sessions; i++)
        if (!strcmp(sessions[i].cookie, cookie))
            return &sessions[i];
    return 0;
}

static struct pass *pass_of(const char *text)
{
    for (int i = 0; i < n_passes; i++)
        if (!strcmp(passes[i].text, text))
            return &passes[i];
    return 0;
}

/* Passes of a session that wait, or of all sessions, meet a fate. Expired is what the time of a call says, whether or not the server has freed
 * the slot by then. */
static void close_waiting(enum fate fate, const struct session *session)
{
    for (int i = 0; i < n_passes; i++)
        if (passes[i].fate == WAITING && (fate == EXPIRED ? passes[i].expiry <= now : passes[i].session == session))
            passes[i].fate = fate;
}

static void issue(const char *text, const char *service, const struct session *session, bool signed_on)
{
    struct pass *p;
    if (!session || pass_of(text))
        trouble("a pass without a session, or issued twice");
    p = &passes[next(&n_passes)];
    snprintf(p->text, TEXT, "%s", text);
    snprintf(p->service, TEXT, "%s", service);
    p->session = session;
    p->signed_on = signed_on;
    p->expiry = now + PASS_LASTS < session->ends ? now + PASS_LASTS : session->ends;
}

/* A success answer is told once, and the user that it names must be the one of the sign-on. */
static void hear_success(struct showing *s)
{
    if (*s->user)
        trouble("a second success answer");
    snprintf(s->user, TEXT, "%s", between(said, "<cas:user>", "<"));
    snprintf(s->through, TEXT, "%s", between(said, "<cas:proxy>", "<"));
    if (strcmp(s->user, s->pass->session->user))
        trouble("an answer names another user than the one who signed on");
}

static void hear_validation(const char *target)
{
    struct showing *s = &showings[next(&n_showings)];
    struct pass *p = *between(target, "service=", "&") ? pass_of(between(target, "ticket=", "&")) : 0;
    shown_old += p && p->fate != WAITING;
    s->time = now;
    s->pass = p;
    s->renew = strstr(target, "renew") != 0;
    s->let_in = outcome[PYHTIRSO_KIND] == CALLBACK || outcome[PYHTIRSO_DATA];
    snprintf(s->service, TEXT, "%s", between(target, "service=", "&"));
    snprintf(s->reason, TEXT, "%s", between(said, "code=\"", "\""));
    if (s->let_in) {
        accepted++;
        if (!p || p->fate != WAITING || strcmp(p->service, s->service) || (s->renew && !p->signed_on))
            trouble("a pass was accepted that should not be");
        p->fate = ACCEPTED;
        s->page = !strncmp(p->text, "ST-", 3);
        if (outcome[PYHTIRSO_KIND] == CALLBACK) {
            s->serial = outcome[PYHTIRSO_CALLBACK_SERIAL];
            snprintf(s->grant, TEXT, "%s", between(said, "pgtId=", "&"));
        } else
            hear_success(s);
    } else if (p && p->fate == WAITING)
        p->fate = BURNT;
}

static void hear_proxy(const char *target)
{
    const char *pgt = between(target, "pgt=", "&");
    int i = 0;
    while (i < n_showings && strcmp(showings[i].grant, pgt))
        i++;
    if (i == n_showings)
        trouble("a proxy pass by a grant that was not given");
    issue(between(said, "<cas:proxyTicket>", "<"), between(target, "targetService=", "&"), showings[i].pass->session, false);
}

/* After a call of answer: the cookie before and after it, the target, and for a sign-on the username where the password was good. */
static void clerk_hears(const char *before, const char *after, const char *target, const char *user)
{
    if (outcome[PYHTIRSO_REFUSAL])
        return;
    close_waiting(EXPIRED, 0);
    if (strcmp(before, after))
        close_waiting(ENDED, session_of(before));
    if (outcome[PYHTIRSO_COOKIE_LENGTH]) {
        struct session *s = &sessions[next(&n_sessions)];
        if (!*user)
            trouble("a session was opened without a good password");
        snprintf(s->cookie, JAR, "%s", after);
        snprintf(s->user, TEXT, "%s", user);
        s->ends = now + SESSION_LASTS;
    }
    if (outcome[PYHTIRSO_KIND] == REDIRECT && outcome[PYHTIRSO_DATA])
        issue(between(said, "?ticket=", ""), between(said, "", "?ticket="), session_of(after), *user != 0);
    if (strstr(target, "/proxy?") && outcome[PYHTIRSO_DATA])
        hear_proxy(target);
    if (strstr(target, "alidate?"))
        hear_validation(target);
}

/* After a call of finish. */
static void clerk_hears_finish(uint64_t serial)
{
    int i = 0;
    close_waiting(EXPIRED, 0);
    if (!outcome[PYHTIRSO_DATA])
        return;
    while (i < n_showings && showings[i].serial != serial)
        i++;
    if (i == n_showings)
        trouble("a success for a callback that was not asked");
    hear_success(&showings[i]);
}

/* After a call of housekeep, of which only the time matters. */
static void clerk_hears_housekeeping(void) { close_waiting(EXPIRED, 0); }

static int fated(enum fate fate)
{
    int n = 0;
    for (int i = 0; i < n_passes; i++)
        n += passes[i].fate == fate;
    return n;
}
#endif
