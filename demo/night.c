/* A night at the watch desk, played through the exported calls of the proved server, with every call and answer told in plain words. It ends with
 * the three answers for the insurer and the account of the night's passes. Each answer is checked where it is told, and the first that differs
 * stops the program with status 1: it cannot tell what did not happen. Random bytes come from a fixed seed so that every run tells the same
 * night; a real host needs good ones. */
#include "clerk.h"
#include <stdarg.h>

#define DUSK 1709157600u /* ten in the evening, 28 February 2024 */
#define FAILURE(code) "code=\"" code "\""

static char ann[JAR], bo[JAR], guest[JAR], panel_itself[JAR]; /* the cookies of three browsers; a panel has none */

/* Telling */

static const char *clock_text(uint64_t time)
{
    static char text[9];
    unsigned s = (unsigned)(time % 86400);
    snprintf(text, sizeof text, "%02u:%02u:%02u", s / 3600, s / 60 % 60, s % 60);
    return text;
}

static const char *panel_name(const char *service) { return strcmp(service, LAMP) ? "gate" : "lamp"; }

/* A text with the secrets of its tickets cut short. */
static const char *cut(const char *text)
{
    static char shorter[OUT + 1];
    char *into = shorter;
    for (int run = 0; *text; text++) {
        run = strchr("0123456789abcdef", *text) ? run + 1 : 0;
        if (run <= 8)
            *into++ = run <= 6 ? *text : '.';
    }
    *into = 0;
    return shorter;
}

/* The lines of an answer that matter to a reader. */
static void tell_lines(void)
{
    static const char *matter[] = { "<p>Signed", "<form", "name=\"lt\"", "<a href", "code=", "<cas:user>", "<cas:proxyGrantingTicket>", "<cas:proxy>",
                                    "<cas:proxyTicket>" };
    for (const char *line = said; *line; line += strcspn(line, "\n"), line += *line == '\n') {
        char one[512];
        snprintf(one, sizeof one, "%.*s", (int)strcspn(line, "\n"), line);
        for (size_t i = 0; i < sizeof matter / sizeof *matter; i++)
            if (strstr(one, matter[i]))
                printf("                     | %s\n", cut(one + strspn(one, " ")));
    }
}

static const char *refusal_words(uint64_t number)
{
    static const char *words[] = { "not refused",
                                   "the table's length is not allowed",
                                   "a block of the table is damaged, or a table rule is broken",
                                   "the register is damaged, or a register rule is broken",
                                   "a buffer has the wrong size",
                                   "the request is too long",
                                   "the time is too late",
                                   "the form is malformed",
                                   "username or password is missing",
                                   "there is no visit of this number" };
    return number < 10 ? words[number] : "a number that is not in the list";
}

static void tell_answer(const char *jar)
{
    printf("          server:    ");
    if (outcome[PYHTIRSO_REFUSAL])
        printf("REFUSED with number %u: %s\n", (unsigned)outcome[PYHTIRSO_REFUSAL], refusal_words(outcome[PYHTIRSO_REFUSAL]));
    else if (outcome[PYHTIRSO_KIND] == REDIRECT)
        printf("go on (303) to %s\n", cut(said));
    else if (outcome[PYHTIRSO_KIND] == CALLBACK)
        printf("first call the panel back at %s\n", cut(said));
    else if (outcome[PYHTIRSO_KIND] == XML)
        printf("%s (XML)\n", outcome[PYHTIRSO_DATA] ? "YES" : "NO");
    else
        printf("a page (%u%s)\n", (unsigned)outcome[PYHTIRSO_STATUS], outcome[PYHTIRSO_STATUS] == 401 ? ", NOT SIGNED IN" : "");
    tell_lines();
    if (outcome[PYHTIRSO_COOKIE_LENGTH])
        printf("                     | and a cookie for the browser: %s\n", cut(jar));
    if (outcome[PYHTIRSO_COOKIE_CLEARED])
        printf("                     | and the browser's cookie is cleared\n");
}

static void scene(const char *title, int hour, int minute)
{
    uint64_t time = DUSK + (uint64_t)((hour + 2) % 24 * 3600 + minute * 60);
    if (time < now)
        trouble("the clock of the story goes back");
    now = time;
    printf("\n==== %s\n\n", title);
}

/* What an answer means, if it is the one that is expected. */
static void means(bool holds, const char *words)
{
    if (!holds)
        trouble(words);
    printf("          meaning:   %s\n\n", words);
}

/* Calls */

/* What the panels are to be told of a sign-off: the two lines of each visit. */
static char letters[NIGHT][OUT + 1];
static int n_letters;

enum { NO_VISIT = 9 }; /* the refusal that ends the asking */

/* The visits of a cookie's session, asked for one at a time until there is none. The asking changes no byte of the table. */
static void ask_visits(const char *jar)
{
    static uint8_t before[sizeof table];
    uint64_t refusal;
    memcpy(before, table, sizeof table);
    n_letters = 0;
    while (!(refusal = ask_visit(jar, (uint32_t)n_letters)))
        memcpy(letters[next(&n_letters)], said, sizeof said);
    if (refusal != NO_VISIT || memcmp(before, table, sizeof table))
        trouble("the visits cannot be asked for, or the asking changed the table");
}

/* A call of answer by the desk, which asks for the visits before one that may end the session. */
static void desk_call(char *jar, bool post, const char *target, const char *body, const char *user)
{
    char before[JAR];
    memcpy(before, jar, JAR);
    n_letters = 0;
    if (post || !strncmp(target, "/cas/logout", 11))
        ask_visits(jar);
    call(jar, post, target, body, *user != 0);
    clerk_hears(before, jar, target, user);
}

/* The panel at a letter's address finds its page by the pass that opened it, and closes it. */
static void post_letter(const char *letter)
{
    const char *service = between(letter, "", "\n"), *index = between(letter, "<samlp:SessionIndex>", "<"), *id = between(letter, " ID=\"", "\"");
    int i = 0;
    while (i < n_showings && !(showings[i].page && !strcmp(showings[i].service, service) && !strcmp(showings[i].pass->text, index)))
        i++;
    if (i == n_showings || *id != '_' || strlen(id) != 33 || strspn(id + 1, "0123456789abcdef") != 32)
        trouble("a panel is told of a page that it has not open, or in the wrong words");
    showings[i].page = false;
    printf("          desk:      POST %s, logoutRequest with SessionIndex %s\n", service, cut(index));
    printf("          %s:      closes the page that this pass opened at %s\n", panel_name(service), clock_text(showings[i].time));
}

/* After the call: the panels are told only where it ended the session. */
static void tell_visits(void)
{
    bool ended = outcome[PYHTIRSO_COOKIE_CLEARED] || outcome[PYHTIRSO_COOKIE_LENGTH];
    if (n_letters)
        printf("          desk:      had asked before the call for the visits of the session: %d. %s\n", n_letters,
               ended ? "It tells each panel:" : "The session is kept, so no panel is told.");
    for (int i = 0; ended && i < n_letters; i++)
        post_letter(letters[i]);
}

/* The desk asks, with no call that follows. */
static void count_visits(const char *who, const char *jar)
{
    ask_visits(jar);
    printf("%s  the desk asks for the visits of %s session:\n", clock_text(now), who);
    printf("          server:    %d, then number %d: %s\n", n_letters, NO_VISIT, refusal_words(NO_VISIT));
}

static int pages_of(const char *user)
{
    int n = 0;
    for (int i = 0; i < n_showings; i++)
        n += showings[i].page && !strcmp(showings[i].user, user);
    return n;
}

/* A GET of a browser or a panel. */
static void ask(const char *who, char *jar, const char *format, ...)
{
    char target[1024];
    va_list parts;
    va_start(parts, format);
    vsnprintf(target, sizeof target, format, parts);
    va_end(parts);
    desk_call(jar, false, target, "", "");
    printf("%s  %s asks:\n                     GET %s\n", clock_text(now), who, cut(target));
    tell_answer(jar);
    tell_visits();
}

/* The desk's own password list. Username and password are read by the proved form reader. */
static bool password_good(const char *body, char *user)
{
    static const char *hands[][2] = { { "ann", "corral" }, { "bo", "lantern" } };
    uint8_t username[64], password[128];
    uint64_t form[PYHTIRSO_FORM];
    if (!pyhtirso_read_form((const uint8_t *)body, strlen(body), username, sizeof username, password, sizeof password, form, PYHTIRSO_FORM)
        || form[0])
        trouble("the form reader refuses the form");
    snprintf(user, TEXT, "%.*s", (int)form[1], (const char *)username);
    for (int i = 0; i < 2; i++)
        if (!strcmp(user, hands[i][0]) && form[2] == strlen(hands[i][1]) && !memcmp(password, hands[i][1], form[2]))
            return true;
    return false;
}

/* A sign-on: the form is sent back with a username, a password and the login ticket that it showed. */
static void sign_on(const char *who, char *jar, const char *lt, const char *username, const char *password, const char *service)
{
    char body[1024], user[TEXT];
    bool good;
    snprintf(body, sizeof body, "username=%s&password=%s&lt=%s&service=%s", username, password, lt, service);
    good = password_good(body, user);
    desk_call(jar, true, "/cas/login", body, good ? user : "");
    printf("%s  %s sends the form:\n                     POST /cas/login, username=%s, a password, lt=%s, service=%s\n", clock_text(now), who, user,
           cut(lt), service);
    printf("          desk:      the password of %s is %s\n", user, good ? "right" : "WRONG");
    tell_answer(jar);
    tell_visits();
}

static void tell_callback(uint64_t serial)
{
    finish((uint32_t)serial, true);
    clerk_hears_finish(serial);
    printf("%s  the desk finishes callback %u: the panel's certificate was good and it answered 200\n", clock_text(now), (unsigned)serial);
    tell_answer(panel_itself);
}

static bool expired(const uint8_t *record)
{
    uint64_t expiry = 0;
    for (int i = 23; i >= 16; i--)
        expiry = expiry << 8 | record[i];
    return *record && expiry <= now;
}

/* The desk's tick. Gives how many slots it freed, -1 where it freed another than the expired or left one of them. */
static int keep_house(void)
{
    static uint8_t before[sizeof table];
    int freed = 0;
    memcpy(before, table, sizeof table);
    now++;
    outcome[PYHTIRSO_REFUSAL] = pyhtirso_housekeep(table, sizeof table, now);
    clerk_hears_housekeeping();
    for (size_t at = BLOCK; at < sizeof table; at += BLOCK) {
        if (expired(before + at) ? table[at] : memcmp(before + at, table + at, BLOCK))
            return -1;
        freed += expired(before + at);
    }
    printf("%s  the desk keeps house:\n          server:    %d slots are free again\n", clock_text(now), freed);
    return freed;
}

/* The pass in the redirect or the proxy answer just given. */
static void take_pass(char *into)
{
    snprintf(into, TEXT, "%s", outcome[PYHTIRSO_KIND] == REDIRECT ? between(said, "?ticket=", "") : between(said, "<cas:proxyTicket>", "<"));
    if (!*into)
        trouble("no pass was handed out");
}

/* Scenes */

static char first_login[TEXT], first_pass[TEXT], grant[TEXT], anns_cookie[JAR];

static void table_is_laid(void)
{
    scene("The desk lays out an empty ticket table", 22, 0);
    register_panels();
    outcome[PYHTIRSO_REFUSAL] = pyhtirso_format(table, sizeof table, now);
    printf("%s  the desk formats a table of %d blocks and has it checked\n", clock_text(now), BLOCKS);
    means(!outcome[PYHTIRSO_REFUSAL] && !pyhtirso_check(table, sizeof table),
          "The table is sound. Two panels are registered: gate and lamp.");
}

static void ann_opens_the_gate(void)
{
    scene("Ann, a ranch hand, signs in for the gate panel", 22, 4);
    ask("Ann's browser", ann, "/cas/login?service=" GATE);
    means(says(PAGE, 200, "<form"), "Nobody is signed in at this browser yet, so it gets the form.");
    snprintf(first_login, TEXT, "%s", login_ticket());
    sign_on("Ann's browser", ann, first_login, "ann", "corral", GATE);
    means(says(REDIRECT, 303, GATE "?ticket=ST-") && *ann, "Ann is signed in, and carries a pass to the gate panel.");
    take_pass(first_pass);
    ask("The gate panel", panel_itself, "/cas/serviceValidate?service=" GATE "&ticket=%s", first_pass);
    means(says(XML, 200, "<cas:user>ann</cas:user>"), "The pass is good: the gate opens, and its log says ann.");
}

static void guest_replays_the_pass(void)
{
    char pass[TEXT];
    scene("A guest in the bunkhouse has seen Ann's pass", 22, 5);
    ask("The gate panel (for the guest)", panel_itself, "/cas/serviceValidate?service=" GATE "&ticket=%s", first_pass);
    means(says(XML, 200, FAILURE("INVALID_TICKET")), "A pass is good once. The gate stays shut.");
    ask("Ann's browser", ann, "/cas/login?service=" GATE);
    means(says(REDIRECT, 303, GATE "?ticket=ST-"),
          "Ann goes to the gate once more. This time the guest is faster and takes her new pass to the lamps.");
    take_pass(pass);
    ask("The lamp panel (for the guest)", panel_itself, "/cas/serviceValidate?service=" LAMP "&ticket=%s", pass);
    means(says(XML, 200, FAILURE("INVALID_SERVICE")), "A pass to the gate is no pass to the lamps.");
    ask("The gate panel (for the guest)", panel_itself, "/cas/serviceValidate?service=" GATE "&ticket=%s", pass);
    means(says(XML, 200, FAILURE("INVALID_TICKET")), "And it is burnt: shown at the wrong door, it opens the right one no more.");
}

static void guest_guesses(void)
{
    scene("The guest tries to sign in as Ann", 22, 20);
    ask("The guest's tablet", guest, "/cas/login?service=" LAMP);
    means(says(PAGE, 200, "<form"), "Anybody may see the form.");
    sign_on("The guest's tablet", guest, login_ticket(), "ann", "horse", LAMP);
    means(says(PAGE, 401, "<form") && !*guest, "A wrong password: the form again, no cookie and no pass.");
    sign_on("The guest's tablet", guest, first_login, "ann", "corral", GATE);
    means(says(PAGE, 401, "<form") && !*guest, "Sending Ann's own form of 22:04 again does not help either: its login ticket is spent.");
}

static void ann_looks_at_the_lamps(void)
{
    char pass[TEXT];
    scene("Ann looks at the lamps, with no second password", 22, 40);
    ask("Ann's browser", ann, "/cas/login?service=" LAMP);
    means(says(REDIRECT, 303, LAMP "?ticket=ST-"), "Her sign-on of 22:04 serves for the lamp panel too.");
    take_pass(pass);
    ask("The lamp panel", panel_itself, "/cas/serviceValidate?service=" LAMP "&ticket=%s", pass);
    means(says(XML, 200, "<cas:user>ann</cas:user>"), "She may look at the lamps.");
}

static void alarm_lamp(void)
{
    char pass[TEXT];
    scene("An alarm lamp burns: to put it out, the lamp panel wants a fresh password (renew)", 23, 10);
    ask("The lamp panel (for an unknown tablet)", panel_itself, "/cas/serviceValidate?service=" LAMP "&renew=true");
    means(says(XML, 200, FAILURE("INVALID_REQUEST")), "Somebody wants the alarm out and shows no pass at all. The lamp burns on.");
    ask("Ann's browser", ann, "/cas/login?service=" LAMP);
    means(says(REDIRECT, 303, "?ticket=ST-"), "Ann has a pass by her old sign-on.");
    take_pass(pass);
    ask("The lamp panel", panel_itself, "/cas/serviceValidate?service=" LAMP "&renew=true&ticket=%s", pass);
    means(says(XML, 200, FAILURE("INVALID_TICKET")),
          "That is not enough for an alarm: perhaps it is not Ann who sits at her screen. The pass is burnt.");
    ask("Ann's browser", ann, "/cas/login?renew=true&service=" LAMP);
    means(says(PAGE, 200, "<form"), "Though she is signed in, she is asked for her password.");
    sign_on("Ann's browser", ann, login_ticket(), "ann", "corral", LAMP);
    means(says(REDIRECT, 303, LAMP "?ticket=ST-") && !outcome[PYHTIRSO_COOKIE_LENGTH],
          "She gave it. Her session is kept, and this pass has a fresh password behind it.");
    take_pass(pass);
    ask("The lamp panel", panel_itself, "/cas/serviceValidate?service=" LAMP "&renew=true&ticket=%s", pass);
    means(says(XML, 200, "<cas:user>ann</cas:user>"), "The alarm lamp goes out, and the log says ann.");
}

static void gate_lights_the_way(void)
{
    char pass[TEXT];
    uint64_t serial;
    scene("The gate panel lights the way for Ann: gate to lamp, by proxy", 23, 30);
    ask("Ann's browser", ann, "/cas/login?service=" GATE);
    means(says(REDIRECT, 303, GATE "?ticket=ST-"), "Ann goes to the gate.");
    take_pass(pass);
    ask("The gate panel", panel_itself, "/cas/serviceValidate?service=" GATE "&pgtUrl=" GATE_CALLBACK "&ticket=%s", pass);
    means(says(CALLBACK, 0, GATE_CALLBACK "?pgtId=PGT-"),
          "The pass is good. The panel also asks for a grant, to act for her, and gets it only at its registered address.");
    serial = outcome[PYHTIRSO_CALLBACK_SERIAL];
    snprintf(grant, TEXT, "%s", between(said, "pgtId=", "&"));
    tell_callback(serial);
    means(says(XML, 200, "<cas:user>ann</cas:user>") && strstr(said, "<cas:proxyGrantingTicket>PGTIOU-"),
          "Now the gate is told: ann, with the receipt of its grant.");
    tell_callback(serial);
    means(says(XML, 200, FAILURE("INVALID_TICKET")), "A callback is finished once.");
    ask("The gate panel", panel_itself, "/cas/proxy?pgt=%s&targetService=" LAMP, grant);
    means(says(XML, 200, "<cas:proxyTicket>PT-"), "By its grant the gate gets a proxy pass to the lamps.");
    take_pass(pass);
    ask("The lamp panel", panel_itself, "/cas/proxyValidate?service=" LAMP "&ticket=%s", pass);
    means(says(XML, 200, "<cas:user>ann</cas:user>") && strstr(said, "<cas:proxy>" GATE_CALLBACK "</cas:proxy>"),
          "The yard lamps go on. The log says ann, and that it was the gate that asked.");
    ask("The gate panel", panel_itself, "/cas/proxy?pgt=%s&targetService=" LAMP, grant);
    means(says(XML, 200, "<cas:proxyTicket>PT-"), "The gate takes another proxy pass, and tries to put out an alarm with it.");
    take_pass(pass);
    ask("The lamp panel", panel_itself, "/cas/proxyValidate?service=" LAMP "&renew=true&ticket=%s", pass);
    means(says(XML, 200, FAILURE("INVALID_TICKET")), "No panel can give a password: a proxy pass never puts out an alarm. It is burnt.");
}

static void ann_dozes_off(void)
{
    char pass[TEXT];
    scene("Ann dozes off over a pass", 0, 30);
    ask("Ann's browser", ann, "/cas/login?service=" GATE);
    means(says(REDIRECT, 303, GATE "?ticket=ST-"), "A pass is good for five minutes.");
    take_pass(pass);
    now += PASS_LASTS - 1;
    ask("The gate panel", panel_itself, "/cas/serviceValidate?service=" GATE "&ticket=%s", pass);
    means(says(XML, 200, FAILURE("INVALID_TICKET")), "Five minutes later, to the second, it has expired.");
    means(keep_house() == 3 && !outcome[PYHTIRSO_REFUSAL] && !pyhtirso_check(table, sizeof table),
          "The expired pass and two forms that nobody sent back no longer take room. Every other record is as it was.");
}

static void a_byte_goes_bad(void)
{
    static uint8_t table_before[sizeof table], out_before[OUT], cookie_before[COOKIE];
    char pass[TEXT];
    uint8_t *bad = table + BLOCK + 40;
    scene("A byte of the table goes bad", 2, 15);
    ask("Ann's browser", ann, "/cas/login?service=" GATE);
    means(says(REDIRECT, 303, GATE "?ticket=ST-"), "Ann has a pass to the gate in her hand. Now one bit of the table's memory turns over.");
    take_pass(pass);
    *bad ^= 4;
    memcpy(table_before, table, sizeof table);
    memcpy(out_before, out, OUT);
    memcpy(cookie_before, cookie_out, COOKIE);
    ask("The gate panel", panel_itself, "/cas/serviceValidate?service=" GATE "&ticket=%s", pass);
    means(outcome[PYHTIRSO_REFUSAL] == 2 && pyhtirso_check(table, sizeof table) == 2,
          "The server does not work on a damaged table; the check call gives the same number. (Theorems `check_damaged`, `answer_damaged`: so for every byte.)");
    means(!memcmp(table_before, table, sizeof table) && !memcmp(out_before, out, OUT) && !memcmp(cookie_before, cookie_out, COOKIE),
          "Nothing was changed: every byte of table, answer and cookie is as before. (Contract of `answer`: so for every refusal.)");
    *bad ^= 4;
    ask("The gate panel", panel_itself, "/cas/serviceValidate?service=" GATE "&ticket=%s", pass);
    means(says(XML, 200, "<cas:user>ann</cas:user>"),
          "The desk puts the stored block back. The refused call spent nothing: Ann's pass still opens the gate.");
}

static void bo_comes_early(void)
{
    char pass[TEXT];
    scene("Bo, the foreman, comes early", 5, 36);
    ask("Bo's browser", bo, "/cas/login?service=" GATE);
    means(says(PAGE, 200, "<form"), "He gets the form.");
    sign_on("Bo's browser", bo, login_ticket(), "bo", "lantern", GATE);
    means(says(REDIRECT, 303, GATE "?ticket=ST-"), "He is signed in, and carries a pass to the gate panel.");
    take_pass(pass);
    ask("The gate panel", panel_itself, "/cas/serviceValidate?service=" GATE "&ticket=%s", pass);
    means(says(XML, 200, "<cas:user>bo</cas:user>"), "The gate opens, and keeps a page open for him.");
    ask("Bo's browser", bo, "/cas/login?service=" LAMP);
    means(says(REDIRECT, 303, LAMP "?ticket=ST-"), "He also has a pass to the lamps, and has not yet shown it when the night is closed.");
}

static void ann_signs_off(void)
{
    char pass[TEXT];
    int pages;
    scene("Ann signs off, and the panels hear of it", 5, 38);
    ask("Ann's browser", ann, "/cas/login?service=" LAMP);
    means(says(REDIRECT, 303, LAMP "?ticket=ST-"), "She takes one more pass, and does not use it.");
    take_pass(pass);
    memcpy(anns_cookie, ann, JAR);
    pages = pages_of("ann");
    ask("Ann's browser", ann, "/cas/logout?url=" LAMP);
    means(says(PAGE, 200, "<p>Signed out</p>") && !*ann && n_letters == pages && !pages_of("ann"),
          "She is signed off, and no gate or lamp page of hers is left open. Of the pass that she did not use no panel was told.");
    count_visits("Bo's", bo);
    means(n_letters == 1 && pages_of("bo") == 1, "Bo's page stays open: a sign-off is told of one session only.");
    count_visits("Ann's", anns_cookie);
    means(!n_letters, "Of her session there is nothing more to tell.");
    ask("The lamp panel", panel_itself, "/cas/serviceValidate?service=" LAMP "&ticket=%s", pass);
    means(says(XML, 200, FAILURE("INVALID_TICKET")), "The pass that she did not use ended with her session.");
    ask("The gate panel", panel_itself, "/cas/proxy?pgt=%s&targetService=" LAMP, grant);
    means(says(XML, 200, FAILURE("BAD_PGT")), "So did the grant: the gate can no longer act for her.");
    ask("The guest's tablet (with Ann's old cookie)", anns_cookie, "/cas/login?service=" GATE);
    means(says(PAGE, 200, "<form"), "And her cookie is worth nothing now.");
}

/* The end of the night */

static void tell_log(void)
{
    printf("\n==== The log of the panels: each pass that was shown, and what the panel was told\n\n");
    for (int i = 0; i < n_showings; i++) {
        const struct showing *s = &showings[i];
        printf("%s  %s  %-14s %-22s %s%s%s\n", clock_text(s->time), panel_name(s->service), s->pass ? cut(s->pass->text) : "no pass",
               s->renew ? "for an alarm (renew)" : "", s->let_in ? s->user : s->reason, *s->through ? " through " : "", s->through);
    }
}

static const char *what_was_shown(const struct pass *p)
{
    if (!p)
        return "no pass at all";
    if (p->signed_on)
        return "a pass with a fresh password behind it";
    return strncmp(p->text, "PT-", 3) ? "a pass of an old sign-on" : "a panel's proxy pass";
}

static void tell_answers(void)
{
    int named = 0;
    printf("\n==== The insurer's three questions\n\n"
           "1. Who may put out an alarm lamp? Only who gives a password for it: the lamp panel asks with renew.\n");
    for (int i = 0; i < n_showings; i++) {
        const struct showing *s = &showings[i];
        named += *s->user != 0;
        if (!strcmp(s->service, LAMP) && s->renew)
            printf("   Tonight at %s: %s, who showed %s, %s.\n", clock_text(s->time), s->let_in ? s->user : "somebody", what_was_shown(s->pass),
                   s->let_in ? "put it out" : "was turned away");
    }
    printf("   Every night: theorem `account`, part `honest`: an accepted pass was issued to that very panel and, under renew, by a call that\n"
           "   was itself a sign-on with the desk's yes to its password. A proxy pass never is.\n\n");
    printf("2. Did the person the log names really sign in? Yes.\n"
           "   Tonight: %d answers named a user, each the one of the pass's own session. Sessions opened, each with a good password:", named);
    for (int i = 0; i < n_sessions; i++)
        printf("%s %s", i ? "," : "", sessions[i].user);
    printf(".\n   Every night: theorem `account`, part `honest`: a success answer names the user of the sign-on and the true chain of panels, and a\n"
           "   session is opened only by a sign-on with the desk's yes and a live login ticket. Whether a password is right, the desk says.\n\n");
    printf("3. Can an old pass be used twice? No.\n"
           "   Tonight: passes already used, burnt, ended or expired were shown %d times, and none was let in.\n", shown_old);
    printf("   Every night: theorem `account`, parts `accepted_once` and `once`: no pass is accepted twice or gets two success answers.\n");
    if (accepted != named)
        trouble("a pass was let in without a name, or named without being let in");
}

/* How many passes wait is asked of the server: on a copy of the table, at this very moment, each pass of the night is shown at its own panel. */
static int waiting_by_drill(void)
{
    static uint8_t kept[sizeof table];
    uint64_t moment = now;
    char target[1024];
    int good = 0;
    memcpy(kept, table, sizeof table);
    for (int i = 0; i < n_passes; i++) {
        snprintf(target, sizeof target, "/cas/proxyValidate?service=%s&ticket=%s", passes[i].service, passes[i].text);
        call(panel_itself, false, target, "", false);
        good += strstr(said, "<cas:authenticationSuccess>") != 0;
        memcpy(table, kept, sizeof table);
        now = moment;
    }
    return good;
}

static void tell_account(void)
{
    static const char *fates[FATES] = { "waits", "accepted", "burnt", "ended", "expired" };
    int waiting = waiting_by_drill(), sum = accepted + fated(BURNT) + fated(ENDED) + fated(EXPIRED) + waiting;
    printf("\n==== The account of the night's passes, kept from calls and answers alone\n\n");
    for (int i = 0; i < n_passes; i++)
        printf("   %-14s to the %s, for %-4s %s\n", cut(passes[i].text), panel_name(passes[i].service), passes[i].session->user,
               fates[passes[i].fate]);
    printf("\n   Drill: every pass of the night is shown once more, to a copy of the table. Still good: %d, turned away: %d.\n",
           waiting, n_passes - waiting);
    printf("\n   issued %d = accepted %d + burnt %d + ended %d + expired %d + waiting %d\n", n_passes, accepted,
           fated(BURNT), fated(ENDED), fated(EXPIRED), waiting);
    if (n_passes != sum || waiting != fated(WAITING))
        trouble("the account does not balance");
    printf("   It balances. Every night: theorem `account`, part `balance` (docs/ACCOUNT.md says all this in words, and what is not said).\n");
}

int main(void)
{
    table_is_laid();
    ann_opens_the_gate();
    guest_replays_the_pass();
    guest_guesses();
    ann_looks_at_the_lamps();
    alarm_lamp();
    gate_lights_the_way();
    ann_dozes_off();
    a_byte_goes_bad();
    bo_comes_early();
    ann_signs_off();
    tell_log();
    tell_answers();
    tell_account();
    return 0;
}
