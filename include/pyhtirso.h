/* Pyhtirso's nine calls, for a host in C or C++. Link with libexport.a, for x86-64-v2 (`rt lib` in crates/export_c writes it as out/libexport_c.a).
 * docs/HOST.md has a worked run, docs/RULES.md the rules and every format.
 *
 * Every slice is a pointer and a length. Where the length is 0 the pointer may be any, null too: nothing is read or written through it.
 * No two slices of one call may overlap: no contract covers that. The calls judge all that they are given, touch nothing but what is lent to
 * them, and keep nothing: a host may use several tables, each from one thread at a time.
 */
#ifndef PYHTIRSO_H
#define PYHTIRSO_H

#include <stdbool.h>
#include <stddef.h>
#include <stdint.h>

#ifdef __cplusplus
extern "C" {
#endif

/* The version of this header. It rises where a call, a number or a format changes. */
#define PYHTIRSO_VERSION 2

/* Bytes of stack that a call takes at most, its arguments included, where memcpy and memset are bound before it (docs/HOST.md, "Linking").
 * Measured, not proved: docs/FIGURES.md. */
#define PYHTIRSO_STACK 2048

/* Refusal numbers, judged in this order; 0 where the call was answered. A refused call writes its number and zeros to its list of numbers, and
 * nothing anywhere else. */
enum {
    PYHTIRSO_ANSWERED,
    PYHTIRSO_REFUSED_TABLE_SIZE,      /* 1  table length not a multiple of 512, or not 9 to 128 blocks */
    PYHTIRSO_REFUSED_TABLE,           /* 2  a table block's check is wrong, or a table rule is broken */
    PYHTIRSO_REFUSED_REGISTER,        /* 3  register not 1 to 16 whole blocks, or a block check or register rule is broken */
    PYHTIRSO_REFUSED_BUFFER,          /* 4  output under 8,192 bytes, cookie output under 64, or random input not 48 (finish: output only; visit:
                                            no cookie output); form: username buffer under 64, password buffer under 128 */
    PYHTIRSO_REFUSED_REQUEST_SIZE,    /* 5  target over 2,048 bytes or body over 1,024 */
    PYHTIRSO_REFUSED_TIME,            /* 6  time over 2^40 seconds */
    PYHTIRSO_REFUSED_FORM_MALFORMED,  /* 7  form: body malformed as in login */
    PYHTIRSO_REFUSED_FORM_INCOMPLETE, /* 8  form: username or password absent */
    PYHTIRSO_REFUSED_NO_VISIT         /* 9  visit: no visit of this number, also without a live session */
};

/* The kinds of answers. */
enum {
    PYHTIRSO_KIND_NONE, /* a refused call answers nothing */
    PYHTIRSO_KIND_PAGE,
    PYHTIRSO_KIND_REDIRECT,
    PYHTIRSO_KIND_TEXT,
    PYHTIRSO_KIND_XML,
    PYHTIRSO_KIND_CALLBACK
};

/* The places of an outcome's numbers. */
enum {
    PYHTIRSO_REFUSAL,         /* a refusal number, or 0 */
    PYHTIRSO_KIND,            /* the kind of the answer */
    PYHTIRSO_STATUS,          /* HTTP status; 0 for a callback */
    PYHTIRSO_LENGTH,          /* bytes written to the output; beyond them it is unchanged */
    PYHTIRSO_COOKIE_LENGTH,   /* bytes written to the cookie output, 0 for no new cookie */
    PYHTIRSO_COOKIE_CLEARED,  /* 1 where the browser's cookie is to be cleared */
    PYHTIRSO_CALLBACK_SERIAL, /* what finish is to be told after the callback, 0 for none */
    PYHTIRSO_DATA,            /* 1 where a redirect carries a ticket, text says yes, XML tells of success; else 0 */
    PYHTIRSO_OUTCOME          /* how many numbers an outcome has */
};

/* The places of a form's. */
enum {
    PYHTIRSO_FORM_REFUSAL,
    PYHTIRSO_FORM_USERNAME_LENGTH,
    PYHTIRSO_FORM_PASSWORD_LENGTH,
    PYHTIRSO_FORM /* how many */
};

/* The places of a visit's. */
enum {
    PYHTIRSO_VISIT_REFUSAL,
    PYHTIRSO_VISIT_LENGTH, /* bytes written to the output */
    PYHTIRSO_VISIT         /* how many */
};

/* The places of a register's check. */
enum {
    PYHTIRSO_FAULT_REFUSAL,
    PYHTIRSO_FAULT_BLOCK, /* the first block at fault, from 0; 0 where there is none */
    PYHTIRSO_FAULT        /* how many */
};

/* A fresh table at a time, in seconds; gives the refusal number (1, 6). It does not ask what the table held. */
uint32_t pyhtirso_format(uint8_t *table, size_t table_len, uint64_t time);

/* The refusal number of a table (1, 2), 0 where it is sound. */
uint32_t pyhtirso_check(const uint8_t *table, size_t table_len);

/* Username and password of a login's body, for the host's password check (4, 5, 7, 8). The numbers go to `form`, a list of exactly
 * PYHTIRSO_FORM; with another length the call writes nothing and gives false. */
bool pyhtirso_read_form(const uint8_t *body, size_t body_len, uint8_t *username, size_t username_len, uint8_t *password, size_t password_len,
                        uint64_t *form, size_t form_len);

/* Answers a request (1 to 6). `post` is true for POST; `cookie` is the bare TGC- text that the browser sent, or empty; `random` are 48 fresh
 * random bytes; `verdict` says whether username and password of the body are right. The numbers go to `outcome`, a list of exactly
 * PYHTIRSO_OUTCOME; with another length the call writes nothing and gives false. */
bool pyhtirso_answer(uint8_t *table, size_t table_len, const uint8_t *panels, size_t panels_len, bool post, const uint8_t *target,
                     size_t target_len, const uint8_t *body, size_t body_len, const uint8_t *cookie, size_t cookie_len, uint64_t time,
                     const uint8_t *random, size_t random_len, bool verdict, uint8_t *out, size_t out_len, uint8_t *cookie_out,
                     size_t cookie_out_len, uint64_t *outcome, size_t outcome_len);

/* After a callback (1, 2, 4, 6): `serial` as the answer told it, `ok` only after a good certificate and a 200. The list is as for answer;
 * cookie and serial places are 0. */
bool pyhtirso_finish(uint8_t *table, size_t table_len, uint32_t serial, bool ok, uint64_t time, uint8_t *out, size_t out_len,
                     uint64_t *outcome, size_t outcome_len);

/* Keeps house at a time (1, 2, 6): the table's clock is moved as answer moves it, and each record whose expiry it has reached is freed; gives
 * the refusal number. No other call frees a record because it has expired: until then it is dead, found by nobody, but takes its slot, and a
 * dead login ticket counts to the 32. Call it at the start and once a minute. */
uint32_t pyhtirso_housekeep(uint8_t *table, size_t table_len, uint64_t time);

/* What a panel is to be told of sign-off (1, 2, 4, 6, 9): of the visits of the session that `cookie` names, in slot order, the one of `number`,
 * from 0. It is two lines with their feeds, the panel's service and the LogoutRequest for it, whose ID is of bytes 16-31 of `random`. The call
 * changes no table: ask before a logout, or before a POST that may change the user, from 0 on until refusal 9. The numbers go to `visit`, a
 * list of exactly PYHTIRSO_VISIT; with another length the call writes nothing and gives false. */
bool pyhtirso_visit(const uint8_t *table, size_t table_len, const uint8_t *cookie, size_t cookie_len, uint32_t number, uint64_t time,
                    const uint8_t *random, size_t random_len, uint8_t *out, size_t out_len, uint64_t *visit, size_t visit_len);

/* Writes the register block of a panel, check included, from its service and its callback, which may be empty; gives the refusal number: 3
 * where the texts break a register rule, 4 where the buffer is not 512 bytes. A register is 1 to 16 such blocks, no two of one service. */
uint32_t pyhtirso_panel(const uint8_t *service, size_t service_len, const uint8_t *callback, size_t callback_len, uint8_t *block,
                        size_t block_len);

/* Judges a register as answer does (3, or 0) and tells the first block at fault: one whose check or own rule is broken, or whose service
 * stands in an earlier block; block 0 where the length is wrong. The numbers go to `fault`, a list of exactly PYHTIRSO_FAULT; with another
 * length the call writes nothing and gives false. */
bool pyhtirso_check_register(const uint8_t *panels, size_t panels_len, uint64_t *fault, size_t fault_len);

#ifdef __cplusplus
}
#endif

#endif
