/* The calls of the plain C program, as those of the archive; its answer knows only POST to /cas/login and GET of /cas/serviceValidate, /cas/logout
 * and /cas/proxy. */
#ifndef PLAIN_H
#define PLAIN_H

#include <stdbool.h>
#include <stddef.h>
#include <stdint.h>

/* Gives false, with nothing written, for a wrong length of `outcome` and for a request that it does not know. */
bool plain_answer(uint8_t *table, size_t table_len, const uint8_t *panels, size_t panels_len, bool post, const uint8_t *target,
                  size_t target_len, const uint8_t *body, size_t body_len, const uint8_t *cookie, size_t cookie_len, uint64_t time,
                  const uint8_t *random, size_t random_len, bool verdict, uint8_t *out, size_t out_len, uint8_t *cookie_out,
                  size_t cookie_out_len, uint64_t *outcome, size_t outcome_len);

bool plain_finish(uint8_t *table, size_t table_len, uint32_t serial, bool ok, uint64_t time, uint8_t *out, size_t out_len, uint64_t *outcome,
                  size_t outcome_len);

uint32_t plain_housekeep(uint8_t *table, size_t table_len, uint64_t time);

bool plain_visit(const uint8_t *table, size_t table_len, const uint8_t *cookie, size_t cookie_len, uint32_t number, uint64_t time,
                 const uint8_t *random, size_t random_len, uint8_t *out, size_t out_len, uint64_t *visit, size_t visit_len);

/* The same, made with WHOLE. */
__typeof__(plain_answer) whole_answer;
__typeof__(plain_finish) whole_finish;
__typeof__(plain_housekeep) whole_housekeep;
__typeof__(plain_visit) whole_visit;

#endif
