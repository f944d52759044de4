/* What the programs of the cluster share: their words, the ids of a stream, and calls to Redis. */
#ifndef CLUSTER_COMMON_H
#define CLUSTER_COMMON_H

#include <hiredis/hiredis.h>
#include <inttypes.h>
#include <signal.h>
#include <stdbool.h>
#include <stddef.h>
#include <stdint.h>
#include <stdio.h>

enum { BAD_WORDS = 2, BAD_LINKS = 3, BAD_REDIS = 4, NO_MEMORY = 5 };
enum { MAX_SHARDS = 256, ID_TEXT = 44 };

/* The id of an entry of a stream. */
struct id {
    uint64_t number, part;
};

/* The program's own name, for what it says on standard error. */
extern const char *program;
/* A signal asked the program to end. */
extern volatile sig_atomic_t stopped;

/* Says a sentence, and ends the program with a status. */
_Noreturn void end_with(int status, const char *format, ...) __attribute__((format(printf, 2, 3)));
/* Says a sentence behind the program's name. */
void say(const char *format, ...) __attribute__((format(printf, 1, 2)));
/* Lets SIGTERM, SIGINT and SIGHUP end the program's loop. */
void end_at_signals(void);

/* The number that a word spells in decimal digits, or the end of the program. */
unsigned long number_in(const char *name, const char *word, unsigned long least, unsigned long greatest);
/* Milliseconds of a clock that no one sets, and of the day's clock. */
uint64_t steady_ms(void);
uint64_t clock_ms(void);

bool is_later(struct id a, struct id b);
/* Reads an id as Redis writes it. Another text is the id 0-0. */
struct id id_in(const char *text);
/* Writes an id as Redis reads it. */
const char *id_text(struct id id, char text[ID_TEXT]);

/* Connects to the Redis of a Unix socket, or of a port of 127.0.0.1. Returns NULL, and says why, if there is none. */
redisContext *connect_to(const char *where);
/* A command, and its reply, which is never an error. An error ends the program. */
redisReply *ask(redisContext *redis, const char *format, ...);
/* The next reply to a command that was appended. A broken connection ends the program. */
redisReply *next_reply(redisContext *redis);
/* The greatest id that a stream ever had: 0-0 if there is no such stream. */
struct id last_id(redisContext *redis, const char *stream, unsigned shard);

#endif
