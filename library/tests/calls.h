/* What the files of tests share. */
#ifndef CALLS_H
#define CALLS_H

#include <inttypes.h>
#include <stddef.h>
#include <string.h>
#include <summarystore.h>

#define NAMED(name) name, strlen(name)
#define HOLDS(what) holds(what, #what, __LINE__)

/* What is tried. */
extern const char *subject;

/* Counts whether it is so, and says where it isn't. */
void holds(int is_so, const char *what, int line);

/* The store at a path, which has to open. */
summarystore *opened(const char *path, unsigned flags);

/* The same with a stream `a`, which has the values 5, -3, 8 at 10, 20, 30. */
summarystore *begun(const char *path, unsigned flags);

/* Whether the reply to a line is this, in one piece. */
int says(summarystore *store, const char *line, const char *reply);

/* How many values a stream has, where that is known. */
uint64_t counted(summarystore *store, const char *name);

/* Whether a number of an answer is this one. */
int is_number(summarystore_number number, int64_t over, uint64_t under);

/* Whether the message of a stop has these words in it. */
int has_message(const summarystore *store, const char *part);

void try_null_connections(void);
void try_misuse_of_open(void);
void try_misuse(void);
void try_lines(void);
void try_pieces(void);
void try_events(void);
void try_questions(void);
void try_threads(void);
void try_words(void);
void try_files(void);
void try_looking(void);
void try_ends(void);
void try_full(void);

#endif
