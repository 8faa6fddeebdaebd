/* What log.c and log_read.c share. */
#ifndef LOG_DATABASE_H
#define LOG_DATABASE_H

#include <sqlite3.h>

sqlite3 *log_database(void);
void log_must(int status);
void log_do(const char *words);
sqlite3_stmt *log_prepare(const char *words);

#endif
