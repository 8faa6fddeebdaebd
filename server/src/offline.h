/* What is done with data without serving it. Each answers the status of the program. */
#ifndef OFFLINE_H
#define OFFLINE_H

/* Handlers and log, as a session file. */
int offline_print_log(void);
/* The tables, which have been opened, as `foresight dump` has them. */
int offline_print_tables(void);
/* A copy of the log, and of the snapshot that it names. */
int offline_backup(void);
/* New data of other handlers with the tables that there are; the old data stays. */
int offline_change(void);

#endif
