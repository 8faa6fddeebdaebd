/* What the words of the program say. */
#ifndef OPTIONS_H
#define OPTIONS_H

#include <stdbool.h>
#include <stdint.h>

struct options {
    const char *handlers, *data, *unix_path, *listen, *password_file, *backup, *change;
    uint64_t most_names, connections, idle_seconds, queue, slow_milliseconds, once_clients,
        once_window, snapshot_every, until, send_seconds, checkpoint;
    bool keep_log, print_log, print_tables, has_until;
};

extern struct options options;

/* Ends with STATUS_USAGE and the list of words if they are others. */
void options_read(int count, char **words);

#endif
