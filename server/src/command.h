/* What a client's words mean. */
#ifndef COMMAND_H
#define COMMAND_H

#include "bytes.h"
#include "words.h"

/* What a connection is, for commands. */
struct speaker {
    uint64_t id;
    bool resp;   /* else lines */
    bool known;  /* the protocol is known */
    bool may;    /* no password is needed, or it was given */
    bool leaves; /* the connection ends once all is answered */
};

/* Reads the password; ends if the file has none. */
void command_password(const char *path);
bool command_has_password(void);
/* Says which handlers can be called by FCALL alone. */
void command_names(void);

/* Serves a command, or a line, and answers it. */
void command_resp(struct speaker *by, const struct word *words, size_t count, struct bytes *out);
void command_line(struct speaker *by, const char *line, size_t size, struct bytes *out);
/* An error in the client's protocol. */
void command_error(const struct speaker *by, struct bytes *out, const char *text, size_t size);

#endif
