/* What the process is told, by lines on its standard input: the table, images, blocks. After each it says
 * where it is. */
#ifndef CONTROL_H
#define CONTROL_H

#include "serve.h"

#include <stdio.h>

/* Does what it is told until the input ends. The exit status: 0, or 1 after a line `amiss WHY`. */
int control_run(FILE *in, FILE *out, struct store *store, struct server *server);

#endif
