/* Requests to the keeper of the interfaces; see ../shared/link.h. */
#ifndef KEEPER_H
#define KEEPER_H

#include "../shared/link.h"

/* Sends a request to the keeper of the interfaces. If no keeper is running, starts one, except for LINK_LOOK, which
 * reads only known properties. `copy` is a socket that is sent with the request, or -1. Returns the error in the reply:
 * an errno, or 0. Leaves errno unchanged. */
int keeper_ask(const struct link_request *request, int copy, struct link_reply *reply);

#endif
