/* SPDX-License-Identifier: Apache-2.0 */
/* The requests for memory of a program and of what it loads: they are counted, and one of them can be refused. */
#ifndef DENIMSCREE_REQUESTS_H
#define DENIMSCREE_REQUESTS_H

#include <stdbool.h>
#include <stddef.h>

/* Begins to count at 1, and refuses the request with this number, or none if it is 0. With `and_later`, all after it too. */
void refuse_request(size_t number, bool and_later);

/* How many requests were made since then, and how many were refused. */
size_t requests(void);
size_t refused(void);

/* How many bytes and blocks are in use. */
size_t bytes_in_use(void);
size_t blocks_in_use(void);

#endif
