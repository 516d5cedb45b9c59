/* SPDX-License-Identifier: Apache-2.0 */
/* The proved call. npm_calls.h says what its texts mean; here none of them may be null. */
npm_status npm_call(const char *name, size_t name_length, const char *text, size_t text_length, char *room, size_t size, size_t *length);
