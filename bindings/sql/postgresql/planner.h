/* SPDX-License-Identifier: Apache-2.0 */
/*
 * What the planner is told of a call that asks whether a version satisfies a range: `version <@ range`, `range @> version`,
 * `version <@ ANY (ranges)`, or `semver_satisfies(range, version)` over the types or over texts.
 *
 * Such a call stays in the query as it is. Conditions that follow from it are put beside it, in WHERE and ON alone, and only if the
 * table has an index for them.
 */
#ifndef DENIMSCREE_PLANNER_H
#define DENIMSCREE_PLANNER_H

#include "extension.h"

#include "nodes/pathnodes.h"
#include "nodes/pg_list.h"
#include "nodes/primnodes.h"

/* The support functions: what the server asks about a call with one of these is ours. */
extern Datum npm_version_support(PG_FUNCTION_ARGS);
extern Datum denimscree_satisfies_support(PG_FUNCTION_ARGS);

/* ---- planner_lookup.c ---- */

/* The function with this name and these arguments in the schema and in the extension of another one; InvalidOid if there is none
 * or if the user may not call it. No right to use the schema is asked for: a view is planned for a user who has none. */
Oid function_beside(Oid function, const char *name, int count, const Oid *types);
Oid operator_beside(Oid function, const char *name, Oid left, Oid right);

/* A call of such a function. */
Expr *call_of(Oid function, Oid result, List *arguments);

/* A call that asks whether a version satisfies a range. */
struct question {
    Oid function;
    Node *version, *range; /* with is_any, an array of ranges */
    bool is_text, is_any, is_version_first;
};

/* Whether a node is such a call; and whether a call of a function with these arguments is. */
bool read_question(Node *node, struct question *question);
bool read_call(Oid function, List *arguments, struct question *question);

/* ---- planner_indexes.c ---- */

/* The operator family of a column of an index of a table that has this expression and that the conditions of the query can use;
 * InvalidOid if there is none. */
Oid family_of_index(PlannerInfo *root, int table, Oid relation, Node *expression);

/* ---- planner_conditions.c ---- */

/* The conditions that follow from a question about a table of the query; NIL if there are none. */
List *conditions_of(PlannerInfo *root, int table, const struct question *question);

/* Those that stand beside the question in the conditions of its table, as the server keeps them: RestrictInfo. */
List *accompanying(PlannerInfo *root, const struct question *question);

/* ---- planner_tables.c ---- */

/* From now on such conditions are put into each query. */
void watch_tables(void);

#endif
