/* SPDX-License-Identifier: Apache-2.0 */
/*
 * Puts the conditions of a question beside it. The server calls `put_conditions` for each table of a query as it plans it, after it has
 * simplified WHERE and ON, in which by then is also what it could move there from HAVING, and before it hands them to the tables. So
 * select lists, groups and HAVING keep their calls, which the server compares with each other.
 *
 * The library is loaded by then: the server has asked a support function about each call, or the input of a type has read its array.
 */
#include "planner.h"

#include "nodes/makefuncs.h"
#include "nodes/nodeFuncs.h"
#include "optimizer/plancat.h"

static get_relation_info_hook_type next_hook = NULL;

/* The table whose questions are looked for. */
struct place {
    PlannerInfo *root;
    int table;
};

static List *with_conditions(const struct place *place, List *conditions);

/* An alternative, and what follows from it; or the same node. */
static Node *widened_arm(const struct place *place, Node *arm)
{
    List *given = is_andclause(arm) ? ((BoolExpr *)arm)->args : list_make1(arm), *all = with_conditions(place, given);
    return all == given ? arm : (Node *)makeBoolExpr(AND_EXPR, all, -1);
}

/* Alternatives, each with what follows from it; or the same node. */
static Node *widened(const struct place *place, Node *node)
{
    List *arms = NIL;
    ListCell *cell;
    bool is_same = true;
    if (!is_orclause(node))
        return node;
    foreach (cell, ((BoolExpr *)node)->args)
    {
        Node *arm = widened_arm(place, lfirst(cell));
        is_same = is_same && arm == lfirst(cell);
        arms = lappend(arms, arm);
    }
    return is_same ? node : (Node *)makeBoolExpr(OR_EXPR, arms, -1);
}

/* Conditions that all hold, with what follows from them; or the same list. */
static List *with_conditions(const struct place *place, List *conditions)
{
    List *all = NIL, *added = NIL;
    ListCell *cell;
    bool is_same = true;
    foreach (cell, conditions)
    {
        struct question question;
        Node *node = widened(place, lfirst(cell));
        is_same = is_same && node == lfirst(cell);
        all = lappend(all, node);
        if (read_question(node, &question))
            added = list_concat(added, conditions_of(place->root, place->table, &question));
    }
    return is_same && added == NIL ? conditions : list_concat(all, added);
}

/* Goes through the WHERE and each ON of a query. */
static void widen_joins(const struct place *place, Node *join)
{
    if (IsA(join, FromExpr))
    {
        ListCell *cell;
        foreach (cell, ((FromExpr *)join)->fromlist)
            widen_joins(place, lfirst(cell));
        ((FromExpr *)join)->quals = (Node *)with_conditions(place, (List *)((FromExpr *)join)->quals);
    }
    else if (IsA(join, JoinExpr))
    {
        widen_joins(place, ((JoinExpr *)join)->larg);
        widen_joins(place, ((JoinExpr *)join)->rarg);
        ((JoinExpr *)join)->quals = (Node *)with_conditions(place, (List *)((JoinExpr *)join)->quals);
    }
}

/* A partition has the conditions of its table. */
static void put_conditions(PlannerInfo *root, Oid relation, bool is_parent, RelOptInfo *table)
{
    if (next_hook != NULL)
        next_hook(root, relation, is_parent, table);
    if (table->reloptkind == RELOPT_BASEREL && root->parse->jointree != NULL)
        widen_joins(&(struct place){root, (int)table->relid}, (Node *)root->parse->jointree);
}

void watch_tables(void)
{
    next_hook = get_relation_info_hook;
    get_relation_info_hook = put_conditions;
}
