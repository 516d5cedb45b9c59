/* SPDX-License-Identifier: Apache-2.0 */
/* Which index of a table serves conditions on an expression. */
#include "planner.h"

#include "access/genam.h"
#include "access/table.h"
#include "catalog/pg_am.h"
#include "nodes/nodeFuncs.h"
#include "optimizer/optimizer.h"
#include "rewrite/rewriteManip.h"
#include "utils/lsyscache.h"
#include "utils/rel.h"
#include "utils/relcache.h"

/* A column of an index: an expression, or a column of the table with this number. */
struct indexed {
    Node *expression; /* NULL for a column */
    int table;
    AttrNumber attribute;
};

static bool is_indexed_by(Node *node, const struct indexed *indexed)
{
    if (indexed->expression != NULL)
        return equal(node, indexed->expression);
    if (IsA(node, RelabelType))
        node = (Node *)((RelabelType *)node)->arg;
    return IsA(node, Var) && ((Var *)node)->varlevelsup == 0 && ((Var *)node)->varno == indexed->table
           && ((Var *)node)->varattno == indexed->attribute;
}

/* The arguments of an operator with this name, or of `= ANY (array)`; NIL for anything else. */
static List *compared(Node *node)
{
    Oid operator;
    char *name;
    List *arguments;
    if (IsA(node, OpExpr))
    {
        operator = ((OpExpr *)node)->opno;
        arguments = ((OpExpr *)node)->args;
    }
    else if (IsA(node, ScalarArrayOpExpr) && ((ScalarArrayOpExpr *)node)->useOr)
    {
        operator = ((ScalarArrayOpExpr *)node)->opno;
        arguments = ((ScalarArrayOpExpr *)node)->args;
    }
    else
        return NIL;
    name = get_opname(operator);
    return name != NULL && strcmp(name, "=") == 0 && list_length(arguments) == 2 ? arguments : NIL;
}

/* Whether conditions say what a column of an index is equal to. */
static bool has_equality(Node *node, void *given)
{
    List *arguments;
    if (node == NULL)
        return false;
    arguments = compared(node);
    if (arguments != NIL && (is_indexed_by(linitial(arguments), given) || is_indexed_by(lsecond(arguments), given)))
        return true;
    return expression_tree_walker(node, has_equality, given);
}

/* Whether the conditions of the query imply those of an index that has only some rows. */
static bool has_all_rows(Relation index, PlannerInfo *root, int table)
{
    List *predicate = copyObject(RelationGetIndexPredicate(index));
    if (predicate == NIL)
        return true;
    ChangeVarNodes((Node *)predicate, 1, table, 0);
    return predicate_implied_by(predicate, (List *)root->parse->jointree->quals, false);
}

/* The operator family of the column of an index that has the expression, if the query says what each column before it is equal to. */
static Oid family_of_column(Relation index, PlannerInfo *root, int table, Node *expression)
{
    List *expressions = copyObject(RelationGetIndexExpressions(index));
    ListCell *next = list_head(expressions);
    ChangeVarNodes((Node *)expressions, 1, table, 0);
    for (int place = 0; place < index->rd_index->indnkeyatts; place++)
    {
        struct indexed indexed = {NULL, table, index->rd_index->indkey.values[place]};
        if (indexed.attribute == 0)
        {
            indexed.expression = lfirst(next);
            next = lnext(expressions, next);
        }
        if (is_indexed_by(expression, &indexed))
            return index->rd_opfamily[place];
        if (!has_equality((Node *)root->parse->jointree, &indexed))
            return InvalidOid;
    }
    return InvalidOid;
}

Oid family_of_index(PlannerInfo *root, int table, Oid relation, Node *expression)
{
    Relation opened = table_open(relation, NoLock);
    Oid family = InvalidOid;
    ListCell *cell;
    foreach (cell, RelationGetIndexList(opened))
    {
        Relation index = index_open(lfirst_oid(cell), AccessShareLock);
        if (!OidIsValid(family) && index->rd_index->indisvalid && index->rd_rel->relam == BTREE_AM_OID
            && has_all_rows(index, root, table))
            family = family_of_column(index, root, table, expression);
        index_close(index, AccessShareLock);
    }
    table_close(opened, NoLock);
    return family;
}
