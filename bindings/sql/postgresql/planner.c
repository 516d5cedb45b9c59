/* SPDX-License-Identifier: Apache-2.0 */
/*
 * What the server asks about a question: which conditions on an index follow from it, and how many rows it lets through.
 *
 * An index over the version is told that the version is at or above the least lower end of the range, and below the greatest upper
 * one. That lets through more, so the server tests each row that the index finds. The range may be any expression that does not
 * change during the scan. An index over the range is told the operator that it knows.
 */
#include "planner.h"
#include "version.h"

#include "access/stratnum.h"
#include "catalog/pg_type.h"
#include "nodes/makefuncs.h"
#include "nodes/nodeFuncs.h"
#include "nodes/pathnodes.h"
#include "nodes/supportnodes.h"
#include "optimizer/optimizer.h"
#include "utils/lsyscache.h"
#include "utils/selfuncs.h"

/* ---- index conditions ---- */

/* The condition that a version is related to an end of the hull of a range; NULL if there is no such function. */
static Expr *condition(const SupportRequestIndexCondition *request, Oid operator, const char *end, Node *version, Node *range)
{
    Oid type = getBaseType(exprType(range)), function = function_beside(request->funcid, end, 1, &type);
    Node *call;
    if (!OidIsValid(function))
        return NULL;
    call = (Node *)call_of(function, getBaseType(exprType(version)), list_make1(copyObject(range)));
    call = eval_const_expressions(request->root, call);
    return make_opclause(operator, BOOLOID, false, copyObject((Expr *)version), (Expr *)call, InvalidOid, InvalidOid);
}

static List *conditions_on_version(SupportRequestIndexCondition *request, const struct question *question)
{
    Oid type = getBaseType(exprType(question->version));
    Oid from = get_opfamily_member(request->opfamily, type, type, BTGreaterEqualStrategyNumber);
    Oid below = get_opfamily_member(request->opfamily, type, type, BTLessStrategyNumber);
    Expr *lower, *upper;
    if (!OidIsValid(from) || !OidIsValid(below)
        || !is_pseudo_constant_for_index(request->root, question->range, request->index))
        return NIL;
    lower = condition(request, from, "npm_range_lower_end", question->version, question->range);
    upper = condition(request, below, "npm_range_upper_end", question->version, question->range);
    if (lower == NULL || upper == NULL)
        return NIL;
    request->lossy = true;
    return list_make2(lower, upper);
}

/* The operator by which a class of operators over ranges finds those that hold a version. */
#define HOLDS_STRATEGY 1

static List *conditions_on_range(SupportRequestIndexCondition *request, const struct question *question)
{
    Oid range = getBaseType(exprType(question->range)), version = getBaseType(exprType(question->version));
    Oid operator = get_opfamily_member(request->opfamily, range, version, HOLDS_STRATEGY);
    if (!OidIsValid(operator) || !is_pseudo_constant_for_index(request->root, question->version, request->index))
        return NIL;
    request->lossy = false;
    return list_make1(make_opclause(operator, BOOLOID, false, copyObject((Expr *)question->range),
                                    copyObject((Expr *)question->version), InvalidOid, InvalidOid));
}

static List *conditions(SupportRequestIndexCondition *request)
{
    struct question question;
    /* A function's argument may be of another type in a call that was not checked. */
    if (!read_question(request->node, &question) || question.is_text || question.is_any)
        return NIL;
    if (request->indexarg == (question.is_version_first ? 0 : 1))
        return conditions_on_version(request, &question);
    return conditions_on_range(request, &question);
}

/* ---- how many rows ---- */

/* As many as the operator with these arguments lets through, by the statistics of the column. */
static Selectivity share_by_operator(PlannerInfo *root, Oid operator, Oid collation, List *arguments, int table)
{
    double share = generic_restriction_selectivity(root, operator, collation, arguments, table, DEFAULT_MATCHING_SEL);
    CLAMP_PROBABILITY(share);
    return share;
}

/* The share of a question over the type, of which the statistics are the versions. What stands beside it lets through no fewer rows, so
 * that counts for nothing. */
static Selectivity share_of_typed(PlannerInfo *root, Oid operator, Oid collation, List *arguments, int table,
                                  const struct question *question)
{
    ListCell *cell;
    foreach (cell, accompanying(root, question))
    {
        lfirst_node(RestrictInfo, cell)->norm_selec = 1.0;
        lfirst_node(RestrictInfo, cell)->outer_selec = 1.0;
    }
    return share_by_operator(root, operator, collation, arguments, table);
}

PG_FUNCTION_INFO_V1(npm_version_sel);
Datum npm_version_sel(PG_FUNCTION_ARGS)
{
    PlannerInfo *root = (PlannerInfo *)PG_GETARG_POINTER(0);
    Oid operator = PG_GETARG_OID(1);
    List *arguments = (List *)PG_GETARG_POINTER(2);
    int table = PG_GETARG_INT32(3);
    struct question question;
    if (read_call(get_opcode(operator), arguments, &question))
        PG_RETURN_FLOAT8(share_of_typed(root, operator, PG_GET_COLLATION(), arguments, table, &question));
    PG_RETURN_FLOAT8(share_by_operator(root, operator, PG_GET_COLLATION(), arguments, table));
}

/* Whether the share of a call over texts is known: the keys have the statistics, and then the call counts for nothing. */
static bool find_share_of_texts(SupportRequestSelectivity *request, const struct question *question)
{
    request->selectivity = 1.0;
    return !request->is_join && accompanying(request->root, question) != NIL;
}

/* Whether the share of a call of a function is known, which is then written. */
static bool find_share(SupportRequestSelectivity *request)
{
    struct question question;
    Oid operator;
    if (!read_call(request->funcid, request->args, &question))
        return false;
    if (question.is_text)
        return find_share_of_texts(request, &question);
    operator = operator_beside(request->funcid, question.is_version_first ? "<@" : "@>",
                               getBaseType(exprType(linitial(request->args))), getBaseType(exprType(lsecond(request->args))));
    if (!OidIsValid(operator))
        return false;
    request->selectivity = request->is_join ? DEFAULT_MATCHING_SEL
                                            : share_of_typed(request->root, operator, request->inputcollid, request->args,
                                                             request->varRelid, &question);
    return true;
}

/* ---- support functions ---- */

PG_FUNCTION_INFO_V1(npm_version_support);
Datum npm_version_support(PG_FUNCTION_ARGS)
{
    Node *request = (Node *)PG_GETARG_POINTER(0);
    if (IsA(request, SupportRequestIndexCondition))
        PG_RETURN_POINTER(conditions((SupportRequestIndexCondition *)request));
    if (IsA(request, SupportRequestSelectivity) && find_share((SupportRequestSelectivity *)request))
        PG_RETURN_POINTER(request);
    PG_RETURN_POINTER(NULL);
}

/* Over texts: what an index can do is put beside the call. */
PG_FUNCTION_INFO_V1(denimscree_satisfies_support);
Datum denimscree_satisfies_support(PG_FUNCTION_ARGS)
{
    Node *request = (Node *)PG_GETARG_POINTER(0);
    if (IsA(request, SupportRequestSelectivity) && find_share((SupportRequestSelectivity *)request))
        PG_RETURN_POINTER(request);
    PG_RETURN_POINTER(NULL);
}
