/* SPDX-License-Identifier: Apache-2.0 */
/* A version beside bytes, such as an end of an interval of `semver_intervals`, by an index over the version. */
#include "planner.h"

#include "access/stratnum.h"
#include "catalog/pg_type.h"
#include "nodes/makefuncs.h"
#include "nodes/nodeFuncs.h"
#include "nodes/supportnodes.h"
#include "optimizer/optimizer.h"
#include "utils/lsyscache.h"

extern Datum npm_version_lt_bytes(PG_FUNCTION_ARGS);
extern Datum npm_version_le_bytes(PG_FUNCTION_ARGS);
extern Datum npm_version_eq_bytes(PG_FUNCTION_ARGS);
extern Datum npm_version_ge_bytes(PG_FUNCTION_ARGS);
extern Datum npm_version_gt_bytes(PG_FUNCTION_ARGS);

/* The strategy of a comparison; 0 if the function is none. */
static StrategyNumber strategy_of(Oid function)
{
    static const PGFunction comparisons[] = {npm_version_lt_bytes, npm_version_le_bytes, npm_version_eq_bytes,
                                             npm_version_ge_bytes, npm_version_gt_bytes};
    FmgrInfo info;
    fmgr_info(function, &info);
    for (StrategyNumber strategy = BTLessStrategyNumber; strategy <= BTGreaterStrategyNumber; strategy++)
        if (comparisons[strategy - 1] == info.fn_addr)
            return strategy;
    return InvalidStrategy;
}

/* The same comparison of two versions, the second of which is the end that the bytes are. */
static List *condition_on_end(SupportRequestIndexCondition *request, List *arguments)
{
    StrategyNumber strategy = strategy_of(request->funcid);
    Oid bytes = BYTEAOID, type, operator, function;
    Node *end;
    if (strategy == InvalidStrategy || list_length(arguments) != 2 || request->indexarg != 0)
        return NIL;
    type = getBaseType(exprType(linitial(arguments)));
    operator = get_opfamily_member(request->opfamily, type, type, strategy);
    function = function_beside(request->funcid, "npm_version_end", 1, &bytes);
    if (!OidIsValid(operator) || !OidIsValid(function)
        || !is_pseudo_constant_for_index(request->root, lsecond(arguments), request->index))
        return NIL;
    end = eval_const_expressions(request->root, (Node *)call_of(function, type, list_make1(copyObject(lsecond(arguments)))));
    request->lossy = false;
    return list_make1(make_opclause(operator, BOOLOID, false, copyObject((Expr *)linitial(arguments)), (Expr *)end, InvalidOid,
                                    InvalidOid));
}

PG_FUNCTION_INFO_V1(npm_version_bytes_support);
Datum npm_version_bytes_support(PG_FUNCTION_ARGS)
{
    Node *request = (Node *)PG_GETARG_POINTER(0), *asked;
    List *arguments = NIL;
    if (!IsA(request, SupportRequestIndexCondition))
        PG_RETURN_POINTER(NULL);
    asked = ((SupportRequestIndexCondition *)request)->node;
    if (IsA(asked, OpExpr))
        arguments = ((OpExpr *)asked)->args;
    else if (IsA(asked, FuncExpr))
        arguments = ((FuncExpr *)asked)->args;
    PG_RETURN_POINTER(condition_on_end((SupportRequestIndexCondition *)request, arguments));
}
