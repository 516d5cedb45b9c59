/* SPDX-License-Identifier: Apache-2.0 */
/* Functions of the extension by the catalogue, and calls in a query that ask whether a version satisfies a range. */
#include "planner.h"

#include "catalog/dependency.h"
#include "catalog/pg_operator.h"
#include "catalog/pg_proc.h"
#include "miscadmin.h"
#include "nodes/makefuncs.h"
#include "nodes/nodeFuncs.h"
#include "utils/acl.h"
#include "utils/builtins.h"
#include "utils/lsyscache.h"
#include "utils/syscache.h"

static bool is_of_one_extension(Oid function, Oid other)
{
    return getExtensionOfObject(ProcedureRelationId, function) == getExtensionOfObject(ProcedureRelationId, other);
}

Oid function_beside(Oid function, const char *name, int count, const Oid *types)
{
    Oid found = GetSysCacheOid3(PROCNAMEARGSNSP, Anum_pg_proc_oid, CStringGetDatum(name),
                                PointerGetDatum(buildoidvector(types, count)), ObjectIdGetDatum(get_func_namespace(function)));
    if (!OidIsValid(found) || !is_of_one_extension(function, found)
        || pg_proc_aclcheck(found, GetUserId(), ACL_EXECUTE) != ACLCHECK_OK)
        return InvalidOid;
    return found;
}

Oid operator_beside(Oid function, const char *name, Oid left, Oid right)
{
    return GetSysCacheOid4(OPERNAMENSP, Anum_pg_operator_oid, CStringGetDatum(name), ObjectIdGetDatum(left),
                           ObjectIdGetDatum(right), ObjectIdGetDatum(get_func_namespace(function)));
}

Expr *call_of(Oid function, Oid result, List *arguments)
{
    return (Expr *)makeFuncExpr(function, result, arguments, InvalidOid, exprCollation(linitial(arguments)),
                                COERCE_EXPLICIT_CALL);
}

/* The code of a function in C. */
static PGFunction code_of(Oid function)
{
    FmgrInfo info;
    fmgr_info(function, &info);
    return info.fn_addr;
}

/* Whether a function is the one in C with this name, also if settings go with it, by which the server wraps its code. */
static bool is_in_c(Oid function, const char *name)
{
    HeapTuple row = SearchSysCache1(PROCOID, ObjectIdGetDatum(function));
    bool answer = false, is_null = true;
    Datum source;
    if (!HeapTupleIsValid(row))
        return false;
    source = SysCacheGetAttr(PROCOID, row, Anum_pg_proc_prosrc, &is_null);
    if (!is_null)
        answer = strcmp(TextDatumGetCString(source), name) == 0;
    ReleaseSysCache(row);
    return answer;
}

bool read_call(Oid function, List *arguments, struct question *question)
{
    Oid support = get_func_support(function);
    PGFunction asked = OidIsValid(support) ? code_of(support) : NULL;
    if (asked != npm_version_support && asked != denimscree_satisfies_support)
        return false;
    if (list_length(arguments) != 2)
        return false;
    question->function = function;
    question->is_text = asked == denimscree_satisfies_support;
    question->is_any = false;
    question->is_version_first = !question->is_text && is_in_c(function, "npm_version_in_range");
    question->version = list_nth(arguments, question->is_version_first ? 0 : 1);
    question->range = list_nth(arguments, question->is_version_first ? 1 : 0);
    return true;
}

bool read_question(Node *node, struct question *question)
{
    if (IsA(node, FuncExpr))
        return read_call(((FuncExpr *)node)->funcid, ((FuncExpr *)node)->args, question);
    if (IsA(node, OpExpr))
        return read_call(get_opcode(((OpExpr *)node)->opno), ((OpExpr *)node)->args, question);
    if (!IsA(node, ScalarArrayOpExpr) || !((ScalarArrayOpExpr *)node)->useOr
        || !read_call(get_opcode(((ScalarArrayOpExpr *)node)->opno), ((ScalarArrayOpExpr *)node)->args, question))
        return false;
    question->is_any = true;
    return question->is_version_first;
}
