/* SPDX-License-Identifier: Apache-2.0 */
/*
 * The conditions that follow from a question, over a version or over the key of a text. Those of a constant range are the ends of each
 * of its intervals, or, where it has many, of groups of neighbours. Those of any other range are the ends of its hull, which are
 * known once the scan begins.
 */
#include "intervals.h"
#include "planner.h"

#include "access/stratnum.h"
#include "catalog/pg_type.h"
#include "nodes/makefuncs.h"
#include "nodes/nodeFuncs.h"
#include "optimizer/clauses.h"
#include "optimizer/optimizer.h"
#include "optimizer/pathnode.h"
#include "parser/parsetree.h"
#include "utils/array.h"
#include "utils/lsyscache.h"

/* The most intervals of a constant range that are conditions each. */
#define MOST_CONDITIONS 32

/* What is compared with ends: a version, or the key of a text, of which the type is bytea. */
struct compared {
    const struct question *question;
    Node *node;
    Oid type, from, below; /* its type, and the operators for at or above, and for below */
};

/* The condition that what is compared is related to an end by an operator. */
static Expr *related(const struct compared *compared, Oid operator, Node *end)
{
    return make_opclause(operator, BOOLOID, false, copyObject((Expr *)compared->node), (Expr *)end, InvalidOid, InvalidOid);
}

/* The two conditions that it is from one end up to another. */
static List *between(const struct compared *compared, Node *lower, Node *upper)
{
    return list_make2(related(compared, compared->from, lower), related(compared, compared->below, upper));
}

static Node *constant(const struct compared *compared, struct end end)
{
    void *value = compared->type == BYTEAOID ? (void *)bytea_of(end) : (void *)value_of_end(end.bytes, end.length);
    return (Node *)makeConst(compared->type, -1, InvalidOid, -1, PointerGetDatum(value), false, false);
}

static List *in_interval(const struct compared *compared, const struct interval *interval)
{
    return between(compared, constant(compared, interval->lower), constant(compared, interval->upper));
}

/* The condition that it is in one of the intervals. */
static Expr *in_one_of(const struct compared *compared, const struct interval_list *list)
{
    List *each = NIL;
    for (size_t place = 0; place < list->count; place++)
        each = lappend(each, makeBoolExpr(AND_EXPR, in_interval(compared, &list->at[place]), -1));
    return makeBoolExpr(OR_EXPR, each, -1);
}

/* ---- constant ranges ---- */

static void add_range_to(struct interval_list *list, const struct varlena *value)
{
    struct range range = range_of(value);
    for (size_t place = 0; place < range.releases + range.prereleases; place++)
        add_interval_to(list, (struct interval){lower_end(&range, place), upper_end(&range, place)});
}

/* Those of each range of an array. A NULL has none. */
static void add_array_to(struct interval_list *list, ArrayType *array)
{
    int16 length;
    bool is_by_value, *nulls;
    char alignment;
    Datum *values;
    int count;
    get_typlenbyvalalign(ARR_ELEMTYPE(array), &length, &is_by_value, &alignment);
    deconstruct_array(array, ARR_ELEMTYPE(array), length, is_by_value, alignment, &values, &nulls, &count);
    for (int place = 0; place < count; place++)
        if (!nulls[place])
            add_range_to(list, (struct varlena *)PG_DETOAST_DATUM_PACKED(values[place]));
}

/* A text that is no range has none: it is an error only once a row is tested. */
static void add_text_to(struct interval_list *list, const struct varlena *text)
{
    struct varlena *value = new_range(VARDATA_ANY(text), VARSIZE_ANY_EXHDR(text), true);
    if (value != NULL)
        add_range_to(list, value);
}

static void add_constant_to(struct interval_list *list, const struct question *question)
{
    Datum value = ((Const *)question->range)->constvalue;
    if (question->is_text)
        add_text_to(list, PG_DETOAST_DATUM_PACKED(value));
    else if (question->is_any)
        add_array_to(list, DatumGetArrayTypeP(value));
    else
        add_range_to(list, (struct varlena *)PG_DETOAST_DATUM_PACKED(value));
}

/* Each key begins with a byte below 255, and none is empty. */
static bool has_all_keys(const struct interval *interval)
{
    return interval->lower.length == 0 && interval->upper.length > 0 && interval->upper.bytes[0] == 255;
}

/* The hull is among them also where each interval is, for a scan in the order of an index, which takes no alternatives. Of one range
 * of the type the planner learns it from the operator. */
static List *conditions_of_constant(const struct compared *compared)
{
    struct interval_list list = {NULL, 0, 0};
    struct interval hull;
    List *conditions = NIL;
    add_constant_to(&list, compared->question);
    join_intervals(&list);
    if (list.count == 0)
        return NIL;
    hull = (struct interval){list.at[0].lower, list.at[list.count - 1].upper};
    if (!has_all_keys(&hull) && (compared->question->is_text || compared->question->is_any))
        conditions = in_interval(compared, &hull);
    if (list.count > 1)
    {
        close_gaps(&list, MOST_CONDITIONS);
        conditions = lappend(conditions, in_one_of(compared, &list));
    }
    return conditions;
}

/* ---- other ranges ---- */

static Node *end_of(const struct question *question, const char *name, Oid result)
{
    Oid type = question->is_text ? TEXTOID : exprType(question->range);
    Oid function = function_beside(question->function, name, 1, &type);
    return OidIsValid(function) ? (Node *)call_of(function, result, list_make1(copyObject(question->range))) : NULL;
}

/* A single range of the type needs none: the planner asks for its hull where there is an index. */
static List *conditions_of_hull(const struct compared *compared)
{
    const struct question *question = compared->question;
    Node *lower, *upper;
    if (!question->is_text && !question->is_any)
        return NIL;
    lower = end_of(question, question->is_text ? "semver_lower_key" : "npm_range_lower_end", compared->type);
    upper = end_of(question, question->is_text ? "semver_upper_key" : "npm_range_upper_end", compared->type);
    return lower == NULL || upper == NULL ? NIL : between(compared, lower, upper);
}

/* ---- a question ---- */

/* What an index of versions has: the version, or the key of its text; NULL if there is no such function. */
static Node *indexed_by_question(const struct question *question)
{
    Oid type = TEXTOID, function;
    if (!question->is_text)
        return question->version;
    function = function_beside(question->function, "semver_key", 1, &type);
    return OidIsValid(function) ? (Node *)call_of(function, BYTEAOID, list_make1(copyObject(question->version))) : NULL;
}

/* Whether the version is of the table alone, the range is of other tables, and neither changes during the scan. */
static bool is_about(PlannerInfo *root, int table, const struct question *question)
{
    int member;
    return bms_get_singleton_member(pull_varnos(root, question->version), &member) && member == table
           && !bms_is_member(table, pull_varnos(root, question->range)) && !contain_volatile_functions(question->range)
           && !contain_volatile_functions(question->version) && !contain_subplans(question->range);
}

List *conditions_of(PlannerInfo *root, int table, const struct question *question)
{
    RangeTblEntry *entry = planner_rt_fetch(table, root);
    struct compared compared = {question, NULL, InvalidOid, InvalidOid, InvalidOid};
    Oid family;
    if (entry->rtekind != RTE_RELATION || !is_about(root, table, question))
        return NIL;
    if (IsA(question->range, Const) && ((Const *)question->range)->constisnull)
        return NIL;
    compared.node = indexed_by_question(question);
    family = compared.node == NULL ? InvalidOid : family_of_index(root, table, entry->relid, compared.node);
    if (!OidIsValid(family))
        return NIL;
    compared.type = question->is_text ? BYTEAOID : getBaseType(exprType(compared.node));
    compared.from = get_opfamily_member(family, compared.type, compared.type, BTGreaterEqualStrategyNumber);
    compared.below = get_opfamily_member(family, compared.type, compared.type, BTLessStrategyNumber);
    if (!OidIsValid(compared.from) || !OidIsValid(compared.below))
        return NIL;
    return IsA(question->range, Const) ? conditions_of_constant(&compared) : conditions_of_hull(&compared);
}

static bool is_one_of(List *conditions, const RestrictInfo *kept)
{
    ListCell *cell;
    foreach (cell, conditions)
        if (equal(lfirst(cell), kept->clause))
            return true;
    return false;
}

/* Whether a question is itself a condition of its table. An element of an array is none. */
static bool is_condition(List *kept, const struct question *question)
{
    ListCell *cell;
    foreach (cell, kept)
    {
        struct question other;
        if (read_question((Node *)lfirst_node(RestrictInfo, cell)->clause, &other) && !other.is_any
            && equal(other.version, question->version) && equal(other.range, question->range))
            return true;
    }
    return false;
}

List *accompanying(PlannerInfo *root, const struct question *question)
{
    int table;
    List *conditions, *found = NIL;
    ListCell *cell;
    if (!bms_get_singleton_member(pull_varnos(root, question->version), &table) || root->simple_rel_array[table] == NULL
        || list_length(root->simple_rel_array[table]->baserestrictinfo) < 2
        || !is_condition(root->simple_rel_array[table]->baserestrictinfo, question))
        return NIL;
    conditions = conditions_of(root, table, question);
    foreach (cell, root->simple_rel_array[table]->baserestrictinfo)
        if (is_one_of(conditions, lfirst_node(RestrictInfo, cell)))
            found = lappend(found, lfirst(cell));
    return found;
}

/* ---- the hull of an array of ranges ---- */

static Datum end_of_array(FunctionCallInfo fcinfo, bool is_upper)
{
    struct interval_list list = {NULL, 0, 0};
    struct end end = {NULL, 0};
    add_array_to(&list, PG_GETARG_ARRAYTYPE_P(0));
    join_intervals(&list);
    if (list.count > 0)
        end = is_upper ? list.at[list.count - 1].upper : list.at[0].lower;
    return PointerGetDatum(value_of_end(end.bytes, end.length));
}

PG_FUNCTION_INFO_V1(npm_range_lower_end_of_any);
Datum npm_range_lower_end_of_any(PG_FUNCTION_ARGS)
{
    return end_of_array(fcinfo, false);
}

PG_FUNCTION_INFO_V1(npm_range_upper_end_of_any);
Datum npm_range_upper_end_of_any(PG_FUNCTION_ARGS)
{
    return end_of_array(fcinfo, true);
}

/* ---- the hull of the range of a text ---- */

/* That of a text that is no range has all keys: then the test of a row is the error, and there is none without a row. */
static Datum end_of_text(const text *read, bool is_upper)
{
    static const unsigned char above_all[] = {255};
    struct varlena *value = new_range(VARDATA_ANY(read), VARSIZE_ANY_EXHDR(read), true);
    struct end end = {above_all, is_upper ? sizeof above_all : 0};
    if (value != NULL)
    {
        struct range range = range_of(value);
        end = hull_end(&range, is_upper);
    }
    PG_RETURN_BYTEA_P(bytea_of(end));
}

PG_FUNCTION_INFO_V1(denimscree_lower_key);
Datum denimscree_lower_key(PG_FUNCTION_ARGS)
{
    return end_of_text(PG_GETARG_TEXT_PP(0), false);
}

PG_FUNCTION_INFO_V1(denimscree_upper_key);
Datum denimscree_upper_key(PG_FUNCTION_ARGS)
{
    return end_of_text(PG_GETARG_TEXT_PP(0), true);
}
