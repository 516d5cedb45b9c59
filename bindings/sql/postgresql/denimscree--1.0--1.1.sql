-- SPDX-License-Identifier: Apache-2.0
\echo Use "create extension denimscree" or "alter extension denimscree update" to load this file. \quit

-- ---- versions ----

create type npm_version;
create function npm_version_in(cstring) returns npm_version
    as 'MODULE_PATHNAME' language c immutable strict parallel safe;
create function npm_version_out(npm_version) returns cstring
    as 'MODULE_PATHNAME' language c immutable strict parallel safe;
create function npm_version_recv(internal) returns npm_version
    as 'MODULE_PATHNAME' language c immutable strict parallel safe;
create function npm_version_send(npm_version) returns bytea
    as 'MODULE_PATHNAME' language c immutable strict parallel safe;
create type npm_version (input = npm_version_in, output = npm_version_out, receive = npm_version_recv, send = npm_version_send,
    internallength = variable, storage = extended);
comment on type npm_version is 'a version of npm, in the order of SemVer';

create cast (text as npm_version) with inout as assignment;
create cast (varchar as npm_version) with inout as assignment;
create cast (npm_version as text) with inout as assignment;
create cast (npm_version as varchar) with inout as assignment;

create function semver_key(version npm_version) returns bytea
    as 'MODULE_PATHNAME', 'npm_version_key' language c immutable strict parallel safe;
comment on function semver_key(npm_version) is 'the key of a version: keys sort as versions do';
create function semver_is_prerelease(version npm_version) returns boolean
    as 'MODULE_PATHNAME', 'npm_version_is_prerelease' language c immutable strict parallel safe;
comment on function semver_is_prerelease(npm_version) is 'whether the version is a prerelease';

-- the order of versions; builds count for nothing
create function npm_version_lt(npm_version, npm_version) returns boolean as 'MODULE_PATHNAME' language c immutable strict parallel safe;
create function npm_version_le(npm_version, npm_version) returns boolean as 'MODULE_PATHNAME' language c immutable strict parallel safe;
create function npm_version_eq(npm_version, npm_version) returns boolean as 'MODULE_PATHNAME' language c immutable strict parallel safe;
create function npm_version_ne(npm_version, npm_version) returns boolean as 'MODULE_PATHNAME' language c immutable strict parallel safe;
create function npm_version_ge(npm_version, npm_version) returns boolean as 'MODULE_PATHNAME' language c immutable strict parallel safe;
create function npm_version_gt(npm_version, npm_version) returns boolean as 'MODULE_PATHNAME' language c immutable strict parallel safe;
create function npm_version_cmp(npm_version, npm_version) returns integer as 'MODULE_PATHNAME' language c immutable strict parallel safe;
create function npm_version_hash(npm_version) returns integer as 'MODULE_PATHNAME' language c immutable strict parallel safe;
create function npm_version_hash_extended(npm_version, bigint) returns bigint
    as 'MODULE_PATHNAME' language c immutable strict parallel safe;
create operator < (leftarg = npm_version, rightarg = npm_version, function = npm_version_lt, commutator = >, negator = >=,
    restrict = scalarltsel, join = scalarltjoinsel);
create operator <= (leftarg = npm_version, rightarg = npm_version, function = npm_version_le, commutator = >=, negator = >,
    restrict = scalarlesel, join = scalarlejoinsel);
create operator = (leftarg = npm_version, rightarg = npm_version, function = npm_version_eq, commutator = =, negator = <>,
    restrict = eqsel, join = eqjoinsel, hashes, merges);
create operator <> (leftarg = npm_version, rightarg = npm_version, function = npm_version_ne, commutator = <>, negator = =,
    restrict = neqsel, join = neqjoinsel);
create operator >= (leftarg = npm_version, rightarg = npm_version, function = npm_version_ge, commutator = <=, negator = <,
    restrict = scalargesel, join = scalargejoinsel);
create operator > (leftarg = npm_version, rightarg = npm_version, function = npm_version_gt, commutator = <, negator = <=,
    restrict = scalargtsel, join = scalargtjoinsel);
create function npm_version_sortsupport(internal) returns void
    as 'MODULE_PATHNAME' language c immutable strict parallel safe;

-- versions beside bytes: the ends of intervals, as `semver_intervals` has them
create function npm_version_lt_bytes(npm_version, bytea) returns boolean
    as 'MODULE_PATHNAME' language c immutable strict parallel safe;
create function npm_version_le_bytes(npm_version, bytea) returns boolean
    as 'MODULE_PATHNAME' language c immutable strict parallel safe;
create function npm_version_eq_bytes(npm_version, bytea) returns boolean
    as 'MODULE_PATHNAME' language c immutable strict parallel safe;
create function npm_version_ge_bytes(npm_version, bytea) returns boolean
    as 'MODULE_PATHNAME' language c immutable strict parallel safe;
create function npm_version_gt_bytes(npm_version, bytea) returns boolean
    as 'MODULE_PATHNAME' language c immutable strict parallel safe;
create function npm_version_cmp_bytes(npm_version, bytea) returns integer
    as 'MODULE_PATHNAME' language c immutable strict parallel safe;
create operator < (leftarg = npm_version, rightarg = bytea, function = npm_version_lt_bytes, restrict = scalarltsel, join = scalarltjoinsel);
create operator <= (leftarg = npm_version, rightarg = bytea, function = npm_version_le_bytes, restrict = scalarlesel, join = scalarlejoinsel);
create operator = (leftarg = npm_version, rightarg = bytea, function = npm_version_eq_bytes, restrict = eqsel, join = eqjoinsel);
create operator >= (leftarg = npm_version, rightarg = bytea, function = npm_version_ge_bytes, restrict = scalargesel, join = scalargejoinsel);
create operator > (leftarg = npm_version, rightarg = bytea, function = npm_version_gt_bytes, restrict = scalargtsel, join = scalargtjoinsel);

create operator class npm_version_ops default for type npm_version using btree as
    operator 1 <, operator 2 <=, operator 3 =, operator 4 >=, operator 5 >,
    operator 1 < (npm_version, bytea), operator 2 <= (npm_version, bytea), operator 3 = (npm_version, bytea),
    operator 4 >= (npm_version, bytea), operator 5 > (npm_version, bytea),
    function 1 npm_version_cmp(npm_version, npm_version), function 1 (npm_version, bytea) npm_version_cmp_bytes(npm_version, bytea),
    function 2 npm_version_sortsupport(internal);
create operator class npm_version_ops default for type npm_version using hash as
    operator 1 =, function 1 npm_version_hash(npm_version), function 2 npm_version_hash_extended(npm_version, bigint);

create function npm_version_larger(npm_version, npm_version) returns npm_version
    as 'MODULE_PATHNAME' language c immutable strict parallel safe;
create function npm_version_smaller(npm_version, npm_version) returns npm_version
    as 'MODULE_PATHNAME' language c immutable strict parallel safe;
create aggregate max(npm_version) (sfunc = npm_version_larger, stype = npm_version, combinefunc = npm_version_larger,
    sortop = >, parallel = safe);
create aggregate min(npm_version) (sfunc = npm_version_smaller, stype = npm_version, combinefunc = npm_version_smaller,
    sortop = <, parallel = safe);

-- ---- ranges ----

create type npm_range;
create function npm_range_in(cstring) returns npm_range
    as 'MODULE_PATHNAME' language c immutable strict parallel safe;
create function npm_range_out(npm_range) returns cstring
    as 'MODULE_PATHNAME' language c immutable strict parallel safe;
create function npm_range_recv(internal) returns npm_range
    as 'MODULE_PATHNAME' language c immutable strict parallel safe;
create function npm_range_send(npm_range) returns bytea
    as 'MODULE_PATHNAME' language c immutable strict parallel safe;
create type npm_range (input = npm_range_in, output = npm_range_out, receive = npm_range_recv, send = npm_range_send,
    internallength = variable, storage = extended);
comment on type npm_range is 'a range of npm, as it was written';

create cast (text as npm_range) with inout as assignment;
create cast (varchar as npm_range) with inout as assignment;
create cast (npm_range as text) with inout as assignment;
create cast (npm_range as varchar) with inout as assignment;

-- the order of the texts, for `group by` and `distinct`
create function npm_range_lt(npm_range, npm_range) returns boolean as 'MODULE_PATHNAME' language c immutable strict parallel safe;
create function npm_range_le(npm_range, npm_range) returns boolean as 'MODULE_PATHNAME' language c immutable strict parallel safe;
create function npm_range_eq(npm_range, npm_range) returns boolean as 'MODULE_PATHNAME' language c immutable strict parallel safe;
create function npm_range_ne(npm_range, npm_range) returns boolean as 'MODULE_PATHNAME' language c immutable strict parallel safe;
create function npm_range_ge(npm_range, npm_range) returns boolean as 'MODULE_PATHNAME' language c immutable strict parallel safe;
create function npm_range_gt(npm_range, npm_range) returns boolean as 'MODULE_PATHNAME' language c immutable strict parallel safe;
create function npm_range_cmp(npm_range, npm_range) returns integer as 'MODULE_PATHNAME' language c immutable strict parallel safe;
create function npm_range_hash(npm_range) returns integer as 'MODULE_PATHNAME' language c immutable strict parallel safe;
create function npm_range_hash_extended(npm_range, bigint) returns bigint
    as 'MODULE_PATHNAME' language c immutable strict parallel safe;
create operator < (leftarg = npm_range, rightarg = npm_range, function = npm_range_lt, commutator = >, negator = >=,
    restrict = scalarltsel, join = scalarltjoinsel);
create operator <= (leftarg = npm_range, rightarg = npm_range, function = npm_range_le, commutator = >=, negator = >,
    restrict = scalarlesel, join = scalarlejoinsel);
create operator = (leftarg = npm_range, rightarg = npm_range, function = npm_range_eq, commutator = =, negator = <>,
    restrict = eqsel, join = eqjoinsel, hashes, merges);
create operator <> (leftarg = npm_range, rightarg = npm_range, function = npm_range_ne, commutator = <>, negator = =,
    restrict = neqsel, join = neqjoinsel);
create operator >= (leftarg = npm_range, rightarg = npm_range, function = npm_range_ge, commutator = <=, negator = <,
    restrict = scalargesel, join = scalargejoinsel);
create operator > (leftarg = npm_range, rightarg = npm_range, function = npm_range_gt, commutator = <, negator = <=,
    restrict = scalargtsel, join = scalargtjoinsel);
create operator class npm_range_ops default for type npm_range using btree as
    operator 1 <, operator 2 <=, operator 3 =, operator 4 >=, operator 5 >, function 1 npm_range_cmp(npm_range, npm_range);
create operator class npm_range_ops default for type npm_range using hash as
    operator 1 =, function 1 npm_range_hash(npm_range), function 2 npm_range_hash_extended(npm_range, bigint);

-- ---- which versions satisfy a range ----

create function npm_range_lower_key(npm_range) returns bytea
    as 'MODULE_PATHNAME' language c immutable strict parallel safe;
comment on function npm_range_lower_key(npm_range) is 'where the first interval of keys of the range begins';
create function npm_range_upper_key(npm_range) returns bytea
    as 'MODULE_PATHNAME' language c immutable strict parallel safe;
comment on function npm_range_upper_key(npm_range) is 'where the last interval of keys of the range ends';
create function npm_version_support(internal) returns internal
    as 'MODULE_PATHNAME' language c immutable strict parallel safe;

create function npm_version_in_range(npm_version, npm_range) returns boolean
    as 'MODULE_PATHNAME' language c immutable strict parallel safe support npm_version_support;
create function npm_range_has_version(npm_range, npm_version) returns boolean
    as 'MODULE_PATHNAME' language c immutable strict parallel safe support npm_version_support;
create operator <@ (leftarg = npm_version, rightarg = npm_range, function = npm_version_in_range, commutator = @>,
    restrict = matchingsel, join = matchingjoinsel);
comment on operator <@ (npm_version, npm_range) is 'the version satisfies the range';
create operator @> (leftarg = npm_range, rightarg = npm_version, function = npm_range_has_version, commutator = <@,
    restrict = matchingsel, join = matchingjoinsel);
comment on operator @> (npm_range, npm_version) is 'the version satisfies the range';

create function semver_satisfies(range npm_range, version npm_version) returns boolean
    as 'MODULE_PATHNAME', 'npm_range_has_version' language c immutable strict parallel safe support npm_version_support;
comment on function semver_satisfies(npm_range, npm_version) is 'whether the version satisfies the range, as npm''s satisfies does';

create function npm_version_larger_satisfying(npm_version, npm_version, npm_range) returns npm_version
    as 'MODULE_PATHNAME' language c immutable parallel safe;
create function npm_version_smaller_satisfying(npm_version, npm_version, npm_range) returns npm_version
    as 'MODULE_PATHNAME' language c immutable parallel safe;
create aggregate max_satisfying(version npm_version, range npm_range) (sfunc = npm_version_larger_satisfying,
    stype = npm_version, combinefunc = npm_version_larger, parallel = safe);
create aggregate min_satisfying(version npm_version, range npm_range) (sfunc = npm_version_smaller_satisfying,
    stype = npm_version, combinefunc = npm_version_smaller, parallel = safe);

-- ---- two ranges ----

create function npm_range_overlaps(npm_range, npm_range) returns boolean
    as 'MODULE_PATHNAME' language c immutable strict parallel safe cost 20;
create function npm_range_covers(npm_range, npm_range) returns boolean
    as 'MODULE_PATHNAME' language c immutable strict parallel safe cost 50;
create function npm_range_is_covered(npm_range, npm_range) returns boolean
    as 'MODULE_PATHNAME' language c immutable strict parallel safe cost 50;
create operator && (leftarg = npm_range, rightarg = npm_range, function = npm_range_overlaps, commutator = &&,
    restrict = matchingsel, join = matchingjoinsel);
comment on operator && (npm_range, npm_range) is 'the ranges overlap, whatever prereleases each lets in';
create operator @> (leftarg = npm_range, rightarg = npm_range, function = npm_range_covers, commutator = <@,
    restrict = matchingsel, join = matchingjoinsel);
comment on operator @> (npm_range, npm_range) is 'each version that satisfies the second range satisfies the first';
create operator <@ (leftarg = npm_range, rightarg = npm_range, function = npm_range_is_covered, commutator = @>,
    restrict = matchingsel, join = matchingjoinsel);
comment on operator <@ (npm_range, npm_range) is 'each version that satisfies the first range satisfies the second';

-- ---- texts: semver_satisfies by an index over semver_key ----

create function semver_lower_key(range text) returns bytea
    as 'MODULE_PATHNAME', 'denimscree_lower_key' language c immutable strict parallel safe cost 20;
create function semver_upper_key(range text) returns bytea
    as 'MODULE_PATHNAME', 'denimscree_upper_key' language c immutable strict parallel safe cost 20;
create function semver_satisfies_row(range text, version text) returns boolean
    as 'MODULE_PATHNAME', 'denimscree_satisfies' language c immutable strict parallel safe cost 10;
comment on function semver_satisfies_row(text, text) is 'what semver_satisfies is for a row that an index has found';
create function semver_satisfies_support(internal) returns internal
    as 'MODULE_PATHNAME', 'denimscree_satisfies_support' language c immutable strict parallel safe;
alter function semver_satisfies(text, text) cost 10 support semver_satisfies_support;
alter function semver_key(text) cost 10;
alter function semver_is_prerelease(text) cost 10;
