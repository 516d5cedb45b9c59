-- SPDX-License-Identifier: Apache-2.0
\echo Use "create extension denimscree" or "alter extension denimscree update" to load this file. \quit

-- ---- texts are read as versions and as ranges where one is asked for ----

drop cast (text as npm_version);
drop cast (varchar as npm_version);
drop cast (text as npm_range);
drop cast (varchar as npm_range);
create cast (text as npm_version) with inout as implicit;
create cast (varchar as npm_version) with inout as implicit;
create cast (text as npm_range) with inout as implicit;
create cast (varchar as npm_range) with inout as implicit;

-- ---- two ranges ----

-- A literal beside a range is a version, so the operators of two ranges get names of their own. They stay the same operators: what
-- uses them, such as a view, goes on.
update pg_catalog.pg_operator set oprname = '@>>' where oid = '@> (npm_range, npm_range)'::pg_catalog.regoperator;
update pg_catalog.pg_operator set oprname = '<<@' where oid = '<@ (npm_range, npm_range)'::pg_catalog.regoperator;

-- ---- versions beside bytes ----

-- A family of operators has all its types on both sides. An index over versions serves bytes as an end of an interval.
create function npm_version_end(bytea) returns npm_version
    as 'MODULE_PATHNAME' language c immutable strict parallel safe;
comment on function npm_version_end(bytea) is 'an end of an interval of keys, beside which versions are ordered; it is no version';
create function npm_version_bytes_support(internal) returns internal
    as 'MODULE_PATHNAME' language c immutable strict parallel safe;
alter operator family npm_version_ops using btree drop
    operator 1 (npm_version, bytea), operator 2 (npm_version, bytea), operator 3 (npm_version, bytea),
    operator 4 (npm_version, bytea), operator 5 (npm_version, bytea), function 1 (npm_version, bytea);
alter function npm_version_lt_bytes(npm_version, bytea) support npm_version_bytes_support;
alter function npm_version_le_bytes(npm_version, bytea) support npm_version_bytes_support;
alter function npm_version_eq_bytes(npm_version, bytea) support npm_version_bytes_support;
alter function npm_version_ge_bytes(npm_version, bytea) support npm_version_bytes_support;
alter function npm_version_gt_bytes(npm_version, bytea) support npm_version_bytes_support;

-- ---- which versions satisfy a range ----

create function npm_range_lower_end(npm_range) returns npm_version
    as 'MODULE_PATHNAME' language c immutable strict parallel safe;
comment on function npm_range_lower_end(npm_range) is 'where the first interval of keys of the range begins';
create function npm_range_upper_end(npm_range) returns npm_version
    as 'MODULE_PATHNAME' language c immutable strict parallel safe;
comment on function npm_range_upper_end(npm_range) is 'where the last interval of keys of the range ends';
create function npm_range_lower_end(npm_range[]) returns npm_version
    as 'MODULE_PATHNAME', 'npm_range_lower_end_of_any' language c immutable strict parallel safe;
comment on function npm_range_lower_end(npm_range[]) is 'where the first interval of keys of the ranges begins';
create function npm_range_upper_end(npm_range[]) returns npm_version
    as 'MODULE_PATHNAME', 'npm_range_upper_end_of_any' language c immutable strict parallel safe;
comment on function npm_range_upper_end(npm_range[]) is 'where the last interval of keys of the ranges ends';

create function npm_version_sel(internal, oid, internal, integer) returns double precision
    as 'MODULE_PATHNAME' language c stable strict parallel safe;
alter operator <@ (npm_version, npm_range) set (restrict = npm_version_sel);
alter operator @> (npm_range, npm_version) set (restrict = npm_version_sel);

-- what the planner put in the place of a call, which it now leaves as it is
drop function semver_satisfies_row(text, text);

-- ---- which ranges hold a version ----

create function npm_range_gist_compress(internal) returns internal
    as 'MODULE_PATHNAME' language c immutable strict parallel safe;
create function npm_range_gist_consistent(internal, npm_range, smallint, oid, internal) returns boolean
    as 'MODULE_PATHNAME' language c immutable strict parallel safe;
create function npm_range_gist_union(internal, internal) returns bytea
    as 'MODULE_PATHNAME' language c immutable strict parallel safe;
create function npm_range_gist_penalty(internal, internal, internal) returns internal
    as 'MODULE_PATHNAME' language c immutable strict parallel safe;
create function npm_range_gist_picksplit(internal, internal) returns internal
    as 'MODULE_PATHNAME' language c immutable strict parallel safe;
create function npm_range_gist_same(bytea, bytea, internal) returns internal
    as 'MODULE_PATHNAME' language c immutable strict parallel safe;
create function npm_range_gist_sortsupport(internal) returns void
    as 'MODULE_PATHNAME' language c immutable strict parallel safe;
create operator class npm_range_ops default for type npm_range using gist as
    operator 1 @> (npm_range, npm_version),
    function 1 npm_range_gist_consistent(internal, npm_range, smallint, oid, internal),
    function 2 npm_range_gist_union(internal, internal),
    function 3 npm_range_gist_compress(internal),
    function 5 npm_range_gist_penalty(internal, internal, internal),
    function 6 npm_range_gist_picksplit(internal, internal),
    function 7 npm_range_gist_same(bytea, bytea, internal),
    function 11 npm_range_gist_sortsupport(internal),
    storage bytea;

-- ---- versions in parts ----

create function semver_is_valid(version text) returns boolean
    as 'MODULE_PATHNAME', 'denimscree_is_valid' language c immutable strict parallel safe cost 10;
comment on function semver_is_valid(text) is 'whether the text is a version';
create function semver_major(version text) returns bigint
    as 'MODULE_PATHNAME', 'denimscree_major' language c immutable strict parallel safe cost 10;
comment on function semver_major(text) is 'the first number of a version';
create function semver_minor(version text) returns bigint
    as 'MODULE_PATHNAME', 'denimscree_minor' language c immutable strict parallel safe cost 10;
comment on function semver_minor(text) is 'the second number of a version';
create function semver_patch(version text) returns bigint
    as 'MODULE_PATHNAME', 'denimscree_patch' language c immutable strict parallel safe cost 10;
comment on function semver_patch(text) is 'the third number of a version';
create function semver_prerelease(version text) returns text
    as 'MODULE_PATHNAME', 'denimscree_prerelease' language c immutable strict parallel safe cost 10;
comment on function semver_prerelease(text) is 'the prerelease of a version, without its hyphen; NULL for a release';
create function semver_major(version npm_version) returns bigint
    as 'MODULE_PATHNAME', 'npm_version_major' language c immutable strict parallel safe;
comment on function semver_major(npm_version) is 'the first number of a version';
create function semver_minor(version npm_version) returns bigint
    as 'MODULE_PATHNAME', 'npm_version_minor' language c immutable strict parallel safe;
comment on function semver_minor(npm_version) is 'the second number of a version';
create function semver_patch(version npm_version) returns bigint
    as 'MODULE_PATHNAME', 'npm_version_patch' language c immutable strict parallel safe;
comment on function semver_patch(npm_version) is 'the third number of a version';
create function semver_prerelease(version npm_version) returns text
    as 'MODULE_PATHNAME', 'npm_version_prerelease' language c immutable strict parallel safe;
comment on function semver_prerelease(npm_version) is 'the prerelease of a version, without its hyphen; NULL for a release';
create function semver_coerce(written text) returns npm_version
    as 'MODULE_PATHNAME', 'denimscree_coerce' language c immutable strict parallel safe cost 10;
comment on function semver_coerce(text) is 'the version that npm''s coerce finds in a text; NULL if there is none';
