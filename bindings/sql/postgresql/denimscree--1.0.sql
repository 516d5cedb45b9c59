-- SPDX-License-Identifier: Apache-2.0
\echo Use "create extension denimscree" to load this file. \quit

create function semver_key(version text) returns bytea
    as 'MODULE_PATHNAME', 'denimscree_key' language c immutable strict parallel safe;
comment on function semver_key(text) is 'the key of a version: keys sort as versions do';

create function semver_is_prerelease(version text) returns boolean
    as 'MODULE_PATHNAME', 'denimscree_is_prerelease' language c immutable strict parallel safe;
comment on function semver_is_prerelease(text) is 'whether the version is a prerelease';

create function semver_satisfies(range text, version text) returns boolean
    as 'MODULE_PATHNAME', 'denimscree_satisfies' language c immutable strict parallel safe;
comment on function semver_satisfies(text, text) is 'whether the version satisfies the range, as npm''s satisfies does';

create function semver_intervals(range text, out lower bytea, out upper bytea, out prereleases boolean)
    returns setof record
    as 'MODULE_PATHNAME', 'denimscree_intervals' language c immutable strict parallel safe ROWS 2;
comment on function semver_intervals(text) is 'the intervals of keys of the versions that satisfy the range';
