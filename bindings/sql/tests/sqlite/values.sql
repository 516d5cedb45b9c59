-- SPDX-License-Identifier: Apache-2.0
-- Each range of the tests by the index and by a function a row: there is no difference, and no row is found twice.
.read values.sql
create table keyed (
    version text,
    key blob generated always as (semver_key(version)) stored,
    is_prerelease integer generated always as (semver_is_prerelease(version)) stored
);
insert into keyed (version) select version from versions;
create index keyed_keys on keyed (is_prerelease, key);

create table by_function as select r.range, k.version from ranges r cross join keyed k where semver_satisfies(r.range, k.version);
create table by_index as select r.range, k.version from ranges r cross join semver_intervals(r.range) i
    cross join keyed k on k.is_prerelease = i.prereleases and k.key >= i.lower and k.key < i.upper;

select count(*) from keyed;
select count(*) > 10000 from by_function;
select (select count(*) from by_function) = (select count(*) from by_index);
select * from by_function except select * from by_index;
select * from by_index except select * from by_function;
