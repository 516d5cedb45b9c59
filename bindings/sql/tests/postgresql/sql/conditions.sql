-- An index changes no result: conditions are put into WHERE and ON alone, and the call itself stays as it is.
create table few (version text);
insert into few values ('1.0.0'), ('1.1.0'), ('2.0.0');
create view grouped as select semver_satisfies('^1', version) as s, count(*) from few where semver_satisfies('*', version)
    group by rollup (semver_satisfies('^1', version)) having semver_satisfies('^1', version) is not null;
select * from grouped order by s;
create index few_keys on few (semver_key(version));
set enable_seqscan = off;
explain (costs off) select * from grouped;
select * from grouped order by s;
select semver_satisfies('^1', version), count(*) from few where semver_satisfies('^1', version) group by semver_satisfies('^1', version);
explain (costs off) select semver_satisfies('^1', version), count(*) from few where semver_satisfies('^1', version)
    group by semver_satisfies('^1', version);
select distinct semver_satisfies('^1', version) as s from few where semver_satisfies('^1', version) order by s;
-- one of HAVING that the server moves to WHERE is a condition
explain (costs off) select version from few group by version having semver_satisfies('^1', version);
select version from few group by version having semver_satisfies('^1', version) order by 1;
-- alternatives, each with what follows from it; and what is denied
explain (costs off) select version from few where semver_satisfies('1.0', version) or semver_satisfies('^2', version);
select version from few where semver_satisfies('1.0', version) or semver_satisfies('^2', version) order by 1;
select version from few where not semver_satisfies('1.0', version) and (semver_satisfies('^1', version) or version = '2.0.0') order by 1;
-- an outer join has each row of its left side
explain (costs off) select r.range, f.version from (values ('^1'), ('^3')) as r (range) left join few f on semver_satisfies(r.range, f.version);
select r.range, f.version from (values ('^1'), ('^3')) as r (range) left join few f on semver_satisfies(r.range, f.version) order by 1, 2;
select f.version, g.version from few f left join few g on f.version = g.version and semver_satisfies('^1', g.version) order by 1;
-- changes of rows
update few set version = '1.0.1' where semver_satisfies('1.0.0', version);
delete from few where semver_satisfies('>=2', version) returning version;
insert into few values ('2.0.0'), (null);
select count(*) from few;
-- the greatest key
explain (costs off) select version from few where semver_satisfies('^1', version) order by semver_key(version) desc limit 1;
select version from few where semver_satisfies('^1', version) order by semver_key(version) desc limit 1;
-- an index with the call as its condition, beside one over keys
create table chosen (version text, id int);
insert into chosen select n / 900 || '.' || n / 30 % 30 || '.' || n % 30, n from generate_series(0, 19999) n;
create index chosen_ones on chosen (id) where semver_satisfies('^1', version);
analyze chosen;
explain (costs off) select id from chosen where semver_satisfies('^1', version) and id = 1000;
create index chosen_keys on chosen (semver_key(version));
analyze chosen;
explain (costs off) select id from chosen where semver_satisfies('^1', version) and id = 1000;
select id from chosen where semver_satisfies('^1', version) and id = 1000;
explain (costs off) select count(*) from chosen where semver_satisfies('~7.3', version);
select count(*) from chosen where semver_satisfies('~7.3', version);
-- the same over the type
create table chosen_typed as select version::npm_version as version, id from chosen;
create index chosen_typed_ones on chosen_typed (id) where version <@ '1 || 7';
create index chosen_typed_versions on chosen_typed (version);
analyze chosen_typed;
explain (costs off) select id from chosen_typed where version <@ '1 || 7' and id = 1000;
select id from chosen_typed where version <@ '1 || 7' and id = 1000;
-- an index over keys that has only some rows
create table partly (version text, is_good boolean);
insert into partly select version, true from chosen union all select 'latest', false;
create index partly_keys on partly (semver_key(version)) where is_good;
analyze partly;
explain (costs off) select count(*) from partly where is_good and semver_satisfies('~7.3', version);
select count(*) from partly where is_good and semver_satisfies('~7.3', version);
explain (costs off) select count(*) from partly where semver_satisfies('~7.3', version);
-- an index over keys of what is computed
create index chosen_found on chosen (semver_coerce('v' || version || '.5'));
analyze chosen;
explain (costs off) select count(*) from chosen where semver_coerce('v' || version || '.5') <@ '~7.3';
select count(*) from chosen where semver_coerce('v' || version || '.5') <@ '~7.3';
-- each column of a table by itself
create table twice (id int, one text, other text);
insert into twice select id, version, reverse(version) from chosen where version !~ '[.0-9]0' limit 2000;
create index twice_ones on twice (semver_key(one));
create index twice_others on twice (semver_key(other));
analyze twice;
select count(*) from twice a join twice b using (id) where semver_satisfies('1.1', a.one) and semver_satisfies('>=1', b.other);
set enable_indexscan = off;
set enable_bitmapscan = off;
set enable_seqscan = on;
select count(*) from twice a join twice b using (id) where semver_satisfies('1.1', a.one) and semver_satisfies('>=1', b.other);
reset all;
-- a reader of views, who may not use the schema of the extension
\set home :DBNAME
create database denimscree_views;
\c denimscree_views
-- one who is no superuser makes the extension
create role denimscree_maker;
grant create on database denimscree_views to denimscree_maker;
set role denimscree_maker;
create schema extensions;
create extension denimscree schema extensions;
reset role;
set search_path = public, extensions;
create table of_type (version npm_version primary key);
insert into of_type values ('1.2.3'), ('2.0.0');
create table of_text (version text);
insert into of_text values ('1.2.3'), ('2.0.0');
create index of_text_keys on of_text (semver_key(version));
create table of_range (range npm_range);
insert into of_range values ('^1'), ('^2');
create index of_range_index on of_range using gist (range);
create view seen_type as select version from of_type where version <@ '^1 || ^3';
create view seen_any as select version from of_type where version <@ any ('{^1,^3}'::npm_range[]);
create view seen_text as select version from of_text where semver_satisfies('^1', version);
create view seen_range as select range from of_range where range @> '1.2.3'::npm_version;
create view seen_call as select range from of_range where semver_satisfies(range, '1.2.3'::npm_version);
create role denimscree_reader;
grant usage on schema public to denimscree_reader;
grant select on seen_type, seen_any, seen_text, seen_range, seen_call, of_text to denimscree_reader;
set enable_seqscan = off;
set role denimscree_reader;
select * from seen_type;
select * from seen_any;
select * from seen_text;
explain (costs off) select * from seen_text;
select * from seen_range;
select * from seen_call;
explain (costs off) select * from seen_call;
reset role;
-- and one who may not call all functions has the result, without an index
grant usage on schema extensions to denimscree_reader;
revoke execute on function extensions.semver_key(text) from public;
set role denimscree_reader;
explain (costs off) select * from of_text where semver_satisfies('^1', version);
select * from of_text where semver_satisfies('^1', version);
reset role;
reset search_path;
-- a function of another name is never found, nor one that another put beside the extension
create schema decoy;
create function decoy.semver_key(text) returns bytea language sql immutable as $$ select ''::bytea $$;
set search_path = decoy, extensions, public;
explain (costs off) select * from of_text where semver_satisfies('^1', version);
-- settings of a function do not change what its arguments are
grant execute on function extensions.semver_key(text) to public;
alter function extensions.npm_version_in_range(extensions.npm_version, extensions.npm_range) set work_mem = '1MB';
alter function extensions.npm_version_ge_bytes(extensions.npm_version, bytea) set work_mem = '1MB';
set enable_seqscan = off;
select * from of_type where version <@ '^1 || ^3';
select * from of_type where version <@ any ('{^1,^3}');
select * from of_type where version >= '\x02'::bytea;
explain (costs off) select * from of_type where version <@ '^1';
\c :home
drop database denimscree_views;
drop role denimscree_reader, denimscree_maker;
