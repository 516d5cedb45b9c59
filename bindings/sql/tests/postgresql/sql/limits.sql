-- A range has at most 65536 bytes, unless the setting says more.
\set VERBOSITY terse
select semver_satisfies(repeat(' ', 65534) || '^1', '1.2.3'), count(*) from semver_intervals(repeat(' ', 65534) || '^1');
show semver.max_range_bytes;
select semver_satisfies(repeat(' ', 65535) || '^1', '1.2.3');
select semver_intervals(repeat(' ', 65535) || '^1');
select (repeat(' ', 65535) || '^1')::npm_range;
do $$ begin
    perform semver_satisfies(repeat('^1||', 1000000), '1.2.3');
exception when program_limit_exceeded then
    raise notice '%', sqlerrm;
end $$;
set semver.max_range_bytes = '65537B';
select semver_satisfies(repeat(' ', 65535) || '^1', '1.2.3'), (repeat(' ', 65535) || '^1')::npm_range @> '1.2.3'::npm_version;
set semver.max_range_bytes = 2;
select semver_satisfies('^1', '1.2.3'), '^1'::npm_range @> '1.2.3'::npm_version;
select semver_satisfies('^12', '1.2.3');
-- a range that is kept from a call before is tested too
create function pg_temp.asks(most text, range text) returns boolean language plpgsql as $$ begin
    perform set_config('semver.max_range_bytes', most, false);
    return semver_satisfies(range, '1.2.3');
exception when program_limit_exceeded then
    return null;
end $$;
select pg_temp.asks(most, '^1.0') from (values ('100'), ('3'), ('100')) as v (most);
set semver.max_range_bytes = -1;
set semver.unknown = 1;
reset semver.max_range_bytes;
-- the cover of two ranges of many sets
select repeat('1||', 1499)::npm_range @>> repeat('1||', 1499)::npm_range;
select repeat('1||', 1500)::npm_range @>> repeat('1||', 1499)::npm_range;
select repeat('1||', 1500)::npm_range && repeat('1||', 1499)::npm_range;
-- the setting is known once the extension is loaded: by a call, by LOAD, or as the session begins where the database says so
\set home :DBNAME
\c :home
show semver.max_range_bytes;
load 'denimscree';
show semver.max_range_bytes;
create table of_views (version npm_version primary key);
insert into of_views select ('1.' || n || '.0')::npm_version from generate_series(0, 9999) n;
vacuum analyze of_views;
create view of_any as select version from of_views where version <@ any ('{1.3,1.7000}'::npm_range[]);
alter database :home set session_preload_libraries = 'denimscree';
\c :home
show semver.max_range_bytes;
-- then the first plan of a view uses the index too, whose array no input reads
explain (costs off) select * from of_any;
select * from of_any order by version;
set semver.max_range_bytes = '1MB';
show semver.max_range_bytes;
set semver.unknown = 1;
alter database :home reset session_preload_libraries;
-- a setting that stands before the extension is loaded counts
\c :home
set semver.max_range_bytes = '3B';
show semver.max_range_bytes;
select semver_satisfies('^1.0', '1.2.3');
alter database :home set semver.max_range_bytes = '2MB';
\c :home
show semver.max_range_bytes;
select semver_satisfies(repeat(' ', 65535) || '^1', '1.2.3');
alter database :home reset semver.max_range_bytes;
