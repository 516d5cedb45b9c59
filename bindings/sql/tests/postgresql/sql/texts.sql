-- semver_satisfies over a column of texts, by an index over semver_key(version).
create table listed (package text, version text);
insert into listed select package, version::text from published;
analyze listed;
-- without an index the call stays as it is
explain (costs off) select count(*) from listed where package = 'package-3' and semver_satisfies('^42', version);
create index listed_keys on listed (package, semver_key(version));
analyze listed;
set enable_bitmapscan = off;
explain (costs off) select count(*) from listed where package = 'package-3' and semver_satisfies('^42', version);
explain (costs off) select version from listed where package = 'package-3' and semver_satisfies('^42 || 43', version)
    order by semver_key(version) desc limit 1;
select version from listed where package = 'package-3' and semver_satisfies('^42 || 43', version) order by semver_key(version) desc limit 1;
reset enable_bitmapscan;
-- of a constant range each interval is looked up
explain (costs off) select count(*) from listed where package = 'package-3' and semver_satisfies('<0.0.5 || >=99', version);
select count(*) from listed where package = 'package-3' and semver_satisfies('<0.0.5 || >=99', version);
select count(*) from published where package = 'package-3' and version <@ '<0.0.5 || >=99';
select * from looked_up($$select from listed where package = 'package-3'
    and semver_satisfies('1.1 || 2.2 || 3.3 || 4.4 || 5.5 || 6.6 || 7.7 || 8.8 || 9.9', version)$$);
explain (costs off) select count(*) from listed where package = 'package-3' and semver_satisfies('>2 <1', version);
-- a parameter, and a column of another table
set plan_cache_mode = force_generic_plan;
set enable_bitmapscan = off;
prepare of_text (text) as select count(*) from listed where package = 'package-3' and semver_satisfies($1, version);
explain (costs off) execute of_text('^42');
execute of_text('^42');
execute of_text('~42.7 || ~43.1');
execute of_text(null);
reset plan_cache_mode;
set enable_hashjoin = off;
set enable_mergejoin = off;
explain (costs off) select w.package, count(*) from wanted w join listed l on l.package = w.package and semver_satisfies(w.range::text, l.version)
    group by w.package order by w.package;
select w.package, count(*) from wanted w join listed l on l.package = w.package and semver_satisfies(w.range::text, l.version)
    group by w.package order by w.package;
reset enable_hashjoin;
reset enable_mergejoin;
reset enable_bitmapscan;
-- where it cannot help, the call stays: in a select list, without the package, with a range of the same row, with one that changes
explain (verbose, costs off) select semver_satisfies('^42', version) from listed;
explain (costs off) select count(*) from listed where semver_satisfies('^42', version);
explain (costs off) select count(*) from listed where package > 'package-3' and semver_satisfies('^42', version);
explain (costs off) select count(*) from listed where package = 'package-3' and semver_satisfies('^' || package, version);
explain (costs off) select count(*) from listed where package = 'package-3' and semver_satisfies('^' || random(), version);
-- a range that is a query is known once the scan begins
select scans, found from looked_up($$select from listed where package = 'package-3' and semver_satisfies((select '^42'), version)$$);
select count(*) from listed where package = 'package-3' and semver_satisfies((select '^42'), version);
-- one of several packages
select scans, found from looked_up($$select from listed where package = any ('{package-3,package-5}') and semver_satisfies('~42.7', version)$$);
select count(*) from listed where package = any ('{package-3,package-5}') and semver_satisfies('~42.7', version);
-- a text that is no range is an error only once a row is tested
explain (costs off) select count(*) from listed where package = 'none' and semver_satisfies('^1 foo', version);
select count(*) from listed where package = 'none' and semver_satisfies('^1 foo', version);
select count(*) from listed where package = 'package-3' and semver_satisfies('^1 foo', version);
-- also of a range of another table, or of a parameter
set plan_cache_mode = force_generic_plan;
execute of_text('^1 foo');
prepare of_none (text) as select count(*) from listed where package = 'none' and semver_satisfies($1, version);
execute of_none('^1 foo');
reset plan_cache_mode;
select count(*) from (values ('none', '^1 foo'), ('package-3', '^42')) as w (package, range) join listed l
    on l.package = w.package and semver_satisfies(w.range, l.version);
-- a version that is NULL is neither in a range nor not in it
insert into listed values ('package-3', null);
select count(*) filter (where version is null) as nulls from listed where package = 'package-3' and not semver_satisfies('>2 <1', version);
select count(*) filter (where version is null) as nulls from listed where package = 'package-3' and not semver_satisfies('^1 || ^3', version);
-- each range of the tests finds the same rows
create table indexed (version text);
insert into indexed select version from versions;
create index indexed_keys on indexed (semver_key(version));
analyze indexed;
do $$
declare
    asked text;
    found bigint;
    wanted bigint;
    with_index int := 0;
    plan json;
begin
    for asked in select range from ranges loop
        execute format('select count(*) from indexed where semver_satisfies(%L, version)', asked) into found;
        select count(*) into wanted from by_function b where b.range = asked;
        if found <> wanted then
            raise notice '% finds % and not %', asked, found, wanted;
        end if;
        execute format('explain (format json) select from indexed where semver_satisfies(%L, version)', asked) into plan;
        with_index := with_index + (plan::text like '%indexed_keys%')::int;
    end loop;
    if with_index < 20 then
        raise notice 'only % ranges by the index', with_index;
    end if;
end $$;
-- partitions
create table spread (package text, version text) partition by hash (package);
create table spread_0 partition of spread for values with (modulus 2, remainder 0);
create table spread_1 partition of spread for values with (modulus 2, remainder 1);
create index spread_keys on spread (package, semver_key(version));
insert into spread select package, version::text from published;
analyze spread;
set enable_bitmapscan = off;
explain (costs off) select count(*) from spread where package = 'package-3' and semver_satisfies('^42', version);
select count(*) from spread where package = 'package-3' and semver_satisfies('^42', version);
