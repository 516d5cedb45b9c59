-- `version <@ range` by an index over the version: the plan reads no other rows.
create table published (package text, version npm_version);
insert into published select 'package-' || n % 10, (n / 1000 || '.' || n / 30 % 30 || '.' || n % 30
    || case when n % 5 = 0 then '-rc.' || n % 7 else '' end)::npm_version from generate_series(1, 100000) n;
create index published_versions on published (package, version);
vacuum analyze published;
-- in the order of the index, which takes no alternatives
set enable_bitmapscan = off;
explain (costs off) select * from published where package = 'package-3' and version <@ '^1.2.3-rc.4 || >=99' order by version desc limit 3;
select version from published where package = 'package-3' and version <@ '^1.2.3-rc.4 || >=99' order by version desc limit 3;
reset enable_bitmapscan;
explain (costs off) select max(version) from published where package = 'package-3';
-- the name that the call over texts has
explain (costs off) select * from published where package = 'package-3' and semver_satisfies('~42.7', version) order by version;
select * from published where package = 'package-3' and semver_satisfies('~42.7', version) order by version;
select semver_satisfies('^1', '1.2.3'), semver_satisfies('^1'::npm_range, '1.2.3'), semver_satisfies('^1', '1.2.3'::npm_version);
-- how few rows that is
create function pg_temp.rows_read(query text) returns bigint language plpgsql as $$
declare
    plan json;
begin
    execute 'explain (analyze, timing off, summary off, format json) ' || query into plan;
    return coalesce((plan #>> '{0,Plan,Actual Rows}')::bigint, 0) + coalesce((plan #>> '{0,Plan,Rows Removed by Filter}')::bigint, 0);
end $$;
set enable_bitmapscan = off;
select pg_temp.rows_read($$select from published where package = 'package-3' and version <@ '~42.7'$$) < 100 as few,
    pg_temp.rows_read($$select from published where package = 'package-3' and version <@ '^42'$$) between 50 and 200 as some;
-- a parameter, and a range of another table
set plan_cache_mode = force_generic_plan;
prepare of_range (npm_range) as select count(*) from published where package = 'package-3' and version <@ $1;
explain (costs off) execute of_range('^42');
execute of_range('^42');
execute of_range('>=42.0.0-0 <43.0.0-0');
execute of_range('>2 <1');
reset plan_cache_mode;
create table wanted (package text, range npm_range);
insert into wanted values ('package-1', '^1'), ('package-2', '~2.3'), ('package-3', '<0.0.5 || >=99.28');
analyze wanted;
set enable_hashjoin = off;
set enable_mergejoin = off;
explain (costs off) select w.package, count(*), max(p.version) from wanted w join published p on p.package = w.package and w.range @> p.version
    group by w.package order by w.package;
select w.package, count(*), max(p.version) from wanted w join published p on p.package = w.package and w.range @> p.version
    group by w.package order by w.package;
reset enable_hashjoin;
reset enable_mergejoin;
reset enable_bitmapscan;
select w.package, max_satisfying(p.version, w.range) from wanted w join published p using (package) group by w.package order by w.package;
-- the rows that are expected are near those that there are
create function pg_temp.rows_expected(query text) returns bigint language plpgsql as $$
declare
    plan json;
begin
    execute 'explain (format json) ' || query into plan;
    return (plan #>> '{0,Plan,Plan Rows}')::bigint;
end $$;
select range, pg_temp.rows_expected(format('select from published where version <@ %L', range)) between wanted / 2 and wanted * 2 as is_near
    from (values ('>=40 <60', 16000), ('>=50', 40000), ('<0.0.5 || >=90', 8000)) as r (range, wanted);
-- the same of the call as of the operator, also in a join
select range, pg_temp.rows_expected(format('select from published where version <@ %L', range))
        = pg_temp.rows_expected(format('select from published where semver_satisfies(%L::npm_range, version)', range)) as is_same
    from (values ('>=40 <60'), ('>=50'), ('<0.0.5 || >=90'), ('~42.7')) as r (range);
select pg_temp.rows_expected('select from published p join wanted w on w.range @> p.version')
    = pg_temp.rows_expected('select from published p join wanted w on semver_satisfies(w.range, p.version)') as is_same;
-- each interval of a constant range is looked up
create table spaced (version npm_version primary key);
insert into spaced select (n / 900 || '.' || n / 30 % 30 || '.' || n % 30)::npm_version from generate_series(0, 199999) n;
vacuum analyze spaced;
create function looked_up(query text) returns table (scans bigint, read bigint, found bigint) language plpgsql as $$
declare
    plan json;
begin
    execute 'explain (analyze, timing off, summary off, format json) ' || query into plan;
    return query with recursive nodes as (select plan #> '{0,Plan}' as node
        union all select json_array_elements(n.node -> 'Plans') from nodes n)
        select count(*) filter (where node ->> 'Node Type' like '%Index%Scan'),
            sum((node ->> 'Actual Rows')::bigint) filter (where node ->> 'Node Type' like '%Index%Scan')::bigint
                + coalesce(sum((node ->> 'Rows Removed by Filter')::bigint), 0)::bigint,
            (plan #>> '{0,Plan,Actual Rows}')::bigint from nodes;
end $$;
select * from looked_up($$select from spaced where version <@ '~1.2.3 || ~38.5.2'$$);
select * from looked_up($$select from spaced where '~1.2.3 || ~38.5.2' @> version$$);
select * from looked_up($$select from spaced where semver_satisfies('~1.2.3 || ~38.5.2', version)$$);
select count(*) from spaced where version <@ '~1.2.3 || ~38.5.2';
-- a parameter too, as long as the plan is made for its value
prepare of_two (npm_range) as select from spaced where version <@ $1;
select * from looked_up($$execute of_two('~1.2.3 || ~38.5.2')$$);
-- of many intervals those with the narrowest gaps are looked up together
select scans, read < 3 * found as is_near, found from looked_up((select format('select from spaced where version <@ %L',
    string_agg(format('~%s.%s.1', n * 7, n % 30), ' || ') || ' || ' || string_agg(format('%s.%s.5', n * 7, n % 30 + 1), ' || ')) from generate_series(1, 27) n));
select count(*) from spaced where version <@ (select (string_agg(format('~%s.%s.1', n * 7, n % 30), ' || ') || ' || '
    || string_agg(format('%s.%s.5', n * 7, n % 30 + 1), ' || '))::npm_range from generate_series(1, 27) n);
-- one of several ranges
select * from looked_up($$select from spaced where version <@ any ('{~1.2.3,~38.5.2,NULL}'::npm_range[])$$);
select * from looked_up($$select from spaced where version <@ any (array['~1.2.3 || ~77.1.4', '~38.5.2']::npm_range[])$$);
select count(*) from spaced where version <@ any ('{~1.2.3,~38.5.2,NULL}');
select count(*) from spaced where version <@ any ('{}'::npm_range[]);
select count(*) from spaced where version <@ any (null::npm_range[]);
select count(*) from spaced where version = any ('{1.2.3,38.5.2,1.2.3+b}');
set plan_cache_mode = force_generic_plan;
prepare of_any (npm_range[]) as select from spaced where version <@ any ($1);
select * from looked_up($$execute of_any('{~38.5.2,~38.5.7}')$$);
execute of_any('{}');
execute of_any(null);
reset plan_cache_mode;
-- what is expected of two intervals is near what there is, as of one
select pg_temp.rows_expected($$select from spaced where version <@ '>=20 <40 || >=60 <80'$$) between 18000 and 72000 as is_near;
-- the same rows as without an index, of each range of the tests
create table looked as select version from typed;
create index looked_versions on looked (version);
analyze looked;
do $$
declare
    asked text;
    found bigint;
    wanted bigint;
begin
    for asked in select range from ranges loop
        execute format('select count(*) from looked where version <@ %L', asked) into found;
        select count(*) into wanted from by_function b where b.range = asked;
        if found <> wanted then
            raise notice '% finds % and not %', asked, found, wanted;
        end if;
        execute format('select count(*) from looked where version <@ any (array[%L, ''^240.1'', ''~2.256.3'']::npm_range[])', asked) into found;
        execute format('select count(*) from looked where version <@ %L', asked || ' || ^240.1 || ~2.256.3') into wanted;
        if found <> wanted then
            raise notice 'any of % finds % and not %', asked, found, wanted;
        end if;
    end loop;
end $$;
