-- Which ranges hold a version: an index over ranges.
create table advisories (id int, range npm_range);
insert into advisories select n, ('^' || n % 50 || '.' || n % 7 || '.0 || ~' || n % 9 || '.3.1')::npm_range from generate_series(1, 8000) n;
insert into advisories select n, ('<' || n % 40 || '.' || n % 19 || '.' || n % 23)::npm_range from generate_series(1, 2000) n;
insert into advisories select n, ('>=' || n % 30 || '.' || n % 17 || '.0-rc.' || n % 5 || ' <' || n % 30 || '.' || n % 17 + 1 || '.0')::npm_range
    from generate_series(1, 3000) n;
insert into advisories select -1, range from typed_ranges;
insert into advisories values (0, null);
-- with more intervals than an index keeps, and with ends that are longer
insert into advisories select n, (select string_agg(format('%s.%s.x', m * 3 + n % 3, n), ' || ') from generate_series(0, 40) m)::npm_range
    from generate_series(1, 200) n;
insert into advisories select n, format('>=1.2.3-%s <1.2.3-%s || >=3.2.5-rc.%s', repeat('a', n), repeat('b', n), n)::npm_range
    from generate_series(1, 100) n;
insert into advisories select n, format('>9007199254740991.9007199254740991.900719925474099%s', n)::npm_range from generate_series(0, 1) n;
insert into advisories select n, format('>=1.0.0-%s <1.0.0-%s', repeat('z', 40), repeat('z', 41))::npm_range from generate_series(1, 3) n;
create table told as select id, range from advisories;
create index advisories_ranges on advisories using gist (range);
vacuum analyze advisories;
set enable_seqscan = off;
set enable_indexscan = off;
explain (costs off) select * from advisories where range @> '3.2.5';
explain (costs off) select * from advisories where '3.2.5' <@ range;
explain (costs off) select * from advisories where semver_satisfies(range, '3.2.5'::npm_version);
reset enable_seqscan;
reset enable_indexscan;
-- each version finds the same rows as without an index
create table asked (version npm_version);
insert into asked select format('%s.%s.%s%s', n % 53, n % 20, n % 29, case when n % 3 = 0 then '-rc.' || n % 7 else '' end)::npm_version
    from generate_series(0, 249) n;
insert into asked select version from typed order by md5(version::text) limit 200;
insert into asked values ('3.2.5'), ('3.2.5-rc.7'), ('1.2.3-aaaaaaaaaaaaaaaaaaaaaaaaaaaaab'), ('1.2.3-b'), ('9007199254740991.9007199254740991.9007199254740991'),
    ('9007199254740991.9007199254740991.9007199254740990'), ('0.0.0'), ('0.0.0-0'),
    (('1.0.0-' || repeat('z', 40))::npm_version), (('1.0.0-' || repeat('z', 40) || 'a')::npm_version), ('1.2.3-rc.4'), ('40.2.0');
create table by_scan as select a.version, count(t.id) as found, coalesce(sum(t.id), 0) as sum
    from (select distinct version from asked) a left join told t on t.range @> a.version group by a.version;
set enable_seqscan = off;
set enable_bitmapscan = off;
create function pg_temp.differ() returns bigint language sql as $$
    select count(*) from by_scan s, lateral (select count(*) as found, coalesce(sum(id), 0) as sum from advisories where range @> s.version) i
        where (s.found, s.sum) <> (i.found, i.sum)
$$;
explain (costs off) select s.version, i.found from by_scan s, lateral (select count(*) as found from advisories where range @> s.version) i;
select count(*) > 400 as many, sum(found) > 100000 as hits, pg_temp.differ() from by_scan;
-- the same once rows came and went
delete from advisories where id % 2 = 0;
delete from told where id % 2 = 0;
insert into advisories select n * 2, ('~' || n % 50 || '.' || n % 20)::npm_range from generate_series(1, 3000) n;
insert into told select n * 2, ('~' || n % 50 || '.' || n % 20)::npm_range from generate_series(1, 3000) n;
update advisories set range = '^3.2.5-rc.1 || <0.0.1' where id % 97 = 0;
update told set range = '^3.2.5-rc.1 || <0.0.1' where id % 97 = 0;
vacuum advisories;
truncate by_scan;
insert into by_scan select a.version, count(t.id), coalesce(sum(t.id), 0) from (select distinct version from asked) a left join told t on t.range @> a.version
    group by a.version;
select pg_temp.differ();
-- an index that is filled row by row
create table filled (id int, range npm_range);
create index filled_ranges on filled using gist (range);
insert into filled select id, range from told;
alter table advisories rename to advisories_before;
alter table filled rename to advisories;
select pg_temp.differ();
reset enable_seqscan;
reset enable_bitmapscan;
-- few rows are read, and few pages
create function pg_temp.pages_read(query text) returns bigint language plpgsql as $$
declare
    plan json;
begin
    execute 'explain (analyze, buffers, timing off, summary off, format json) ' || query into plan;
    return (plan #>> '{0,Plan,Plans,0,Shared Hit Blocks}')::bigint + (plan #>> '{0,Plan,Plans,0,Shared Read Blocks}')::bigint;
end $$;
vacuum analyze advisories_before;
set enable_seqscan = off;
set enable_indexscan = off;
select pg_temp.pages_read($$select from advisories_before where range @> '3.2.5'$$) < pg_relation_size('advisories_ranges') / 8192 / 2 as few;
reset enable_seqscan;
reset enable_indexscan;
-- with another column, by the class of operators that the server's own extension has for texts
create extension btree_gist;
create table of_packages (package text, range npm_range);
insert into of_packages select 'package-' || n % 100, ('^' || n % 50)::npm_range from generate_series(1, 10000) n;
create index of_packages_index on of_packages using gist (package, range);
analyze of_packages;
set enable_seqscan = off;
set enable_indexscan = off;
explain (costs off) select * from of_packages where package = 'package-3' and range @> '3.2.5';
select count(*) from of_packages where package = 'package-3' and range @> '3.2.5';
reset enable_seqscan;
reset enable_indexscan;
drop table of_packages;
drop extension btree_gist;
