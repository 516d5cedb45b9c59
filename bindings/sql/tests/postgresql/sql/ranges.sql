-- The type npm_range: text, which versions satisfy it, and two ranges.
\pset null NULL
select '^1.2.3 || >=3'::npm_range, ''::npm_range, text ' ^1 '::npm_range = ' ^1 ', '^1'::npm_range = '>=1.0.0 <2.0.0-0';
select '^1 foo'::npm_range;
select '>=9007199254740992'::npm_range;
select '1.9.0'::npm_version <@ '^1.2'::npm_range, '2.0.0'::npm_version <@ '^1.2', '1.9.0-rc.1'::npm_version <@ '^1.2',
    '^1.2'::npm_range @> '1.9.0'::npm_version, '1.2.3-rc.5'::npm_version <@ '^1.2.3-rc.4', '1.2.3'::npm_version <@ null;
select npm_range_lower_key('^1.2.3-rc.4 || >=3'), npm_range_upper_key('^1.2.3-rc.4 || >=3');
select npm_range_lower_key('>4 <3'), npm_range_upper_key('>4 <3'), '3.5.0'::npm_version <@ '>4 <3';
-- each version of the tests, each range: as semver_satisfies says, which is compared with npm's own package
create table typed as select version::npm_version as version from versions;
create table typed_ranges as select range::npm_range as range from ranges;
select count(*) > 100000 as many, count(*) filter (where (v.version <@ r.range) <> semver_satisfies(r.range::text, v.version::text)) as differ,
    count(*) filter (where (r.range @> v.version) <> (v.version <@ r.range)) as differ_turned
    from typed v cross join typed_ranges r;
select count(*) as differ from (select row_number() over (order by version, version::text collate "C") as one,
    row_number() over (order by semver_key(version::text), version::text collate "C") as other from typed) o where one <> other;
-- the same by an index
create index typed_versions on typed (version);
analyze typed;
set enable_seqscan = off;
set enable_bitmapscan = off;
explain (costs off) select count(*) from typed_ranges r join typed v on v.version <@ r.range;
select count(*) = (select count(*) from by_function) as same from typed_ranges r join typed v on v.version <@ r.range;
select count(*) = (select count(*) from by_function) as same from typed_ranges r join typed v on r.range @> v.version;
reset enable_seqscan;
reset enable_bitmapscan;
-- the greatest and the least that satisfy a range
select max_satisfying(version, '^1.2'), min_satisfying(version, '^1.2'), max_satisfying(version, '>999'), max_satisfying(version, null) from typed;
select r.range, max_satisfying(v.version, r.range) from typed v, (values ('<1'::npm_range), ('~1.2'), ('1.2.3-rc.1 - 1.2.3-rc.10')) as r (range)
    group by r.range order by r.range;
select max_satisfying(version, '1.x') from (values ('1.2.3+a'::npm_version), ('1.2.3+b'), (null), ('1.2.0')) as v (version);
-- parallel workers
set parallel_setup_cost = 0;
set parallel_tuple_cost = 0;
set min_parallel_table_scan_size = 0;
set max_parallel_workers_per_gather = 2;
set enable_indexscan = off;
set enable_indexonlyscan = off;
set enable_bitmapscan = off;
explain (costs off) select max_satisfying(version, '^1.2'), min_satisfying(version, '^1.2'), max(version), min(version) from typed;
select max_satisfying(version, '^1.2'), min_satisfying(version, '^1.2'), max(version), min(version) from typed;
reset all;
-- two ranges
select '^1.2'::npm_range && '>=1.9'::npm_range, '^1'::npm_range && '^2', '<1.2.3'::npm_range && '1.2.3';
select '^1'::npm_range @>> '~1.2', '~1.2'::npm_range <<@ '^1', '~1.2'::npm_range @>> '^1', '*'::npm_range @>> '1.2.3-rc.1',
    '>=1.0.0-0'::npm_range @>> '^1.2.3-rc.4', '1 || 2'::npm_range @>> '1 - 2';
-- ranges overlap whatever prereleases each lets in
select '1.2.3-rc.1'::npm_range && '>=1.0.0', '1.2.3-rc.1'::npm_version <@ '>=1.0.0';
-- no version of the tests says otherwise
select count(*) from typed_ranges a, typed_ranges b where a.range @>> b.range
    and exists (select from typed v where v.version <@ b.range and not v.version <@ a.range);
select count(*) from typed_ranges a, typed_ranges b where not a.range && b.range
    and exists (select from typed v where v.version <@ b.range and v.version <@ a.range);
select count(*) from typed_ranges a, typed_ranges b where (a.range @>> b.range) <> (b.range <<@ a.range) or (a.range && b.range) <> (b.range && a.range);
-- ranges are the same if their texts are
select count(distinct range), count(*) from (values ('^1'::npm_range), ('^1'), ('^1 ')) as r (range);
select range from (values ('~1'::npm_range), ('^2'), ('^1')) as r (range) order by range;
select count(*) from typed_ranges a join typed_ranges b using (range);
-- beside a range or a version a literal is what satisfies it, or what it satisfies: `>=1.0.0` covers `2.0.0-rc.1` and does not let it in
select '>=1.0.0-0'::npm_range @> '1.2.3-rc.1', '>=1.0.0-0'::npm_range @>> '1.2.3-rc.1', '1.2.3' <@ '^1'::npm_range, '1.2.3'::npm_version <@ '^1',
    '1.2.3-rc.1'::npm_range @>> '1.2.3-rc.1';
select '^1'::npm_range @> '1.x';
select 'v1.2.3' <@ '^1'::npm_range;
-- a text on one side, or on both, is read as what is asked for
select r.range, v.version, v.version <@ r.range::npm_range as one, v.version::npm_version <@ r.range as other, r.range @> v.version as both,
    r.range::npm_range @> v.version as turned
    from (values (text '^1'), ('~1.2 || 2')) as r (range), (values (varchar '1.9.0'), ('2.0.0-a')) as v (version) order by 1, 2;
select '1.10.0'::npm_version > text '1.9.0', text '1.9.0' < '1.10.0'::npm_version, text '1.9.0' < text '1.10.0', '^1'::npm_range && text '1.2.3',
    '^1'::npm_range @>> text '1.2.3';
select '1.2.3'::npm_version <@ text '^1 foo';
select v.version <@ '^1' from (values ('1.2'::varchar)) as v (version);
-- and beside texts a text stays one
create table of_texts (t text, v varchar(20), c char(5), n name, r text);
insert into of_texts values ('1.10.0', '1.9.0', '1.2.3', '1.2.3', '^1');
select t < v, v = t, t = any (array[v]), greatest(t, v), pg_typeof(max(v)), pg_typeof(min(c)) from of_texts group by t, v;
select semver_key(v), semver_key(c), semver_key(n), semver_major(v), semver_is_prerelease(v), semver_satisfies(r, v), semver_satisfies(v, t) from of_texts;
select '{"a":1}'::jsonb @> '{"a":1}', '[1,3)'::int4range @> 2, '{1,2}'::int[] @> '{1}', array['a'] && array['a'];
