-- What the functions return, and what they refuse.
\pset null NULL
select semver_key('1.2.3'), semver_key('1.2.3+build'), semver_key('1.2.3-rc.4');
select semver_key('239.240.256'), semver_key('9007199254740991.0.0');
select semver_is_prerelease('1.2.3-0'), semver_is_prerelease('1.2.3'), semver_is_prerelease('1.2.3+a-b');
select semver_satisfies('^1.2', '1.9.0'), semver_satisfies('^1.2', '2.0.0'), semver_satisfies('^1.2', '1.9.0-rc.1');
select * from semver_intervals('^1.2.3-rc.4 || >=3');
select * from semver_intervals('<=2 || 1.5.0');
select count(*) from semver_intervals('*');
-- what has a NULL is NULL, and what has no range has no interval
select semver_key(null), semver_is_prerelease(null), semver_satisfies(null, '1.2.3'), semver_satisfies('^1', null);
select count(*) from semver_intervals(null);
-- an order by key is that of the standard
select string_agg(version, ' ' order by semver_key(version)) from (values ('1.0.0'), ('1.0.0-rc.1'), ('1.0.0-beta.11'),
    ('1.0.0-beta.2'), ('1.0.0-beta'), ('1.0.0-alpha.beta'), ('1.0.0-alpha.1'), ('1.0.0-alpha')) as v (version);
-- no version
select semver_key('1.2');
select semver_key('');
select semver_key('v1.2.3');
select semver_key('1.2.3 ');
select semver_key('01.2.3');
select semver_key('9007199254740992.0.0');
select semver_key('1.2.' || repeat('0', 400));
select semver_key('1.2.3é');
select semver_is_prerelease('1.2');
select semver_satisfies('^1', 'one');
-- no range
select semver_satisfies('^1 foo', '1.2.3');
select semver_satisfies('1.2.3.4', '1.2.3');
select semver_intervals('^1 foo');
select semver_intervals('>=9007199254740992');
-- the kind of the error is one that a program can catch
do $$ begin
    perform semver_key('1.2');
exception when invalid_text_representation then
    raise notice '%', sqlerrm;
end $$;
-- the range of the row before is kept, and a bad one that follows is seen
select range, semver_satisfies(range, '1.2.3') from (values ('^1'), ('^2'), ('^1'), ('')) as r (range);
select range, semver_satisfies(range, '1.2.3') from (values ('^1'), ('^1 foo')) as r (range);
-- a range and a version of each row
select sum(semver_satisfies('^' || n % 7, n % 5 || '.2.3')::int) from generate_series(0, 34) n;
-- long texts: a setting says how many bytes a range may have
set semver.max_range_bytes = '64MB';
select semver_key(repeat('1', 1000000));
select semver_satisfies('^' || repeat('1', 1000000), '1.2.3');
select semver_satisfies(repeat('1||2', 250000), '1.2.3');
select count(*), sum(length(lower)), sum(length(upper)) from semver_intervals((
    select string_agg(2 * n || '.0.0', ' || ') from generate_series(0, 99999) n));
select * from (select semver_intervals((select string_agg(2 * n || '.0.0', ' || ') from generate_series(0, 9999) n))) as i limit 2;
-- a statement that is cut off while the rows are made
set statement_timeout = '50ms';
do $$ begin
    perform count(*) from semver_intervals((select string_agg(2 * n || '.0.0', ' || ') from generate_series(0, 999999) n));
exception when query_canceled then
    raise notice 'cut off';
end $$;
reset statement_timeout;
reset semver.max_range_bytes;
select semver_satisfies('^1', '1.2.3');
