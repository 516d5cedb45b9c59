-- SPDX-License-Identifier: Apache-2.0
-- What the functions return, and what they refuse.
.nullvalue NULL
.headers off

select hex(semver_key('1.2.3')), hex(semver_key('1.2.3+build')), hex(semver_key('1.2.3-rc.4'));
select hex(semver_key('239.240.256')), hex(semver_key('9007199254740991.0.0'));
select semver_is_prerelease('1.2.3-0'), semver_is_prerelease('1.2.3'), semver_is_prerelease('1.2.3+a-b');
select semver_satisfies('^1.2', '1.9.0'), semver_satisfies('^1.2', '2.0.0'), semver_satisfies('^1.2', '1.9.0-rc.1');
select hex(lower), hex(upper), prereleases from semver_intervals('^1.2.3-rc.4 || >=3');
select hex(lower), hex(upper), prereleases from semver_intervals('<=2 || 1.5.0');
select count(*) from semver_intervals('*');
-- what has a NULL is NULL, and what has no range has no interval
select semver_key(null), semver_is_prerelease(null), semver_satisfies(null, '1.2.3'), semver_satisfies('^1', null);
select count(*) from semver_intervals(null);
select count(*) from semver_intervals('^1', null);
select semver_satisfies('^1', '1.2.3', null);
-- an order by key is that of the standard
select group_concat(version, ' ') from (select column1 as version from (values ('1.0.0'), ('1.0.0-rc.1'), ('1.0.0-beta.11'),
    ('1.0.0-beta.2'), ('1.0.0-beta'), ('1.0.0-alpha.beta'), ('1.0.0-alpha.1'), ('1.0.0-alpha')) order by semver_key(column1));
-- no version
select semver_key('1.2');
select semver_key('');
select semver_key('v1.2.3');
select semver_key('1.2.3 ');
select semver_key('01.2.3');
select semver_key('9007199254740992.0.0');
select semver_key('1.2.' || hex(zeroblob(200)));
select semver_key(1.5);
select semver_key(x'ff312e322e33');
select semver_key('1.2.3' || char(0));
select semver_key(x'');
select semver_is_prerelease('1.2');
select semver_satisfies('^1', 'one');
select semver_satisfies('^1', x'ff');
-- no range
select semver_satisfies('^1 foo', '1.2.3');
select semver_satisfies('1.2.3.4', '1.2.3');
select semver_satisfies(x'5eff', '1.2.3');
select lower from semver_intervals('^1 foo');
select lower from semver_intervals(x'5eff');
select lower from semver_intervals('>=9007199254740992');
-- a bad range that no row is asked about is not read; and one that follows a good one is
select count(*) from (select '1.2.3' as version where 1 = 0) where semver_satisfies('^1 foo', version);
select semver_satisfies(column1, '1.2.3') from (values ('^1'), ('^2'), ('^1'), ('^1 foo'));
-- without a range there is an error, and no empty table
select count(*) from semver_intervals;
select count(*) from semver_intervals where range like '^1';
select count(*) from semver_intervals where max_bytes = 9;
-- a range has at most 65536 bytes, unless an argument says more; a blank before a comparator counts
select semver_satisfies(printf('%65536s', '^1'), '1.2.3'), (select count(*) from semver_intervals(printf('%65536s', '^1')));
select semver_satisfies(printf('%65537s', '^1'), '1.2.3');
select count(*) from semver_intervals(printf('%65537s', '^1'));
select semver_satisfies(printf('%65537s', '^1'), '1.2.3', 65537), (select count(*) from semver_intervals(printf('%65537s', '^1'), 65537));
select semver_satisfies('^1', '1.2.3', 2), (select count(*) from semver_intervals('^1', 2));
select semver_satisfies('^1', '1.2.3', 1);
select count(*) from semver_intervals('^1', 1);
select semver_satisfies('^1', '1.2.3', -1);
select semver_satisfies('^1', '1.2.3', 'many');
-- the limit is that of the row, also for a range that is kept
select semver_satisfies('^1', '1.2.3', column1) from (values (3), (2), (1));
-- wrong numbers of arguments
select semver_key();
select semver_satisfies('^1');
-- the functions may stand in an index
create table packages (name text, version text);
create index packages_keys on packages (name, semver_is_prerelease(version), semver_key(version));
insert into packages values ('one', '1.2.3'), ('one', '1.2.4-rc.1'), ('two', '1.10.0');
insert into packages values ('two', '1.10');
select count(*) from packages;
explain query plan select p.version from semver_intervals('^1') i cross join packages p on p.name = 'one'
    and semver_is_prerelease(p.version) = i.prereleases and semver_key(p.version) >= i.lower and semver_key(p.version) < i.upper;
select p.version from semver_intervals('^1') i cross join packages p on p.name = 'one'
    and semver_is_prerelease(p.version) = i.prereleases and semver_key(p.version) >= i.lower and semver_key(p.version) < i.upper;
-- the arguments are columns of each row: SQLite tests each condition but the one that gives the range
select range, max_bytes, typeof(max_bytes) from semver_intervals('^1');
select range, max_bytes from semver_intervals('^1 || ^3', 100);
create table asked (range text);
insert into asked values ('^1'), ('1.2.3 || ^3');
select a.range, hex(i.lower) from asked a join semver_intervals(a.range) i on i.range = a.range;
select hex(i.lower) from semver_intervals('^1') i join asked a on i.range = a.range;
select a.range, hex(i.lower) from asked a join semver_intervals i on i.range = a.range where a.range = '^1';
select count(*) from asked a join semver_intervals(a.range) i on i.range <> a.range;
select hex(lower) from semver_intervals where range is '^1';
select count(*) from semver_intervals where range is null;
select count(*) from semver_intervals('^1') where range is null;
select count(*) from semver_intervals where range in ('^1', '^2', '^3 || ^5');
select count(*) from semver_intervals where range = '^1' or range = '^2 || ^4';
select count(*) from asked a left join semver_intervals(nullif(a.range, '^1')) i;
select hex(lower), range, typeof(range) from semver_intervals(x'5e31');
select hex(lower), range, typeof(range) from semver_intervals(1);
-- and the table of intervals is no table of the database
create virtual table other using semver_intervals;
insert into semver_intervals values (x'', x'', 0);
-- the collation: the order of SemVer, in which builds count for nothing; texts that are no versions come first, by their bytes
select group_concat(column1, ' ') from (select column1 from (values ('1.10.0'), ('1.9.0'), ('1.9.0-rc.2'), ('1.9.0-rc.10'), ('v1.0.0'),
    ('1.9.0-rc'), ('latest'), ('10.0.0'), ('1.9'), ('')) order by column1 collate semver);
select '1.2.3+a' = '1.2.3+b' collate semver, '1.2.3' < '1.2.10' collate semver, '1.2.3' < '1.2.10';
select max(column1 collate semver), min(column1 collate semver) from (values ('1.9.0'), ('1.10.0'), ('1.9.0-a'));
select '1.2.3' > 'v9' collate semver, '' < '1.2.3' collate semver, 'b' > 'a' collate semver, null = '1' collate semver;
create table sorted (version text primary key collate semver);
insert into sorted values ('1.10.0'), ('1.9.0'), ('1.9.0-rc.1');
insert into sorted values ('1.9.0+build');
select group_concat(version, ' ') from (select version from sorted order by version desc);
explain query plan select version from sorted where version > '1.9' order by version;
select group_concat(version, ' ') from (select version from sorted where version > '1.9.0-rc.1' order by version);
-- versions in parts; a release has no prerelease
select v, semver_major(v), semver_minor(v), semver_patch(v), semver_prerelease(v), typeof(semver_major(v)), typeof(semver_prerelease(v))
    from (select column1 as v from (values ('1.2.3'), ('1.2.3-rc.4'), ('10.20.30-a-b.0+c-d'), ('0.0.0+a-b'),
    ('9007199254740991.9007199254740991.9007199254740991-0'), (null)));
select semver_major('1.2');
select semver_minor('v1.2.3');
select semver_patch(x'ff');
select semver_prerelease('1.2.3-');
select column1, semver_is_valid(column1) from (values ('1.2.3'), ('1.2.3-rc.4+b'), ('v1.2.3'), ('1.2'), (''), ('01.2.3'), ('1.2.3 '), ('latest'),
    ('9007199254740992.0.0'), (1.5), (null));
select semver_is_valid(x'ff'), semver_is_valid(x'312e322e33'), semver_is_valid(hex(zeroblob(500000)));
-- what npm's coerce says
select column1, semver_coerce(column1) from (values ('1.2.3'), ('v1.2'), ('node-1.2'), (1), (1.5), ('1.2.3.4'), ('42.6.7.9.3-alpha'),
    ('v3.4 replaces v3.3.1'), ('none'), (''), ('1.2.3-rc.4'), ('9007199254740992'), ('99999999999999999999'), (null));
select semver_coerce(x'ff');
select semver_satisfies('^1', semver_coerce('=1.9')), hex(semver_key(semver_coerce('release 2')));
-- an error shows the text: cut, and on one line
select semver_key('1.2.3' || char(10, 9) || '"quoted" \ ' || char(127, 8238));
select semver_key('1.2.3-' || substr(hex(zeroblob(27)), 1, 54) || '_');
select semver_key('1.2.3-' || substr(hex(zeroblob(27)), 1, 53) || '_');
select semver_satisfies('^1 ' || hex(zeroblob(50)), '1.2.3');
select count(*) from semver_intervals('^1 "foo"');
