-- The type npm_version: text, order, index, hash, aggregates.
\pset null NULL
select '1.2.3'::npm_version, '1.2.3-rc.4+build.5'::npm_version, text '1.2.3-0' ::npm_version, varchar '1.2.3'::npm_version;
select pg_typeof('1.2.3'::npm_version::text), length('1.2.3-rc.4+b'::npm_version::text), semver_key('1.2.3-rc.4+b'::npm_version);
select semver_is_prerelease('1.2.3-rc.4'::npm_version), semver_is_prerelease('1.2.3+a-b'::npm_version);
-- no version
select '1.2'::npm_version;
select 'v1.2.3'::npm_version;
select ''::npm_version;
select ('1.2.' || repeat('0', 400))::npm_version;
-- the longest versions keep their text
select length(v::text), length(semver_key(v)), v = v, v < '1.0.0' from (values (('0.0.0-' || repeat('a.', 124) || 'aa')::npm_version),
    (('9007199254740991.9007199254740991.9007199254740991+' || repeat('b', 205))::npm_version)) as l (v);
-- the order of the standard, in which builds count for nothing
create table chain (version npm_version);
insert into chain values ('1.0.0'), ('1.0.0-rc.1'), ('1.10.0'), ('1.0.0-beta.11'), ('1.9.0'), ('1.0.0-beta.2'), ('1.0.0-beta'),
    ('1.0.0-alpha.beta'), (null), ('1.0.0-alpha.1'), ('1.0.0-alpha');
select version from chain order by version;
select version from chain order by version desc limit 3;
select max(version), min(version) from chain;
select a < b, a <= b, a = b, a <> b, a >= b, a > b from (values ('1.2.3+a'::npm_version, '1.2.3+b'::npm_version), ('1.9.0', '1.10.0'),
    ('1.0.0', '1.0.0-rc.1'), (null, '1.0.0')) as p (a, b);
select count(distinct version), count(*) from (values ('1.2.3+a'::npm_version), ('1.2.3+b'), ('1.2.4')) as v (version);
select version = '1.2.3', version < '1.10.0' from (values ('1.2.3+a'::npm_version)) as v (version);
-- equal versions have one hash
set enable_mergejoin = off;
set enable_nestloop = off;
explain (costs off) select * from chain a join chain b using (version);
select count(*) from chain a join (values ('1.0.0+x'::npm_version), ('1.10.0'), ('2.0.0')) as b (version) using (version);
reset enable_mergejoin;
reset enable_nestloop;
-- a key, a unique index and partitions
create table installed (package text, version npm_version, primary key (package, version));
insert into installed values ('a', '1.2.3'), ('a', '1.2.4'), ('b', '1.2.3');
insert into installed values ('a', '1.2.3+again');
create table parted (version npm_version) partition by hash (version);
create table parted_0 partition of parted for values with (modulus 2, remainder 0);
create table parted_1 partition of parted for values with (modulus 2, remainder 1);
insert into parted select ('1.' || n || '.0+' || n)::npm_version from generate_series(0, 99) n;
select count(*), (select count(*) from parted_0) between 20 and 80 as in_both from parted;
select version from parted where version = '1.42.0';
-- an assignment from text, and back
create table texts_of (version text);
insert into texts_of values ('1.10.0'), ('1.9.0');
insert into chain select version from texts_of;
alter table texts_of alter column version type npm_version;
select version from texts_of order by version;
alter table texts_of alter column version type text;
select version from texts_of order by version;
-- the ends of intervals beside versions
select count(*) from chain c join semver_intervals('>=1.0.0-beta.2 <1.0.0') i
    on semver_is_prerelease(c.version) = i.prereleases and c.version >= i.lower and c.version < i.upper;
-- bytes of a client that speaks the binary protocol are the text
select npm_version_send('1.2.3-rc.4'), npm_range_send('^1 || 2');
-- the longest versions, sorted by their first bytes and by all
create table sorted as select ('1.' || n % 7 || '.' || n % 11 || case when n % 3 = 0 then '-' || repeat('a', n % 13) || n % 5 else '' end)::npm_version as version
    from generate_series(1, 20000) n;
select count(*) from (select version, lag(version) over (order by version) as before from sorted) s where version < before;
select count(*) from (select semver_key(version) as key, lag(semver_key(version)) over (order by version) as before from sorted) s where key < before;
-- and what the server itself asks of classes of operators
select opcname, amname, amvalidate(c.oid) from pg_opclass c join pg_am a on a.oid = opcmethod
    where c.oid in (select objid from pg_depend d join pg_extension e on e.oid = d.refobjid
        where e.extname = 'denimscree' and d.refclassid = 'pg_extension'::regclass and d.classid = 'pg_opclass'::regclass)
    order by opcname, amname;
-- an end of an interval is no version: its text is not read, and it has no parts
select npm_version_end('\x010203'), npm_version_end(''), npm_version_end('\x010203') < '1.2.3', npm_version_end('\x010204') > '1.2.3',
    length(npm_version_end(decode(repeat('01', 5000), 'hex'))::text);
select '\x010203'::npm_version;
select semver_major(npm_version_end('\x010203'));
select npm_version_send(npm_version_end('\x0102'));
-- an index over versions serves bytes on the right
create table sorted_keys (version npm_version primary key);
insert into sorted_keys select distinct version from sorted;
analyze sorted_keys;
set enable_seqscan = off;
set enable_bitmapscan = off;
explain (costs off) select count(*) from sorted_keys where version >= '\x010302'::bytea and version < '\x010303'::bytea;
select count(*), (select count(*) from sorted_keys where semver_key(version) >= '\x010302' and semver_key(version) < '\x010303') as wanted
    from sorted_keys where version >= '\x010302'::bytea and version < '\x010303'::bytea;
explain (costs off) select count(*) from semver_intervals('~1.3.2') i join sorted_keys s on s.version >= i.lower and s.version < i.upper;
select count(*) from sorted_keys where version = '\x010302ff'::bytea;
select count(*) from sorted_keys where version > '\x010302ff'::bytea and version <= '\x010303ff'::bytea;
reset enable_seqscan;
reset enable_bitmapscan;
