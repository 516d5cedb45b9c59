-- What earlier versions of the extension made serves the newest.
\set home :DBNAME
create database denimscree_upgrade;
\c denimscree_upgrade
create extension denimscree version '1.0';
create table old (version text, key bytea generated always as (semver_key(version)) stored);
insert into old values ('1.10.0'), ('1.9.0');
create index old_keys on old (semver_key(version));
create view newest as select max(version) from old where semver_satisfies('^1', version);
select typname from pg_type where typname like 'npm\_%' order by 1;
alter extension denimscree update to '1.1';
create table older (version npm_version primary key, range npm_range);
insert into older values ('1.2.3', '^1'), ('2.0.0', '~2.1');
create view covering as select a.range as one, b.range as other from older a, older b where a.range @> b.range and b.range <@ a.range;
create view between_ends as select version from older where version >= '\x010203'::bytea and version < '\x010204'::bytea;
create view of_texts as select version from older where version <@ '^1.2'::text::npm_range;
select * from covering order by 1;
alter extension denimscree update;
select extversion from pg_extension where extname = 'denimscree';
select typname from pg_type where typname like 'npm\_%' order by 1;
select pg_get_viewdef('covering');
select * from covering order by 1;
select * from between_ends;
select * from of_texts;
explain (costs off) select * from between_ends;
select version from old order by key;
select version::npm_version from old where version::npm_version <@ '>=1.9.5';
select * from newest;
set enable_seqscan = off;
set enable_bitmapscan = off;
explain (costs off) select version from old where semver_satisfies('^1.9', version);
-- in another schema
create schema other;
alter extension denimscree set schema other;
explain (costs off) select version from old where other.semver_satisfies('^1.9', version);
select version from old where other.semver_satisfies('^1.9', version) order by 1;
create table typed (version other.npm_version);
create index typed_versions on typed (version);
insert into typed values ('1.2.3'), ('2.0.0');
explain (costs off) select version from typed where version operator(other.<@) '^1.2';
select version from typed where version operator(other.<@) '^1.2';
-- it has what one that is made anew has
create function public.members() returns setof text language sql as $$
    select pg_describe_object(classid, objid, objsubid) from pg_depend d join pg_extension e on e.oid = d.refobjid
        where extname = 'denimscree' and refclassid = 'pg_extension'::regclass and deptype = 'e'
    union all select concat_ws(' ', p.oid::regprocedure, p.prosrc, p.provolatile, p.proparallel, p.proisstrict, p.procost, p.prosupport)
        from pg_proc p join pg_depend d on d.classid = 'pg_proc'::regclass and d.objid = p.oid and d.deptype = 'e'
    union all select concat_ws(' ', o.oid::regoperator, o.oprcode, o.oprcom::regoperator, o.oprnegate::regoperator, o.oprrest, o.oprjoin, o.oprcanhash)
        from pg_operator o join pg_depend d on d.classid = 'pg_operator'::regclass and d.objid = o.oid and d.deptype = 'e'
    union all select concat_ws(' ', c.castsource::regtype, c.casttarget::regtype, c.castcontext, c.castmethod)
        from pg_cast c join pg_depend d on d.classid = 'pg_cast'::regclass and d.objid = c.oid and d.deptype = 'e'
    union all select concat_ws(' ', f.opfname, amopstrategy, amopopr::regoperator, amopmethod) from pg_amop a join pg_opfamily f on f.oid = amopfamily
        where opfname like 'npm%'
    union all select concat_ws(' ', f.opfname, amprocnum, amproc) from pg_amproc a join pg_opfamily f on f.oid = amprocfamily where opfname like 'npm%'
$$;
set search_path = public, other;
create table members_updated as select members as member from members();
drop table typed;
drop schema other cascade;
create schema other;
create extension denimscree schema other;
create table members_new as select members as member from members();
select count(*) > 150 as many from members_new;
select * from members_updated except all select * from members_new;
select * from members_new except all select * from members_updated;
\c :home
drop database denimscree_upgrade;
