-- The index finds the rows of a range: the plan reads no other row.
create table packages (
    name text,
    version text,
    key bytea generated always as (semver_key(version)) stored,
    is_prerelease boolean generated always as (semver_is_prerelease(version)) stored
);
insert into packages (name, version) select 'package-' || n % 100, n / 1000 || '.' || n / 30 % 30 || '.' || n % 30
    || case when n % 5 = 0 then '-rc.' || n % 7 else '' end from generate_series(1, 100000) n;
create index packages_keys on packages (is_prerelease, key);
create index packages_names on packages (name, is_prerelease, key);
analyze packages;
set enable_bitmapscan = off;
explain (costs off) select p.* from semver_intervals('^1.2.3-rc.1 || >=99.28') i
    join packages p on p.is_prerelease = i.prereleases and p.key >= i.lower and p.key < i.upper;
explain (costs off) select p.* from semver_intervals('^7') i
    join packages p on p.name = 'package-3' and p.is_prerelease = i.prereleases and p.key >= i.lower and p.key < i.upper;
reset enable_bitmapscan;
select count(*) from semver_intervals('^1.2.3-rc.1 || >=99.28') i
    join packages p on p.is_prerelease = i.prereleases and p.key >= i.lower and p.key < i.upper;
select count(*) from packages where semver_satisfies('^1.2.3-rc.1 || >=99.28', version);
-- an index over the calls themselves, without columns for them
create table bare (version text);
insert into bare select version from packages;
create index bare_keys on bare (semver_is_prerelease(version), semver_key(version));
analyze bare;
set enable_bitmapscan = off;
explain (costs off) select b.* from semver_intervals('^7') i
    join bare b on semver_is_prerelease(b.version) = i.prereleases and semver_key(b.version) >= i.lower
        and semver_key(b.version) < i.upper;
reset enable_bitmapscan;
-- parallel workers call the functions too
set parallel_setup_cost = 0;
set parallel_tuple_cost = 0;
set min_parallel_table_scan_size = 0;
explain (costs off) select count(*) from bare where semver_satisfies('^7', version);
select count(*) from bare where semver_satisfies('^7', version);
select min(version), max(length(semver_key(version))) from bare where semver_satisfies('^7', version);
