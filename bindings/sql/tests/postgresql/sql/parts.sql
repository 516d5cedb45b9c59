-- Versions in parts, whether a text is one, which one a text holds, and errors that show the text.
\pset null NULL
select v, semver_major(v), semver_minor(v), semver_patch(v), semver_prerelease(v), semver_prerelease(v) is null as is_release
    from (values ('1.2.3'), ('1.2.3-rc.4'), ('10.20.30-a-b.0+c-d'), ('0.0.0+a-b'), ('9007199254740991.9007199254740991.9007199254740991-0'),
    (null)) as p (v);
select v, semver_major(v), semver_minor(v), semver_patch(v), semver_prerelease(v)
    from (values ('1.2.3'::npm_version), ('1.2.3-rc.4'), ('10.20.30-a-b.0+c-d'), ('0.0.0+a-b'), (null)) as p (v);
select pg_typeof(semver_major('1.2.3')), pg_typeof(semver_prerelease('1.2.3')), pg_typeof(semver_coerce('1'));
select count(*) filter (where semver_major(version) || '.' || semver_minor(version) || '.' || semver_patch(version)
    || coalesce('-' || semver_prerelease(version), '') = split_part(version, '+', 1)) = count(*) as all_parts,
    count(*) filter (where semver_is_valid(version)) = count(*) as all_valid from versions;
select v, semver_is_valid(v) from (values ('1.2.3'), ('1.2.3-rc.4+b'), ('v1.2.3'), ('1.2'), (''), ('01.2.3'), ('1.2.3 '), ('1.2.3é'), ('latest'),
    ('9007199254740992.0.0'), (null)) as p (v);
select semver_is_valid(repeat('1', 1000000)), semver_is_valid('1.2.3-' || repeat('a', 250)), semver_is_valid('1.2.3-' || repeat('a', 251));
-- what npm's coerce says
select v, semver_coerce(v) from (values ('1.2.3'), ('v1.2'), ('node-1.2'), ('1'), ('1.2.3.4'), ('42.6.7.9.3-alpha'), ('v3.4 replaces v3.3.1'), ('none'),
    (''), ('1.2.3-rc.4'), ('9007199254740992'), (repeat('9', 20)), ('version 10.20.30+b é'), (null)) as p (v);
select v, semver_coerce(v) <@ '^1', semver_key(semver_coerce(v)) from (values ('=1.9'), ('release 2')) as p (v);
select semver_coerce(repeat('a', 1000000) || '7.8'), semver_coerce(repeat('1.', 500000)), semver_coerce(repeat('9', 1000000));
-- no version
select semver_major('1.2');
select semver_prerelease('v1.2.3');
-- an error shows the text, so that its row can be found: cut, and on one line
select semver_key(E'1.2.3\n\t"quoted" \\ \x7f\u202e');
select semver_key('1.2.3-' || repeat('a', 54) || '_');
select semver_key('1.2.3-' || repeat('a', 53) || '_');
select semver_satisfies('^1 ' || repeat('x', 100), '1.2.3');
select semver_key(repeat('é', 60));
do $$ begin
    perform semver_key(version) from (values ('1.2.3'), ('1.2.x'), ('1.2.4')) as v (version);
exception when invalid_text_representation then
    raise notice '%', sqlerrm;
end $$;
