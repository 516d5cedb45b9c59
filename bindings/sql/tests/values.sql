-- SPDX-License-Identifier: Apache-2.0
-- Versions and ranges for the tests of both databases.
create table numbers (number text);
insert into numbers values ('0'), ('1'), ('2'), ('3'), ('9'), ('10'), ('239'), ('240'), ('255'), ('256'), ('65536'),
    ('9007199254740991');
create table prereleases (prerelease text);
insert into prereleases values (''), ('-0'), ('-1'), ('-9'), ('-10'), ('-239'), ('-240'), ('-4294967296'), ('-0.0'), ('-1.0'),
    ('-1.a'), ('-a'), ('-a.0'), ('-a.1'), ('-a.a'), ('-a-'), ('-aa'), ('-A'), ('--'), ('-0a'), ('-rc'), ('-rc.1'), ('-rc.4'),
    ('-rc.10'), ('-rc.1.0'), ('-z'), ('-9007199254740991'), ('-18446744073709551615'), ('-18446744073709551616');
-- a release of each three numbers, and prereleases of some
create table versions (version text);
insert into versions select a.number || '.' || b.number || '.' || c.number
    from numbers a cross join numbers b cross join numbers c;
insert into versions select a.number || '.' || b.number || '.' || c.number || p.prerelease
    from numbers a cross join numbers b cross join numbers c cross join prereleases p
    where p.prerelease <> '' and a.number in ('0', '1', '2', '240') and b.number in ('0', '2', '9007199254740991')
        and c.number in ('0', '3', '256');
insert into versions values ('1.2.3+build'), ('1.2.3-rc.4+build.5'), ('7.7.7-alpha.1+0');

create table ranges (range text);
insert into ranges values (''), ('*'), ('x'), ('1'), ('1.x'), ('1.2'), ('1.2.3'), ('=1.2.3'), ('v1.2.3'), ('^1'), ('^1.2'),
    ('^1.2.3'), ('^0'), ('^0.0'), ('^0.0.3'), ('^0.2.3'), ('^0.2.3-rc.4'), ('^1.2.3-rc.4'), ('^1.2.3-0'), ('~1'), ('~1.2'),
    ('~1.2.3'), ('~1.2.3-rc.4'), ('~0.0.0-a'), ('>1'), ('>1.2'), ('>1.2.3'), ('>1.2.3-rc.4'), ('>=1.2.3'), ('>=1.2.3-rc.4'),
    ('>=1.2.3-0'), ('<1'), ('<1.2'), ('<1.2.3'), ('<1.2.3-rc.4'), ('<=1'), ('<=1.2.3'), ('<=1.2.3-rc.4'), ('<0.0.0'),
    ('<0.0.0-0'), ('<0.0.0-a'), ('>9007199254740991.9007199254740991.9007199254740991'), ('1 - 2'), ('1.2.3 - 2.0.3'),
    ('1.2.3-a - 1.2.3-rc.4'), ('1.2.3-a - 2.0.3-rc'), ('>=1.2.3-a <1.2.3-rc'), ('>1.2.3-a <=1.2.3-rc.4'), ('>=1.2.3 <1.2.3'),
    ('>2 <1'), ('^1 || ^3'), ('^1 || ^2'), ('1.2.3 || 1.2.10'), ('^1.2.3-rc.4 || ^2.0.0-0'), ('>=1.2.3-a || >=1.2.3-rc'),
    ('<1.2.3-a || >=1.2.3-rc'), ('<=1.2.3-a || >1.2.3-a'), ('>=1.2.3-a <2 || >=1.2.3-z <3'), ('1.2.3-rc.4 || 1.2.3-rc.10'),
    ('1.2.3-rc.4'), ('240 || 255 || 256.x'), ('>=239.240.255 <65536'), ('1.2.3-18446744073709551615 - 1.2.3'),
    ('>=0.0.0-0 <0.0.0'), ('~>1.2'), ('>=1.2.x'), ('^x'), ('* || 1.2.3-a'), ('<*'), ('>=2.0.256-rc.1 <240.0.3-a');
