-- SPDX-License-Identifier: Apache-2.0
-- Texts of a megabyte, and a range of 100,000 intervals. An argument says how long a range may be.
select length(semver_key(replace(hex(zeroblob(500000)), '0', '1')));
select semver_satisfies('^' || replace(hex(zeroblob(500000)), '0', '1'), '1.2.3', 2000000);
select semver_satisfies(replace(hex(zeroblob(250000)), '00', '1||2'), '1.2.3', 2000000);
select count(*), sum(length(lower)), sum(length(upper)) from semver_intervals((
    with recursive n(i) as (select 0 union all select i + 1 from n where i < 99999)
    select group_concat((2 * i) || '.0.0', ' || ') from n), 2000000);
