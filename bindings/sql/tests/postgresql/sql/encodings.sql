-- A database in another encoding: texts are converted to UTF-8, and the byte of a fault is counted there.
\set home :DBNAME
create database denimscree_latin1 encoding 'LATIN1' locale 'C' template template0;
\c denimscree_latin1
create extension denimscree;
-- a no-break space before a comparator is a blank to npm
select semver_satisfies(chr(160) || '^1', '1.2.3'), (chr(160) || '^1')::npm_range @> '1.2.3'::npm_version;
-- two characters whose bytes would be a no-break space in UTF-8
select semver_satisfies('^1' || chr(194) || chr(160), '1.2.3');
select ('^1' || chr(194) || chr(160))::npm_range;
select semver_key('1.2.3' || chr(233));
select semver_key(chr(233) || '1.2.3');
select (chr(160) || '^1')::npm_range::text = chr(160) || '^1';
select octet_length((chr(160) || '^1')::npm_range::text);
\c :home
drop database denimscree_latin1;
create database denimscree_bytes encoding 'SQL_ASCII' locale 'C' template template0;
\c denimscree_bytes
create extension denimscree;
select semver_satisfies(chr(194) || chr(160) || '^1', '1.2.3');
select semver_satisfies(chr(160) || '^1', '1.2.3');
select semver_key('1.2.3');
\c :home
drop database denimscree_bytes;
