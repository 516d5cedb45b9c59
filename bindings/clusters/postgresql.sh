# SPDX-License-Identifier: Apache-2.0
# Two shards of PostgreSQL, a standby of the first, and a server in front that knows where each package is, in the current folder.
export PATH=$PATH:/usr/lib/postgresql/15/bin
mkdir -p postgresql
for shard in front:7041 one:7042 two:7043; do
    initdb -D postgresql/${shard%:*} -U postgres -A trust -E UTF8 --locale=C > /dev/null
    pg_ctl -D postgresql/${shard%:*} -l postgresql/${shard%:*}.log -w start \
        -o "-p ${shard#*:} -c listen_addresses=127.0.0.1 -c unix_socket_directories='$PWD/postgresql'" > /dev/null
done
pg_basebackup -h 127.0.0.1 -p 7042 -U postgres -D postgresql/standby -R -X stream
pg_ctl -D postgresql/standby -l postgresql/standby.log -w start \
    -o "-p 7044 -c listen_addresses=127.0.0.1 -c unix_socket_directories='$PWD/postgresql'" > /dev/null
for port in 7042 7043; do
    psql -q -h 127.0.0.1 -p $port -U postgres <<'END'
CREATE TABLE versions (package text, is_prerelease boolean, key bytea, version text NOT NULL, PRIMARY KEY (package, is_prerelease, key));
-- What is put here takes the place of what is there: a server in front cannot ask a shard for that itself.
CREATE VIEW put_versions AS SELECT * FROM versions;
CREATE FUNCTION put_version() RETURNS trigger LANGUAGE plpgsql AS $$ BEGIN
    INSERT INTO public.versions VALUES (NEW.*) ON CONFLICT (package, is_prerelease, key) DO UPDATE SET version = EXCLUDED.version;
    RETURN NEW;
END $$;
CREATE TRIGGER put_version INSTEAD OF INSERT ON put_versions FOR EACH ROW EXECUTE FUNCTION put_version();
END
done
psql -q -h 127.0.0.1 -p 7041 -U postgres <<'END'
CREATE EXTENSION postgres_fdw;
CREATE SERVER one FOREIGN DATA WRAPPER postgres_fdw OPTIONS (host '127.0.0.1', port '7042', dbname 'postgres');
CREATE SERVER two FOREIGN DATA WRAPPER postgres_fdw OPTIONS (host '127.0.0.1', port '7043', dbname 'postgres');
CREATE USER MAPPING FOR PUBLIC SERVER one OPTIONS (user 'postgres');
CREATE USER MAPPING FOR PUBLIC SERVER two OPTIONS (user 'postgres');
CREATE TABLE versions (package text, is_prerelease boolean, key bytea, version text NOT NULL) PARTITION BY HASH (package);
CREATE TABLE put_versions (LIKE versions) PARTITION BY HASH (package);
CREATE FOREIGN TABLE versions_one PARTITION OF versions FOR VALUES WITH (MODULUS 2, REMAINDER 0) SERVER one OPTIONS (table_name 'versions');
CREATE FOREIGN TABLE versions_two PARTITION OF versions FOR VALUES WITH (MODULUS 2, REMAINDER 1) SERVER two OPTIONS (table_name 'versions');
CREATE FOREIGN TABLE put_one PARTITION OF put_versions FOR VALUES WITH (MODULUS 2, REMAINDER 0) SERVER one
    OPTIONS (table_name 'put_versions', batch_size '100');
CREATE FOREIGN TABLE put_two PARTITION OF put_versions FOR VALUES WITH (MODULUS 2, REMAINDER 1) SERVER two
    OPTIONS (table_name 'put_versions', batch_size '100');
END
