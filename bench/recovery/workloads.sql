-- The workloads whose log bench/recovery makes. Each procedure goes on until the log has reached a position.
CREATE FUNCTION note(n bigint) RETURNS text LANGUAGE sql IMMUTABLE
AS $$ SELECT md5(n::text) || md5((n + 1)::text) || 'abcdefg' $$;

-- One row a transaction.
CREATE PROCEDURE single(upto pg_lsn) LANGUAGE plpgsql AS $$
DECLARE
    i int := 0;
BEGIN
    WHILE i % 1000 <> 0 OR pg_current_wal_insert_lsn() < upto LOOP
        i := i + 1;
        INSERT INTO t VALUES (i, note(i));
        COMMIT;
    END LOOP;
END $$;

-- Twenty rows a transaction.
CREATE PROCEDURE batches(upto pg_lsn) LANGUAGE plpgsql AS $$
DECLARE
    i int := 0;
BEGIN
    WHILE i % 1000 <> 0 OR pg_current_wal_insert_lsn() < upto LOOP
        INSERT INTO t SELECT n, note(n) FROM generate_series(i + 1, i + 20) AS n;
        i := i + 20;
        COMMIT;
    END LOOP;
END $$;

-- COPY of 50,000 rows a transaction, from a file that is made first.
CREATE PROCEDURE copies(upto pg_lsn, path text) LANGUAGE plpgsql AS $$
BEGIN
    EXECUTE format('COPY (SELECT n, note(n) FROM generate_series(1, 50000) AS n) TO %L', path);
    WHILE pg_current_wal_insert_lsn() < upto LOOP
        EXECUTE format('COPY t FROM %L', path);
        COMMIT;
    END LOOP;
END $$;

-- First inserts of one row a transaction, for the first third of the log. Then transactions on a row that is drawn by
-- chance: 12 of 100 insert one, 62 update it, 8 delete it, 8 lock it in one of four ways, 2 update it after a lock, 4
-- update it and abort, 2 update it in a subtransaction, and 2 in one that aborts. Rows are found by their ctid, so there
-- is no index. Where `every` is above 0, a checkpoint comes after each so many bytes, so pages that change are written
-- whole again.
CREATE PROCEDURE mix(upto pg_lsn, every numeric) LANGUAGE plpgsql AS $$
DECLARE
    begun pg_lsn := pg_current_wal_insert_lsn();
    filled pg_lsn := begun + ((upto - begun) / 3);
    checkpoint_at pg_lsn := begun + every;
    places tid[];
    place tid;
    i int := 0;
    rows int := 0;
    pick int;
    dice int;
BEGIN
    PERFORM setseed(0.5);
    WHILE i % 1000 <> 0 OR pg_current_wal_insert_lsn() < upto LOOP
        i := i + 1;
        IF i % 1000 = 0 AND every > 0 AND pg_current_wal_insert_lsn() > checkpoint_at THEN
            EXECUTE 'CHECKPOINT';
            checkpoint_at := pg_current_wal_insert_lsn() + every;
        END IF;
        dice := CASE WHEN filled IS NULL THEN floor(random() * 100) ELSE 0 END;
        IF filled IS NOT NULL AND i % 1000 = 0 AND pg_current_wal_insert_lsn() > filled THEN
            filled := NULL;
        END IF;
        IF dice < 12 THEN
            INSERT INTO t VALUES (i, note(i)) RETURNING ctid INTO place;
            COMMIT;
            rows := rows + 1;
            places[rows] := place;
            CONTINUE;
        END IF;
        pick := 1 + floor(random() * rows);
        place := places[pick];
        IF dice < 74 THEN
            UPDATE t SET note = note(i) WHERE ctid = place RETURNING ctid INTO place;
            COMMIT;
            places[pick] := place;
        ELSIF dice < 82 THEN
            DELETE FROM t WHERE ctid = place;
            COMMIT;
            places[pick] := places[rows];
            rows := rows - 1;
        ELSIF dice < 92 THEN
            CASE dice % 4
                WHEN 0 THEN PERFORM 1 FROM t WHERE ctid = place FOR UPDATE;
                WHEN 1 THEN PERFORM 1 FROM t WHERE ctid = place FOR NO KEY UPDATE;
                WHEN 2 THEN PERFORM 1 FROM t WHERE ctid = place FOR SHARE;
                ELSE PERFORM 1 FROM t WHERE ctid = place FOR KEY SHARE;
            END CASE;
            IF dice > 89 THEN
                UPDATE t SET note = note(i) WHERE ctid = place RETURNING ctid INTO place;
            END IF;
            COMMIT;
            places[pick] := place;
        ELSIF dice < 96 THEN
            UPDATE t SET note = note(i) WHERE ctid = place;
            ROLLBACK;
        ELSE
            BEGIN
                UPDATE t SET note = note(i) WHERE ctid = place RETURNING ctid INTO place;
                IF dice >= 98 THEN
                    RAISE EXCEPTION 'the subtransaction aborts';
                END IF;
                places[pick] := place;
            EXCEPTION WHEN raise_exception THEN
                NULL;
            END;
            COMMIT;
        END IF;
    END LOOP;
END $$;
