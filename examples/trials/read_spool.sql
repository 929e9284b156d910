-- The records of a file, out of a spool file by SQLite alone: of each its place in the file, its SRCB, and its bytes in
-- hexadecimal. :key is what the file has in the column `key` of the table `files`. Use it on a copy of FILE and of
-- FILE-wal, with SQLite 3.8.3 or later, in the shell `sqlite3` or from Python:
--
--     sqlite3 COPY "select key, customer, owner_node || '.' || number from files order by id"
--     sqlite3 COPY -cmd ".parameter set :key 7" < read_spool.sql
--     sqlite3.connect("COPY").execute(pathlib.Path("read_spool.sql").read_text(), {"key": 7})
--
-- A file's rows have the numbers 8388608 * key + place. One with an SRCB below 256 is one record, at `place`. One with
-- 256 is several, from `place` on, one after the other: SRCB (1 byte), length (2 bytes, the high one first), bytes.
-- They stand as they came. If the column `to_node` of the table `files` begins with ">", the file was sent to the node
-- behind it: then the headers that name its destination name that node, whatever node stands in them.
with recursive octet(value, hex) as (
    select 0, '00'
    union all
    select value + 1, printf('%02X', value + 1) from octet where value < 255
),
own(place, srcb, bytes) as (
    select place, srcb, hex(bytes) from records where id >= 8388608 * :key and id < 8388608 * (:key + 1)
),
walk(place, srcb, bytes, rest) as (
    select place, srcb, bytes, '' from own where srcb < 256
    union all
    select place - 1, null, '', bytes from own where srcb = 256
    union all
    select place + 1, control.value, substr(rest, 7, 2 * (256 * high.value + low.value)),
        substr(rest, 7 + 2 * (256 * high.value + low.value))
    from walk
        join octet as control on control.hex = substr(rest, 1, 2)
        join octet as high on high.hex = substr(rest, 3, 2)
        join octet as low on low.hex = substr(rest, 5, 2)
)
select place, srcb, bytes from walk where srcb is not null order by place;
