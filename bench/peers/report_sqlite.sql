-- A table's report under Matrix One by SQLite: sqlite3 :memory: '.read report_sqlite.sql' < TABLE.csv
-- A trigger for each kind of message admits it or leaves it out; the figures are grouped at the end. It presumes a table as `to_table` writes it, and
-- checks no field.
.bail on
.import --csv /dev/stdin given

-- The cells of each code: N is 0, F is 1, S is 2 and Y is 3.
CREATE TABLE code (position, codes, high_low, last, own_high_low, own_last, counts);
INSERT INTO code VALUES
    (1, '@', 3, 3, 3, 3, 3), (1, 'CNR', 0, 0, 0, 0, 3),
    (2, 'FO56', 3, 3, 3, 3, 3), (2, '4', 3, 1, 3, 1, 3), (2, '7', 0, 0, 0, 0, 3), (2, '9', 3, 3, 0, 0, 0),
    (3, 'TU', 0, 0, 0, 0, 3), (3, 'L', 3, 2, 3, 2, 3), (3, 'Z', 3, 1, 3, 1, 3),
    (4, 'ABDSXY1', 3, 3, 3, 3, 3), (4, 'HIVW', 0, 0, 0, 0, 3), (4, 'PG', 3, 1, 3, 1, 3), (4, 'M', 0, 0, 3, 3, 0), (4, 'Q', 0, 0, 3, 0, 0);

-- The conditions of the table that the matrix has: each code but the blanks is listed.
CREATE TABLE cells (condition TEXT PRIMARY KEY, high_low, last, own_high_low, own_last, counts) WITHOUT ROWID;
INSERT INTO cells SELECT condition, MIN(high_low), MIN(last), MIN(own_high_low), MIN(own_last), MIN(counts)
    FROM (SELECT DISTINCT condition FROM given WHERE condition <> '') JOIN code ON instr(codes, substr(condition, position, 1))
    GROUP BY condition HAVING COUNT(*) = length(replace(condition, '_', ''));

CREATE TABLE tape (length INTEGER);
INSERT INTO tape VALUES (0);
CREATE TABLE seat (participant TEXT PRIMARY KEY, at INTEGER, last INTEGER) WITHOUT ROWID;
INSERT INTO seat SELECT participant, MIN(rowid), 0 FROM given GROUP BY participant;
CREATE TABLE report (participant TEXT, number INTEGER, place INTEGER, symbol TEXT, price INTEGER, size INTEGER, condition TEXT, stands INTEGER,
    PRIMARY KEY (participant, number)) WITHOUT ROWID;

CREATE VIEW message AS SELECT kind, participant, CAST(number AS INTEGER) AS number, symbol, CAST(target AS INTEGER) AS target,
    CAST(ROUND(price * 10000) AS INTEGER) AS price, CAST(size AS INTEGER) AS size, condition FROM given;

CREATE TRIGGER admit_report INSTEAD OF INSERT ON message
    WHEN new.kind = 'report' AND new.number > (SELECT last FROM seat WHERE participant = new.participant)
        AND EXISTS (SELECT 1 FROM cells WHERE condition = new.condition)
BEGIN
    UPDATE tape SET length = length + 1;
    UPDATE seat SET last = new.number WHERE participant = new.participant;
    INSERT INTO report VALUES (new.participant, new.number, (SELECT length FROM tape), new.symbol, new.price, new.size, new.condition, 1);
END;
CREATE TRIGGER admit_correction INSTEAD OF INSERT ON message
    WHEN new.kind = 'correct' AND new.number > (SELECT last FROM seat WHERE participant = new.participant)
        AND EXISTS (SELECT 1 FROM cells WHERE condition = new.condition)
        AND (SELECT stands AND symbol = new.symbol FROM report WHERE participant = new.participant AND number = new.target)
BEGIN
    UPDATE tape SET length = length + 1;
    UPDATE seat SET last = new.number WHERE participant = new.participant;
    UPDATE report SET price = new.price, size = new.size, condition = new.condition WHERE participant = new.participant AND number = new.target;
END;
CREATE TRIGGER admit_cancel INSTEAD OF INSERT ON message
    WHEN new.kind IN ('cancel', 'reinstate') AND new.number > (SELECT last FROM seat WHERE participant = new.participant)
        AND (SELECT stands = (new.kind = 'cancel') AND symbol = new.symbol FROM report WHERE participant = new.participant AND number = new.target)
BEGIN
    UPDATE tape SET length = length + 1;
    UPDATE seat SET last = new.number WHERE participant = new.participant;
    UPDATE report SET stands = NOT stands WHERE participant = new.participant AND number = new.target;
END;
INSERT INTO message SELECT kind, participant, CAST(number AS INTEGER), symbol, CAST(target AS INTEGER), CAST(ROUND(price * 10000) AS INTEGER),
    CAST(size AS INTEGER), condition FROM given ORDER BY rowid;

CREATE TABLE trade (place INTEGER PRIMARY KEY, participant TEXT, price INTEGER);
INSERT INTO trade SELECT place, participant, price FROM report WHERE stands ORDER BY place;
-- Each trade twice: by the consolidated cells and by the participant's own.
CREATE TABLE counted AS
    SELECT symbol, 'ALL' AS who, place, participant, price, size, high_low, last, counts FROM report JOIN cells USING (condition) WHERE stands
    UNION ALL
    SELECT symbol, participant, place, participant, price, size, own_high_low, own_last, counts FROM report JOIN cells USING (condition) WHERE stands;
-- The last is set by the latest trade with Y, or else by the first that may set one, and after it by that participant's trades with S.
CREATE TABLE figure AS SELECT symbol, who, MAX(CASE WHEN high_low THEN price END) AS high, MIN(CASE WHEN high_low THEN price END) AS low,
    MIN(CASE WHEN last THEN place END) AS open_at, SUM(CASE WHEN counts THEN size ELSE 0 END) AS volume, COUNT(*) AS trades,
    IFNULL(MAX(CASE WHEN last = 3 THEN place END), MIN(CASE WHEN last THEN place END)) AS base_at
    FROM counted GROUP BY symbol, who;
CREATE TABLE found AS SELECT symbol, who, MIN(CASE WHEN high_low AND counted.price = high THEN counted.place END) AS high_at,
    MIN(CASE WHEN high_low AND counted.price = low THEN counted.place END) AS low_at,
    IFNULL(MAX(CASE WHEN counted.last = 2 AND counted.place > base_at AND counted.participant = base.participant THEN counted.place END), base_at) AS last_at
    FROM counted JOIN figure USING (symbol, who) LEFT JOIN trade AS base ON base.place = base_at GROUP BY symbol, who;

CREATE TABLE listing AS SELECT symbol, MIN(rowid) AS at FROM given GROUP BY symbol;
.mode csv
.separator , "\n"
.headers on
SELECT listing.symbol, IFNULL(who, 'ALL') AS who, opened.price AS open, open_at, high, high_at, low, low_at, ended.price AS last, last_at,
    IFNULL(volume, 0) AS volume, IFNULL(trades, 0) AS trades
    FROM listing LEFT JOIN figure USING (symbol) LEFT JOIN found USING (symbol, who) LEFT JOIN trade AS opened ON opened.place = open_at
    LEFT JOIN trade AS ended ON ended.place = last_at LEFT JOIN seat ON seat.participant = who
    ORDER BY listing.at, IFNULL(seat.at, 0);
