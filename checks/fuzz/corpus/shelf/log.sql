PRAGMA page_size = 512;
CREATE TABLE profile (one INTEGER PRIMARY KEY CHECK (one = 1), number INTEGER NOT NULL);
CREATE TABLE list (name TEXT NOT NULL PRIMARY KEY, uris TEXT NOT NULL);
CREATE TABLE sticker (uri TEXT NOT NULL, name TEXT NOT NULL, value TEXT NOT NULL, PRIMARY KEY (uri, name));
CREATE TABLE note (kind TEXT NOT NULL, target TEXT NOT NULL, name TEXT NOT NULL, value TEXT NOT NULL, PRIMARY KEY (kind, target, name));
INSERT INTO profile VALUES (1, 2);
INSERT INTO list VALUES ('one', 'a.wav' || char(10) || 'b/c.wav' || char(10)), ('two', ''), ('Zoë "so"', 'no such.wav' || char(10));
INSERT INTO note VALUES ('song', 'a.wav', 'rating', '5'), ('playlist', 'two', 'mood', 'calm'), ('song', 'b/c.wav', 'rating', '');
-- log
INSERT INTO list VALUES ('three', 'a.wav' || char(10));
UPDATE note SET value = '4' WHERE target = 'a.wav';
DELETE FROM list WHERE name = 'two';
