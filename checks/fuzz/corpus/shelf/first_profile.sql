PRAGMA page_size = 512;
CREATE TABLE profile (one INTEGER PRIMARY KEY CHECK (one = 1), number INTEGER NOT NULL);
CREATE TABLE list (name TEXT NOT NULL PRIMARY KEY, uris TEXT NOT NULL);
CREATE TABLE sticker (uri TEXT NOT NULL, name TEXT NOT NULL, value TEXT NOT NULL, PRIMARY KEY (uri, name));
INSERT INTO profile VALUES (1, 1);
INSERT INTO list VALUES ('one', 'a.wav' || char(10));
INSERT INTO sticker VALUES ('a.wav', 'rating', '5'), ('b/c.wav', 'mood', 'calm');
