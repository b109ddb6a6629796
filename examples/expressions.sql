CREATE TABLE fruit(name TEXT, price INTEGER, note);
INSERT INTO fruit VALUES('apple', 12, NULL), ('Pear', '7', x'00ff'), ('fig', NULL, 'dried');
SELECT name, price * 3 AND price > 8, coalesce(price, 'none') FROM fruit;
SELECT upper(name) || '!' FROM fruit WHERE name LIKE '%p%' AND price BETWEEN 5 AND 20;
SELECT CASE WHEN note IS NULL THEN 'fresh' ELSE typeof(note) END FROM fruit WHERE name = 'PEAR' COLLATE NOCASE OR price IS NULL;
SELECT name, price / 2.0 FROM fruit WHERE price < 10 AND name <> 'x';
