-- A shop: what is in stock and what it costs, and who has ordered it.
CREATE TABLE stock (
    item BIGINT NOT NULL,
    name VARCHAR(20) NOT NULL,
    pieces INT UNSIGNED NOT NULL DEFAULT 0,
    cents BIGINT,
    PRIMARY KEY (item),
    UNIQUE KEY by_name (name)
);
CREATE TABLE orders (customer VARCHAR(20) NOT NULL, item BIGINT NOT NULL, pieces INT NOT NULL, PRIMARY KEY (customer, item));

INSERT INTO stock VALUES (3, 'teapot', 40, 1999), (1, 'cup', 120, 250), (2, 'saucer', DEFAULT, NULL);
INSERT INTO stock VALUES (4, 'Cup ', 1, 1);                  -- the same name, but for case and spaces: refused
UPDATE stock SET pieces = pieces + 80, cents = 150 WHERE name = 'saucer';
SELECT name, pieces, cents FROM stock ORDER BY cents DESC;

-- An order takes from the stock, wholly or not at all.
BEGIN;
INSERT INTO orders VALUES ('Ada', 1, 6), ('Ada', 3, 1);
UPDATE stock SET pieces = pieces - 6 WHERE item = 1;
UPDATE stock SET pieces = pieces - 1 WHERE item = 3;
COMMIT;

-- Another session doesn't see what isn't committed.
SESSION counter;
BEGIN;
INSERT INTO orders VALUES ('Bob', 2, 4);
SESSION main;
SELECT COUNT(*) FROM orders;
SESSION counter;
ROLLBACK;
SESSION main;

-- An index is made while rows are written.
BEGIN INDEX by_item ON orders (item);
WORK 10;
INSERT INTO orders VALUES ('Cleo', 3, 2);
FINISH INDEX by_item ON orders;
SELECT customer, pieces FROM orders FORCE INDEX (by_item) WHERE item = 3;
