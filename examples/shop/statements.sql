-- The statements whose log is binlog.000001 and binlog.000002. A MySQL 9.7.4 server wrote it with --binlog-format=ROW
-- --binlog-row-metadata=FULL --binlog-checksum=CRC32 --gtid-mode=ON. FLUSH BINARY LOGS stands between the two files.
-- transactions.tsv has what `binlogfeed transactions` prints for the two, worked out apart from the program.

CREATE DATABASE shop; USE shop;
CREATE TABLE customer (id INT UNSIGNED PRIMARY KEY AUTO_INCREMENT, name VARCHAR(60) NOT NULL, email VARCHAR(120), joined DATE NOT NULL, level ENUM('basic','silver','gold') NOT NULL DEFAULT 'basic');
CREATE TABLE product (sku CHAR(8) PRIMARY KEY, title VARCHAR(80) NOT NULL, price DECIMAL(8,2) NOT NULL, tags SET('new','sale','eco'), weight FLOAT);
CREATE TABLE purchase (id BIGINT UNSIGNED PRIMARY KEY AUTO_INCREMENT, customer INT UNSIGNED NOT NULL, placed DATETIME(3) NOT NULL, paid TIMESTAMP NULL, total DECIMAL(10,2) NOT NULL);
CREATE TABLE line (purchase BIGINT UNSIGNED NOT NULL, nr TINYINT UNSIGNED NOT NULL, sku CHAR(8) NOT NULL, amount SMALLINT NOT NULL, PRIMARY KEY (purchase, nr));
INSERT INTO customer (name,email,joined,level) VALUES ('Ada Lovelace','ada@example.org','2024-01-15','gold'),('Søren Kierkegaard',NULL,'2024-02-29','basic'),('李清照','li@example.org','2024-03-08','silver');
INSERT INTO product VALUES ('TEA-0001','Green tea, 100 g',4.90,'eco',0.1),('CUP-0007','Cup "Blue"',12.00,'new,sale',0.35),('POT-0003','Tea pot',39.50,NULL,1.2);
BEGIN; INSERT INTO purchase (customer,placed,total) VALUES (1,'2024-05-06 07:08:09.125',21.80); INSERT INTO line VALUES (1,1,'TEA-0001',2),(1,2,'CUP-0007',1); COMMIT;
UPDATE purchase SET paid='2024-05-06 08:00:00' WHERE id=1;
BEGIN; INSERT INTO purchase (customer,placed,total) VALUES (2,'2024-05-07 10:00:00.000',39.50); INSERT INTO line VALUES (2,1,'POT-0003',1); ROLLBACK;
UPDATE product SET price=price*0.9, tags='sale' WHERE sku IN ('CUP-0007','POT-0003');
FLUSH BINARY LOGS;
BEGIN; INSERT INTO purchase (customer,placed,total) VALUES (3,'2024-06-01 23:59:59.999',35.55); INSERT INTO line VALUES (3,1,'POT-0003',1); UPDATE customer SET level='gold' WHERE id=3; COMMIT;
DELETE FROM line WHERE purchase=1 AND nr=2; UPDATE purchase SET total=9.80 WHERE id=1; UPDATE customer SET id=20 WHERE id=2; DELETE FROM customer WHERE id=20;
