BEGIN
INSERT INTO bank.account (id, balance, owner) VALUES (1, 100, 'ann')
INSERT INTO bank.account (id, balance, owner) VALUES (2, 50, 'bob')
COMMIT
BEGIN
UPDATE bank.account SET balance = 93 WHERE id = 1
UPDATE bank.account SET balance = 57 WHERE id = 2
SELECT owner, balance FROM bank.account WHERE balance > 60
COMMIT
BEGIN
DELETE FROM bank.account WHERE id = 2
ROLLBACK
SELECT * FROM bank.account
BEGIN
INSERT INTO bank.account (id, owner) VALUES (2, 'carl')
INSERT INTO bank.account (owner) VALUES ('carl')
SELECT * FROM bank.account LIMIT 5
DELETE FROM bank.account WHERE owner = 'bob'
COMMIT
VACUUM
VACUUM
