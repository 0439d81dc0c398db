-- A table of stock, an index, a transaction that is taken back, and a few questions.
create table stock (name text, kind text, count integer, price real);
begin;
with recursive number(n) as (select 1 union all select n + 1 from number where n < 200)
insert into stock select 'part ' || n, case n % 3 when 0 then 'bolt' when 1 then 'nut' else 'gear' end, n * 7 % 31, n / 4.0 from number;
commit;
create index by_kind on stock (kind, count);
begin;
delete from stock where kind = 'nut';
rollback;
select kind, count(*), sum(count), round(avg(price), 2) from stock group by kind order by kind;
select name, price from stock where kind = 'gear' and count > 28 order by price desc limit 3;
select a.kind, count(*) from stock a join stock b on a.count = b.count and a.kind < b.kind group by a.kind order by 1;
select upper(substr('checkpoint', 1, 5)), length('epoch'), 1 << 40, 7.0 / 2;
